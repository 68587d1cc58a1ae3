%% The Diameter home server of tests/peers/run, on Erlang's own stack: NASREQ (RFC 4005), EAP (RFC 4072) and accounting, for the
%% one user nemo, whose password is arctangent.
%%
%%     erl -noinput -pa BEAMS -run home start ADDRESS PORT FOLDER GRAMMAR
%%
%% FOLDER/seen gets a line for each request, COMMAND FLAGS HOP END SESSION WHAT.., and one for each link that comes up or
%% goes down. WHAT also tells what the commands' grammars don't allow. With the GRAMMAR strict an AVP that has the M flag
%% and isn't in its command's grammar counts as that; with lenient it doesn't. The request is answered all the same.
%%
%% FOLDER/hold: no request is answered while this file is there.
%% FOLDER/half: of the next answer to a request of an application half is sent, and then the server dies.
-module(home).

-export([start/1, message/4]).
-export([peer_up/5, peer_down/5, pick_peer/6, handle_request/5]).

-include_lib("diameter/include/diameter.hrl").

-define(HOST, "home.example").
-define(REALM, "example").
-define(NAME, <<"nemo">>).
-define(PASSWORD, <<"arctangent">>).

%% How long an answer is held at most, in milliseconds.
-define(LONGEST_HOLD, 60000).

start([Address, Port, Folder, Grammar]) ->
    {ok, Ip} = inet:parse_address(Address),
    ok = diameter:start(),
    ok = diameter:start_service(home, service(Ip, Folder, Grammar)),
    {ok, _} = diameter:add_transport(home, {listen, transport(Ip, list_to_integer(Port), Folder)}),
    ok.

service(Ip, Folder, Grammar) ->
    [{'Origin-Host', ?HOST},
     {'Origin-Realm', ?REALM},
     {'Host-IP-Address', [Ip]},
     {'Vendor-Id', 0},
     {'Product-Name', "home"},
     {'Auth-Application-Id', [1, 5]},
     {'Acct-Application-Id', [3]},
     {decode_format, map},
     {string_decode, false},
     {strict_mbit, Grammar =:= "strict"},
     %% A link may come up before the end of the one before it was heard of, and requests on it count at once, though
     %% RFC 3539 lets a peer that was silent wait for three answers to its watchdog.
     {restrict_connections, false},
     {watchdog_config, [{okay, 0}]}
     | [{application, [{alias, Dictionary},
                       {dictionary, Dictionary},
                       {module, [?MODULE, Dictionary, Folder]},
                       {request_errors, callback}]}
        || Dictionary <- [rfc4005_nas, home_accounting, rfc4072_eap]]].

transport(Ip, Port, Folder) ->
    [{transport_module, diameter_tcp},
     {transport_config, [{reuseaddr, true},
                         {ip, Ip},
                         {port, Port},
                         {message_cb, {?MODULE, message, [Folder, young]}}]}].

%% What is received and sent. The stack loses a request that comes right behind the capabilities, before its service knows
%% of the link, so the first one waits a little. Half of an answer is the switch FOLDER/half.
message(recv, <<_:32, 1:1, _:31, Application:32, _/binary>> = Octets, Folder, young) when Application =/= 0 ->
    timer:sleep(100),
    [Octets, {?MODULE, message, [Folder, known]}];
message(recv, Octets, _, _) ->
    [Octets];
message(send, Packet, Folder, _) ->
    Octets = case Packet of
                 #diameter_packet{bin = Bin} -> Bin;
                 Bin -> Bin
             end,
    case is_answer(Octets) andalso file:delete(filename:join(Folder, half)) of
        ok ->
            spawn(fun() -> timer:sleep(300), erlang:halt(1, [{flush, false}]) end),
            [binary:part(Octets, 0, byte_size(Octets) div 2)];
        _ ->
            [Packet]
    end;
message(ack, _, _, _) ->
    [].

%% Is it an answer of an application?
is_answer(<<_:32, 0:1, _:7, _:24, Application:32, _/binary>>) ->
    Application =/= 0;
is_answer(_) ->
    false.

%% Links. Each application hears of them; one tells.

peer_up(home, Peer, State, Dictionary, Folder) ->
    tell_link("up", Peer, Dictionary, Folder),
    State.

peer_down(home, Peer, State, Dictionary, Folder) ->
    tell_link("down", Peer, Dictionary, Folder),
    State.

tell_link(What, {_, #diameter_caps{origin_host = {_, Peer}}}, rfc4005_nas, Folder) ->
    tell(Folder, "~s ~s", [What, Peer]);
tell_link(_, _, _, _) ->
    ok.

%% The server asks nobody.
pick_peer(_, _, home, _, _, _) ->
    false.

%% Requests.

handle_request(#diameter_packet{header = Header, msg = Message, errors = Errors}, home, _, _, Folder) ->
    [Name | Avps] = case Message of
                        [_ | #{}] -> Message;
                        _ -> [none | #{}]
                    end,
    #diameter_header{cmd_code = Command, hop_by_hop_id = Hop, end_to_end_id = End} = Header,
    tell(Folder, "~b ~2.16.0b ~8.16.0b ~8.16.0b ~s ~s~s",
         [Command, flags(Header), Hop, End, maps:get('Session-Id', Avps, <<"-">>), what(Name, Avps),
          [complaint(Error) || Error <- Errors]]),
    held(filename:join(Folder, hold), ?LONGEST_HOLD),
    case Name of
        none ->
            {answer_message, 3001};
        _ ->
            {Answer, More} = answer(Name, Avps),
            Common = #{'Session-Id' => maps:get('Session-Id', Avps, <<"none">>),
                       'Origin-Host' => ?HOST,
                       'Origin-Realm' => ?REALM},
            {reply, #diameter_packet{msg = [Answer | maps:merge(Common, More)], errors = false}}
    end.

flags(#diameter_header{is_request = R, is_proxiable = P, is_error = E, is_retransmitted = T}) ->
    lists:sum([Bit || {true, Bit} <- [{R, 128}, {P, 64}, {E, 32}, {T, 16}]]).

what('ACR', #{'Accounting-Record-Type' := Type, 'Accounting-Record-Number' := Number}) ->
    io_lib:format("record=~b number=~b", [Type, Number]);
what('STR', #{'Termination-Cause' := Cause}) ->
    io_lib:format("cause=~b", [Cause]);
what(_, #{'User-Name' := [User]}) ->
    ["user=", User];
what(_, _) ->
    "-".

complaint({Result, #diameter_avp{code = Code, is_mandatory = M}}) ->
    io_lib:format(" refused=~b/avp=~b/m=~s", [Result, Code, M]);
complaint(Result) ->
    io_lib:format(" refused=~p", [Result]).

held(_, Left) when Left =< 0 ->
    ok;
held(File, Left) ->
    case filelib:is_file(File) of
        true ->
            timer:sleep(20),
            held(File, Left - 20);
        false ->
            ok
    end.

%% The answer's name, and its AVPs besides those that each has.

answer('AAR', #{'Auth-Request-Type' := Type} = Request) ->
    Answer = #{'Auth-Application-Id' => 1, 'Auth-Request-Type' => Type},
    {'AAA', case is_nemo(Request) of
                true ->
                    Answer#{'Result-Code' => 2001,
                            'Reply-Message' => ["welcome"],
                            'Class' => ["gold"],
                            'Session-Timeout' => [3600]};
                false ->
                    Answer#{'Result-Code' => 4001, 'Reply-Message' => ["no"]}
            end};
answer('DER', #{'Auth-Request-Type' := Type, 'Session-Id' := Session, 'EAP-Payload' := Payload}) ->
    Answer = #{'Auth-Application-Id' => 5, 'Auth-Request-Type' => Type},
    {'DEA', maps:merge(Answer, eap(Session, Payload))};
answer('ACR', #{'Accounting-Record-Type' := Type, 'Accounting-Record-Number' := Number}) ->
    {'ACA', #{'Result-Code' => 2001,
              'Accounting-Record-Type' => Type,
              'Accounting-Record-Number' => Number,
              'Acct-Application-Id' => [3]}};
answer('STR', _) ->
    {'STA', #{'Result-Code' => 2001}}.

is_nemo(#{'User-Name' := [?NAME], 'User-Password' := [Password]}) ->
    Password =:= ?PASSWORD;
is_nemo(#{'User-Name' := [?NAME],
          'CHAP-Challenge' := [Challenge],
          'CHAP-Auth' := [#{'CHAP-Ident' := Ident, 'CHAP-Response' := [Response]}]}) ->
    Response =:= erlang:md5([Ident, ?PASSWORD, Challenge]);
is_nemo(_) ->
    false.

%% The server's side of EAP-MD5 (RFC 3748, section 5.4). It keeps nothing: a challenge follows from its session and number.

eap(_, <<>>) ->
    eap_asks(1, <<1>>);
eap(Session, <<2, Number, _:16, 1, Name/binary>>) when Name =:= ?NAME ->
    Next = (Number + 1) rem 256,
    eap_asks(Next, <<4, 16, (challenge(Session, Next))/binary>>);
eap(Session, <<2, Number, _:16, 4, 16, Response:16/binary, _/binary>>) ->
    case erlang:md5([Number, ?PASSWORD, challenge(Session, Number)]) of
        Response -> eap_ends(2001, 3, Number);
        _ -> eap_ends(4001, 4, Number)
    end;
eap(_, <<_, Number, _/binary>>) ->
    eap_ends(4001, 4, Number).

challenge(Session, Number) ->
    erlang:md5(["challenge", Session, Number]).

eap_asks(Number, Data) ->
    #{'Result-Code' => 1001,
      'Multi-Round-Time-Out' => [20],
      'EAP-Payload' => [<<1, Number, (byte_size(Data) + 4):16, Data/binary>>]}.

eap_ends(Result, Code, Number) ->
    #{'Result-Code' => Result, 'EAP-Payload' => [<<Code, Number, 4:16>>]}.

%% One line, written at once.
tell(Folder, Format, Words) ->
    ok = file:write_file(filename:join(Folder, seen), [io_lib:format(Format, Words), $\n], [append]).
