#!/usr/bin/env python3
"""The cases of `agent dynamic` beside this file, and what each is to print, which rules.py works out apart from the program.

    reference.py --write          writes the cases
    reference.py --check          ends with status 1 where they aren't what it writes
    reference.py < TRANSCRIPT     prints what that transcript gives
"""
import itertools
import pathlib
import re
import sys
from types import SimpleNamespace

sys.dont_write_bytecode = True
from rules import Core, answering, asking, attribute, avp, four, message, play, read_message, settings_of, signed  # noqa: E402

HERE = pathlib.Path(__file__).resolve().parent

FORM = """\
# Each case is a transcript that `agent dynamic` reads. A line `== NAME` begins it and says what it shows. A line `< ..` is a line of
# the transcript; the lines `> ..` below it are what it gives, each without the line's number that is printed before it. A line `= ..`
# ends the case: the end line, or what is said of a bad line on standard error, with status 3 and no end line. $NAME is the text of
# that name in `names`, and {XX*N} are N octets XX. reference.py wrote this file.
"""
NAMES_FORM = "# Texts that stand in many cases: a name and, behind the first space, the text. reference.py wrote this file.\n"

# ---- What the cases are made of

AGENT = "agent agent.example example example 192.0.2.1 7 30000 64 64 30000"
ONE = SimpleNamespace(address="192.168.1.16", secret=b"xyzzy5461")
TWO = SimpleNamespace(address="192.168.1.17", secret=b"arctangent")
NAS1 = f"client nas1 {ONE.address} {ONE.secret.hex()} nas1.example example plain refuse -"
NAS2 = f"client nas2 {TWO.address} {TWO.secret.hex()} nas2.example example plain refuse -"
HEAD = [AGENT, NAS1, NAS2, "0 ready"]
SESSION, OTHER_SESSION, THIRD_SESSION = b"agent.example;7;0", b"agent.example;7;1", b"agent.example;7;2"
NOBODY = b"agent.example;7;9"

NAMES = {"agent": AGENT, "nas1": NAS1, "nas2": NAS2}
FILES = {}


def named(name, octets):
    """These octets, which stand under a name in the cases."""
    if NAMES.setdefault(name, octets.hex()) != octets.hex():
        raise ValueError(f"{name} has two values")
    return octets


def case(file, name, *lines, head=HEAD):
    """A case of a file: lines, or lists of lines, behind the usual head."""
    FILES.setdefault(file, {})[name] = [*head, *(line for part in lines for line in ([part] if isinstance(part, str) else part))]


def acct(moment, octets, client=ONE):
    return f"{moment} acct {client.address} 1812 {octets.hex()}"


def link(moment, *octets):
    return f"{moment} link {b''.join(octets).hex() or '-'}"


def control(moment, octets, address=ONE.address, port=3799):
    return f"{moment} control {address} {port} {octets.hex() or '-'}"


def record(identifier, status=1, session=SESSION, users=(b"nemo",), accounts=(b"A1",), client=ONE):
    """An Accounting-Request: a Start, a Stop (2) or an Interim record (3)."""
    texts = [attribute(1, user) for user in users] + [attribute(44, account) for account in accounts]
    carrier = [attribute(25, b"Diameter/" + session)] if session else []
    return asking(4, identifier, b"".join([attribute(40, four(status)), *texts, *carrier]), client.secret)


def recorded(hop, session=SESSION, result=2001):
    """The home server's answer to the record that was sent with this number."""
    return message(0x40, 271, 3, hop, (7 << 20) + hop, avp(263, session), avp(268, four(result)), avp(264, b"home.example"),
                   avp(296, b"example"))


def abort(session=SESSION, origin=b"home.example", end=10, flags=0xC0, application=0, hop=9):
    return message(flags, 274, application, hop, end, avp(263, session), avp(264, origin))


def abort_of(*avps, flags=0xC0, command=274):
    return message(flags, command, 0, 9, 10, *avps)


def disconnect(identifier, users=(b"nemo",), account=b"A1", client=ONE):
    own = bytes(map(int, client.address.split(".")))
    return asking(40, identifier, b"".join([*(attribute(1, user) for user in users), attribute(4, own), attribute(44, account)]),
                  client.secret)


def ack(request, client=ONE, attributes=b""):
    return answering(41, request, client.secret, attributes)


def nak(request, client=ONE, attributes=b""):
    return answering(42, request, client.secret, attributes)


START, STOP = named("start", record(9)), named("stop", record(10, status=2))
LATER_START = named("later-start", record(12, accounts=[b"A2"]))
OTHER_START = named("other-start", record(11, session=OTHER_SESSION, users=[b"alice"], accounts=[b"B1"]))
THIRD_START = named("third-start", record(13, session=THIRD_SESSION, users=[b"bob"], accounts=[b"C1"]))
ABORT, NEXT_ABORT = named("abort", abort()), named("next-abort", abort(end=11, hop=10))
OTHER_ABORT = named("other-abort", abort(OTHER_SESSION, end=20, hop=19))
THIRD_ABORT = named("third-abort", abort(THIRD_SESSION, end=30, hop=29))
STRANGE_ABORT = named("strange-abort", abort(NOBODY, end=40, hop=39))
ASKING = named("watchdog", message(0x80, 280, 0, 1, 2))
ANSWERER = Core(settings_of(AGENT.split(" ")), {})
for asked in ("abort", "next-abort", "other-abort", "third-abort", "strange-abort", "watchdog"):
    for result in (2001, 5002, 5012):
        named(f"{asked}-{result}", ANSWERER.answer(read_message(bytes.fromhex(NAMES[asked])), result))
DISCONNECT, NEXT_DISCONNECT = named("disconnect-0", disconnect(0)), named("disconnect-1", disconnect(1))
OTHER_DISCONNECT = named("other-disconnect-1", disconnect(1, [b"alice"], b"B1"))
THIRD_DISCONNECT = named("third-disconnect-2", disconnect(2, [b"bob"], b"C1"))
ACK, NAK = named("ack-0", ack(DISCONNECT)), named("nak-0", nak(DISCONNECT))
HOME, OWN_SESSION = avp(264, b"home.example"), avp(263, SESSION)
# What is sent on of records that are the first, the second and the third of a link.
for names in (("start", "other-start", "third-start"), ("start", "stop", "later-start")):
    records = [acct(0, bytes.fromhex(NAMES[name])) for name in names]
    for name, (_, sent) in zip(names, play([*HEAD, *records])[0][len(HEAD):]):
        named(f"{name}-sent", bytes.fromhex(sent[0].removeprefix("send ")))
CAPABILITIES = named("capabilities-answer", message(0, 257, 0, 2**31, 7 << 20, avp(268, four(2001)), HOME, avp(296, b"example")))
BEGUN = acct(1000, START)
OPENED = [BEGUN, link(2000, ABORT)]
THREE_STARTS = [acct(1000, START), acct(1000, OTHER_START), acct(1000, THIRD_START)]
THREE_OPENED = [*THREE_STARTS, link(2000, ABORT, OTHER_ABORT), link(2000, THIRD_ABORT)]

# ---- What a caught Abort-Session-Request leads to

for name, *lines in (
    ("no Start of the session came: 5002", link(2000, ABORT)),
    ("the session is in the book: a Disconnect-Request, and 2001 once it is acknowledged", OPENED, control(2100, ACK)),
    ("the same request while its abort is open: dropped", OPENED, link(2000, ABORT)),
    ("the same request with another number and the flag T: dropped", OPENED, link(2000, abort(flags=0xD0, hop=77))),
    ("an open abort's Origin-Host and End-to-End Identifier with another session of the book: dropped", THREE_STARTS,
     link(2000, ABORT), link(2000, abort(OTHER_SESSION))),
    ("an open abort's Origin-Host and End-to-End Identifier with a session that isn't in the book: dropped before 5002", OPENED,
     link(2000, abort(NOBODY))),
    ("the same request after a Stop, while its abort is open: dropped before 5002", OPENED, acct(2010, STOP), link(2020, ABORT)),
    ("the session has an open abort: 5012", OPENED, link(2000, NEXT_ABORT)),
    ("the session has an open abort from another Origin-Host with the same End-to-End Identifier: 5012", OPENED,
     link(2000, abort(origin=b"home2.example"))),
    ("an Origin-Host in other letters is another", OPENED, link(2000, abort(origin=b"HOME.example"))),
    ("a Stop while an abort of the session is open: another request gets 5002 before 5012", OPENED, acct(2010, STOP),
     link(2020, NEXT_ABORT)),
    ("the same request once its abort is closed opens another", OPENED, control(2100, NAK), link(2200, ABORT)),
    ("identifiers count the aborts that were opened, not the requests", link(500, ABORT), THREE_OPENED),
    ("two requests in one line of the link, and one in two", THREE_STARTS, link(2000, ABORT, OTHER_ABORT),
     link(2001, THIRD_ABORT[:30]), link(2002, THIRD_ABORT[30:])),
    ("the answer keeps of the flags P alone", link(2000, abort(flags=0x80)), link(2000, abort(flags=0xFF))),
    ("the answer keeps the application and the numbers", link(2000, abort(application=1, hop=2**32 - 1, end=2**32 - 1)),
     OPENED[:1], link(2000, abort(application=16777216, hop=0, end=0)), control(2100, ACK)),
    ("other AVPs beside the two, before and behind, known or not", BEGUN, link(2000, abort_of(
        avp(9999, b"a"), HOME, avp(258, four(1)), avp(33, b""), OWN_SESSION, avp(278, b"abc"), avp(283, b"example"))),
     control(2100, ACK)),
    ("the two AVPs with a flag M that is clear and with reserved flags", BEGUN,
     link(2000, abort_of(avp(263, SESSION, 0), avp(264, b"home.example", 0x7F))), control(2100, ACK)),
    ("a vendor's AVPs of the same codes don't count", BEGUN, link(2000, abort_of(
        avp(263, NOBODY, 0xC0, four(9)), avp(264, b"a", 0x80, four(0)), OWN_SESSION, HOME)), control(2100, ACK)),
    ("a Session-Id of 4096 octets, which the answer has", link(2000, abort(b"s" * 4096))),
    ("a Session-Id of 4097 octets, which the answer hasn't", link(2000, abort(b"s" * 4097))),
    ("a Session-Id and an Origin-Host of no octets", link(2000, abort(b"", b""))),
    ("a Session-Id and an Origin-Host that are no text", link(2000, abort(b"\0\xff \n", b"\0"))),
    ("a Session-Id that goes on where the book's ends", BEGUN, link(2000, abort(SESSION + b"0")), link(2000, abort(SESSION[:-1]))),
):
    case("aborts", name, *lines)
for name, *lines in (
    ("answers of the book don't count for the backlog", BEGUN, link(1500, recorded(0)), "1500 drain", link(2000, ABORT),
     control(2100, NAK), link(2200, ABORT), control(2200, ack(NEXT_DISCONNECT)), link(2300, ABORT), acct(2400, OTHER_START),
     acct(2500, THIRD_START)),
    ("answers of the book need no room and take none", BEGUN, link(2000, *[ASKING] * 63), link(2100, STRANGE_ABORT),
     link(2200, ABORT), control(2300, ACK), link(2400, ASKING), link(2500, STRANGE_ABORT), link(2600, NEXT_ABORT),
     link(2700, ASKING), link(2800, STRANGE_ABORT)),
):
    case("aborts", name, *lines, head=[AGENT.replace("64 64", "64 2"), *HEAD[1:]])

# ---- What isn't caught

TWICE = [OWN_SESSION, avp(263, NOBODY), HOME]
for name, *lines in (
    ("two Session-Ids", BEGUN, link(2000, abort_of(*TWICE))),
    ("the same Session-Id twice", BEGUN, link(2000, abort_of(OWN_SESSION, HOME, OWN_SESSION))),
    ("no Session-Id", BEGUN, link(2000, abort_of(HOME))),
    ("no Origin-Host", BEGUN, link(2000, abort_of(OWN_SESSION))),
    ("two Origin-Hosts", BEGUN, link(2000, abort_of(OWN_SESSION, HOME, HOME))),
    ("no AVPs", BEGUN, link(2000, abort_of())),
    ("a vendor's Session-Id alone", BEGUN, link(2000, abort_of(avp(263, SESSION, 0xC0, four(9)), HOME))),
    ("a vendor's Origin-Host alone", BEGUN, link(2000, abort_of(OWN_SESSION, avp(264, b"home.example", 0xC0, four(9))))),
    ("AVPs that can't be read, behind both: four octets that are left", BEGUN, link(2000, abort_of(OWN_SESSION, HOME, bytes(4)))),
    ("AVPs that can't be read, between the two", BEGUN, link(2000, abort_of(OWN_SESSION, bytes.fromhex("0000000140000007"), HOME))),
    ("AVPs that can't be read, before both", BEGUN, link(2000, abort_of(bytes.fromhex("0000000140ffffff"), OWN_SESSION, HOME))),
    ("a vendor's AVP of length 8, behind both", BEGUN, link(2000, abort_of(OWN_SESSION, HOME, bytes.fromhex("0000000180000008")))),
    ("an answer", BEGUN, link(2000, abort(flags=0x40))),
    ("requests of other commands: 258 (Re-Auth), 275, 257, 280", BEGUN,
     *(link(2000, abort_of(OWN_SESSION, HOME, command=command)) for command in (258, 275, 257, 280))),
    ("it is no open abort", BEGUN, link(2000, abort_of(*TWICE)), control(2100, ACK), link(2200, ABORT)),
):
    case("not-caught", name, *lines)
NO_LINK = [AGENT, NAS1]
for name, *lines in (
    ("before any link", link(0, ABORT), "0 ready", link(0, ABORT)),
    ("before the capabilities are answered, and afterwards", "0 up", link(10, ABORT), link(20, CAPABILITIES), link(30, ABORT),
     acct(1000, START), link(2000, ABORT), control(2100, ACK)),
    ("after the link's end", "0 ready", BEGUN, "1500 down", link(2000, ABORT)),
    ("caught after the agent's leave", "0 ready", BEGUN, "1500 leave", link(2000, ABORT), link(2010, STRANGE_ABORT),
     control(2100, ACK)),
):
    case("not-caught", name, *lines, head=NO_LINK)

# ---- What the book holds

LONG_USER, LONG_ACCOUNT = b"u" * 253, b"a" * 253
SMALL = [AGENT.replace("30000 64 64 30000", "1000 1 64 30000"), *HEAD[1:]]
for name, *lines in (
    ("a Start without an Acct-Session-Id isn't in it", acct(1000, record(9, accounts=[])), link(2000, ABORT)),
    ("a Start with an Acct-Session-Id of no octets is in it", acct(1000, record(9, accounts=[b""])), link(2000, ABORT),
     control(2100, ack(disconnect(0, account=b"")))),
    ("a Start without a User-Name", acct(1000, record(9, users=[])), link(2000, ABORT), control(2100, ack(disconnect(0, [])))),
    ("a User-Name of no octets", acct(1000, record(9, users=[b""])), link(2000, ABORT), control(2100, ack(disconnect(0, [b""])))),
    ("a User-Name and an Acct-Session-Id of 253 octets", acct(1000, record(9, users=[LONG_USER], accounts=[LONG_ACCOUNT])),
     link(2000, ABORT), control(2100, ack(disconnect(0, [LONG_USER], LONG_ACCOUNT)))),
    ("of two User-Names and two Acct-Session-Ids the first ones", acct(1000, record(9, users=[b"nemo", b"no"], accounts=[b"A1", b"A2"])),
     link(2000, ABORT), control(2100, ACK)),
    ("an Acct-Session-Id before the User-Name, and octets that are no text",
     acct(1000, asking(4, 9, attribute(44, b"\0\xff") + attribute(25, b"Diameter/" + SESSION) + attribute(40, four(1))
                       + attribute(1, b"nemo"), ONE.secret)), link(2000, ABORT)),
    ("a Start without a Class, by the session that the agent names", acct(1000, record(9, session=None)),
     link(2000, abort(b"agent.example;0;0;acct;nas1;4131"))),
    ("of two Starts of a session the earlier stays", BEGUN, acct(1010, LATER_START), link(2000, ABORT)),
    ("of two Starts of a session from two clients the earlier stays", acct(1000, record(9, client=TWO), TWO), acct(1010, START),
     link(2000, ABORT)),
    ("a Start of another client: its address and its secret", acct(1000, record(9, client=TWO), TWO), link(2000, ABORT),
     control(2100, ACK), control(2100, ack(disconnect(0, client=TWO)), TWO.address),
     control(2100, ack(disconnect(0, client=TWO), TWO), ONE.address), control(2100, ack(disconnect(0, client=TWO), TWO), TWO.address)),
    ("a Start of a port other than that of the Disconnect-Request", f"1000 acct {ONE.address} 3799 {START.hex()}", link(2000, ABORT)),
    ("a Start and a Stop", BEGUN, acct(1100, STOP), link(2000, ABORT)),
    ("a Stop of another client takes it out too", BEGUN, acct(1100, record(10, status=2, client=TWO), TWO), link(2000, ABORT)),
    ("a Stop without an Acct-Session-Id takes it out too", BEGUN, acct(1100, record(10, status=2, accounts=[])), link(2000, ABORT)),
    ("a Stop of another session takes nothing out", BEGUN, acct(1100, record(10, status=2, session=OTHER_SESSION)), link(2000, ABORT)),
    ("a Stop that isn't authentic takes nothing out", BEGUN, acct(1100, STOP[:-1] + b"1"), link(2000, ABORT)),
    ("a Start, a Stop and another Start", BEGUN, acct(1100, STOP), acct(1200, LATER_START), link(2000, ABORT)),
    ("the same Start again after the Stop is a repetition, and not in it", BEGUN, acct(1100, STOP), acct(1200, START),
     link(2000, ABORT)),
    ("an Interim record neither enters the session nor takes it out", acct(1000, record(14, status=3)), link(1500, ABORT),
     acct(1600, START), acct(1700, record(15, status=3, accounts=[b"A2"])), link(2000, ABORT)),
    ("a Start that isn't authentic", acct(1000, START[:4] + bytes(16) + START[20:]), link(2000, ABORT)),
    ("a Start of a stranger", f"1000 acct 192.168.1.18 1812 {START.hex()}", link(2000, ABORT)),
    ("a Start whose record the home server refuses is in it", BEGUN, link(1100, recorded(0, result=5012)), link(2000, ABORT)),
    ("a Start and a Stop that are answered", BEGUN, link(1100, recorded(0)), acct(1200, START), link(1500, ABORT),
     acct(1600, STOP), link(1700, recorded(1)), link(2000, NEXT_ABORT), control(2100, ACK), link(2200, ABORT)),
):
    case("book", name, *lines)
BY_TWO = [acct(1000, START), acct(2000, OTHER_START), link(2001, OTHER_ABORT), link(2002, ABORT)]
for name, *lines in (
    ("a book of one session that is full", BY_TWO),
    ("a book of one session that is free again after a Stop", acct(1000, START), acct(2000, STOP), acct(3000, OTHER_START),
     link(3001, OTHER_ABORT), link(3002, ABORT)),
    ("a book of one session that is free again after an acknowledgement", acct(1000, START), link(1001, ABORT), control(1002, ACK),
     acct(2000, OTHER_START), link(2001, OTHER_ABORT)),
    ("a book of one session that is full after a refusal", acct(1000, START), link(1001, ABORT), control(1002, NAK),
     acct(2000, OTHER_START), link(2001, OTHER_ABORT)),
    ("a Start that finds no place among the requests", acct(1000, START), acct(1999, OTHER_START), link(2001, OTHER_ABORT)),
    ("a Start stays in it when it isn't waited for any more", acct(1000, START), "60000 drain", link(60000, ABORT)),
):
    case("book", name, *lines, head=SMALL)
case("book", "a Start while there is no link", acct(10, START), "20 ready", link(2000, ABORT), head=HEAD[:3])
case("book", "it outlasts the link", BEGUN, link(1100, recorded(0)), "1200 down", "1300 ready", link(2000, ABORT), control(2100, ACK))
case("book", "what is sent again on the next link doesn't touch it", BEGUN, acct(1100, STOP), "1200 down", "1300 ready",
     link(2000, ABORT))
case("book", "a Stop and a Start that are sent again on the next link don't touch it", BEGUN, acct(1100, STOP),
     acct(1200, LATER_START), "1300 down", "1300 ready", link(2000, ABORT))

# ---- What answers a Disconnect-Request

CAUSE = attribute(101, four(503))
ROTTEN = bytes.fromhex("6505")
for name, *lines in (
    ("41: 2001, and the session is out of the book", OPENED, control(2100, ACK), link(2200, NEXT_ABORT)),
    ("42: 5012, and the session stays in the book", OPENED, control(2100, NAK), link(2200, NEXT_ABORT),
     control(2300, ack(NEXT_DISCONNECT))),
    ("the same answer again is strange", OPENED, control(2100, ACK), control(2100, ACK)),
    ("another identifier", OPENED, control(2100, bytes([41, 1]) + ACK[2:]), control(2100, ack(NEXT_DISCONNECT)), control(2100, ACK)),
    ("an authenticator whose last octet is another", OPENED, control(2100, ACK[:-1] + bytes([ACK[-1] ^ 1]))),
    ("an authenticator whose first octet is another", OPENED, control(2100, ACK[:4] + bytes([ACK[4] ^ 128]) + ACK[5:])),
    ("the authenticator of code 41 in a packet of code 42", OPENED, control(2100, b"\x2a" + ACK[1:])),
    ("an answer under another secret", OPENED, control(2100, ack(DISCONNECT, TWO))),
    ("an authenticator as of a request", OPENED, control(2100, asking(41, 0, b"", ONE.secret))),
    ("another port", OPENED, control(2100, ACK, port=3798), control(2100, ACK, port=1812), control(2100, ACK, port=0),
     control(2100, ACK)),
    ("another client's address, and a stranger's", OPENED, control(2100, ACK, TWO.address), control(2100, ACK, "192.168.1.18"),
     control(2100, ack(DISCONNECT, TWO), TWO.address), control(2100, ACK)),
    ("octets past the Length are padding", OPENED, control(2100, ACK + b"\xff" * 7)),
    ("octets past the Length, of more than a packet's size", OPENED, control(2100, NAK + bytes(5000))),
    ("codes 40, 43, 44, 45 and 5", OPENED, *(control(2100, answering(code, DISCONNECT, ONE.secret)) for code in (40, 43, 44, 45, 5)),
     control(2100, NAK)),
    ("the request itself", OPENED, control(2100, DISCONNECT)),
    ("cut packets", OPENED, control(2100, ACK[:19]), control(2100, ACK[:1]), control(2100, b""),
     control(2100, ack(DISCONNECT, attributes=CAUSE)[:-1]), control(2100, ACK)),
    ("a Length below 20, above the octets and above 4096", OPENED, *(
        control(2100, ACK[:2] + length.to_bytes(2, "big") + ACK[4:] + bytes(behind))
        for length, behind in ((19, 0), (21, 0), (4097, 4100)))),
    ("an answer with attributes", OPENED, control(2100, nak(DISCONNECT, attributes=CAUSE + attribute(18, b"no")))),
    ("an answer of 4096 octets", OPENED,
     control(2100, ack(DISCONNECT, attributes=attribute(18, b"a" * 253) * 15 + attribute(18, b"a" * 249)))),
    ("an answer with a Message-Authenticator that isn't right", OPENED,
     control(2100, ack(DISCONNECT, attributes=attribute(80, bytes(16))))),
    ("an answer with a State that the request hasn't", OPENED, control(2100, ack(DISCONNECT, attributes=attribute(24, b"a")))),
    ("attributes that can't be read, under a right authenticator", OPENED, control(2100, ack(DISCONNECT, attributes=ROTTEN))),
    ("an attribute of length 0, under a right authenticator", OPENED, control(2100, nak(DISCONNECT, attributes=bytes(2)))),
    ("nothing is open", BEGUN, control(2100, ACK)),
    ("three are open: each answer goes to its own", THREE_OPENED, control(2100, nak(THIRD_DISCONNECT)), control(2100, ACK),
     control(2100, ACK), control(2100, ack(OTHER_DISCONNECT)), link(2200, THIRD_ABORT)),
    ("an identifier with the authenticator of another request's answer", THREE_OPENED,
     control(2100, signed(41, 1, DISCONNECT[4:20], b"", ONE.secret)), control(2100, ack(OTHER_DISCONNECT))),
    ("after a Stop: 2001 all the same", OPENED, acct(2050, STOP), control(2100, ACK), link(2200, NEXT_ABORT)),
    ("after a Stop and a Start: 2001, and the later Start is out of the book", OPENED, acct(2050, STOP),
     acct(2060, LATER_START), control(2100, ACK), link(2200, NEXT_ABORT)),
    ("42 after a Stop and a Start: the later Start stays in the book", OPENED, acct(2050, STOP),
     acct(2060, LATER_START), control(2100, NAK), link(2200, NEXT_ABORT)),
    ("an answer after the second sending", OPENED, "4000 tick", control(4001, ACK)),
    ("an answer after the third sending, and one after the abort is given up", OPENED, "4000 tick", "6000 tick", control(7999, NAK),
     link(9000, ABORT), "11000 tick", "13000 tick", "15000 tick", control(15001, ack(NEXT_DISCONNECT)), link(15002, ABORT)),
    ("after the agent's leave", OPENED, "2050 leave", control(2100, ACK)),
    ("between two pieces of a message", OPENED, link(2050, STRANGE_ABORT[:30]), control(2100, ACK), link(2150, STRANGE_ABORT[30:])),
):
    case("controls", name, *lines)
case("controls", "before any event", control(2100, ACK), control(0, b""), head=HEAD[:2])
case("controls", "without clients", control(2100, ACK), head=HEAD[:1])

# ---- Moments

SOON = [AGENT.replace("64 64 30000", "64 64 6000"), *HEAD[1:]]
for name, *lines in (
    ("three sendings, 2000 ms after each other, and then 5012", OPENED,
     [f"{moment} tick" for moment in (2000, 3999, 4000, 4000, 5999, 6000, 6001, 7999, 8000, 8001, 10000)], control(10001, ACK)),
    ("2000 ms are counted from the last sending", OPENED, [f"{moment} tick" for moment in (4500, 6499, 6500, 8499, 8500)]),
    ("a late tick makes one step alone", OPENED, [f"{moment} tick" for moment in (20000, 20000, 29999, 29999, 29999)]),
    ("the session stays in the book when its abort is given up", OPENED, "4000 tick", "6000 tick", "8000 tick", link(8001, ABORT)),
    ("moments that go back count as the greatest so far", OPENED, "4000 tick", "3000 tick", "5999 tick", "0 tick", "6000 tick", "1 tick",
     "8000 tick"),
    ("an abort whose moment goes back", acct(5000, START), link(2000, ABORT), "6999 tick", "7000 tick"),
    ("a strange control raises the moment", OPENED, control(4000, b""), "0 tick"),
    ("an answer raises the moment", THREE_OPENED, control(4000, ACK), "0 tick"),
    ("a caught request raises the moment", OPENED, link(4000, STRANGE_ABORT), "0 tick"),
    ("a dropped request raises the moment", OPENED, link(4000, ABORT), "0 tick"),
    ("an input of the agent raises the moment", OPENED, "4000 drain", "0 tick"),
    ("a line of the link that ends no message doesn't raise the moment", OPENED, link(4000, ABORT[:20]), "0 tick", "3999 tick",
     link(0, ABORT[20:]), "4000 tick"),
    ("only a tick sends again", OPENED, "9000 drain", control(9000, b""), link(9000, ABORT)),
    ("several that are due at one tick, in the order of opening", THREE_STARTS, link(2000, THIRD_ABORT), link(2001, ABORT),
     link(2002, OTHER_ABORT), "4001 tick", "4002 tick", "6001 tick", "6002 tick", "8001 tick", "8002 tick"),
    ("one that is given up before two that are sent again, and these in their order afterwards", THREE_STARTS, link(2000, ABORT),
     "4000 tick", link(5000, OTHER_ABORT, THIRD_ABORT), "6000 tick", "8000 tick", "10000 tick"),
    ("one that is sent again before one that is new", THREE_STARTS, link(2000, ABORT), link(3000, OTHER_ABORT), "4000 tick",
     control(4500, ACK), "5000 tick"),
):
    case("moments", name, *lines)
LATE, LAST = 2**64 - 2001, 2**64 - 1
for name, *lines in (
    ("the greatest moment", acct(LAST, START), link(LAST, ABORT), f"{LAST} tick", control(LAST, ACK)),
    ("2000 ms before the greatest moment", acct(LATE, START), link(LATE, ABORT), f"{LAST - 1} tick", f"{LAST} tick", f"{LAST} tick"),
):
    case("moments", name, *lines, head=[*HEAD[:3], f"{LATE} ready"])
for name, *lines in (
    ("the watchdog's request before what is due, and this in the order of opening", THREE_STARTS, link(4000, OTHER_ABORT),
     link(4000, ABORT), "6000 tick", "8000 tick", "10000 tick"),
    ("what the book catches isn't heard", BEGUN, link(6000, STRANGE_ABORT), "6999 tick", "7000 tick"),
    ("what the book catches is no sign of life once the watchdog asked", link(100, message(0x40, 280, 0, 2**31, 7 << 20)),
     "6100 tick", link(7000, STRANGE_ABORT), "12099 tick", "12100 tick"),
    ("what isn't caught is heard", BEGUN, link(6000, abort_of(OWN_SESSION)), "7000 tick", "11999 tick", "12000 tick"),
    ("the watchdog sees the moment of a control and of a caught request", control(6000, b""), "0 tick", link(12000, ABORT), "0 tick"),
    ("an entry's age counts from the moment of a control", control(50000, b""), acct(1000, START), acct(79999, START),
     acct(80000, START)),
):
    case("moments", name, *lines, head=SOON)

# ---- The link's end

for name, *lines in (
    ("it closes three open aborts without an answer, and the book stays", THREE_OPENED, "2100 down", control(2200, ACK),
     control(2200, ack(OTHER_DISCONNECT)), control(2200, nak(THIRD_DISCONNECT)), "2300 ready", "4000 tick", "9000 tick",
     link(9100, ABORT, OTHER_ABORT, THIRD_ABORT), control(9200, ACK), control(9200, ack(disconnect(3)))),
    ("a fault of the stream closes them", OPENED, link(2100, b"\2"), control(2200, ACK), "9000 tick"),
    ("messages before a fault of the stream count", BEGUN, link(2000, ABORT, b"\1\0\0\x13"), control(2200, ACK)),
    ("a home server that leaves closes them", OPENED,
     link(2100, message(0x80, 282, 0, 5, 6, HOME, avp(296, b"example"), avp(273, four(1)))),
     control(2200, ACK)),
    ("the agent that leaves keeps them until the link is closed", OPENED, "2100 leave", "4000 tick", link(4100, NEXT_ABORT),
     link(4200, message(0, 282, 0, 2**31, (7 << 20) + 1, avp(268, four(2001)), HOME)), control(4300, ACK), "6000 tick"),
    ("the watchdog closes them, though one is due at that tick", BEGUN, "31000 tick", link(59000, ABORT), "61000 tick",
     control(61100, ACK), "63000 tick"),
    ("the agent that leaves and isn't answered closes them, though one is due", OPENED, "2100 leave", "4000 tick", "32099 tick",
     "32100 tick", control(32101, ACK)),
    ("a ready line in an open link changes nothing but the stream", OPENED, "2100 ready", control(2200, ACK)),
    ("an up line in an open link changes nothing but the stream", OPENED, "2100 up", link(2200, ABORT), control(2200, NAK)),
    ("the end of a link that isn't there changes nothing", "10 down", "20 down", control(30, ACK), "40 ready", OPENED, control(2100, ACK)),
):
    case("links", name, *lines)

# ---- How many

MANY = ["agent a b b 192.0.2.1 7 30000 128 512 30000", f"client c {ONE.address} {ONE.secret.hex()} c c plain refuse -", "0 ready"]


def start_of(name):
    return record(1, session=name, users=(), accounts=[name])


def abort_numbered(name, number):
    return abort(name, b"h", number, hop=number)


def sixty_four():
    """64 open aborts, and one more."""
    names = [b"s%d" % number for number in range(66)]
    yield from (acct(0, start_of(name)) for name in names[:65])
    yield from (link(1000, abort_numbered(name, number)) for number, name in enumerate(names[:65]))
    yield from (link(1000, abort_numbered(name, number)) for name, number in ((names[65], 65), (names[65], 3), (names[64], 3)))
    yield control(1500, nak(disconnect(5, (), names[5])))
    yield from (link(1500, abort_numbered(names[64], 64)), link(1500, abort_numbered(names[5], 66)), "3000 tick")


def all_identifiers():
    """256 aborts, of which the first and the last stay open, and more."""
    first, second, third = b"x", b"y", b"z"
    yield from (acct(0, start_of(first)), acct(0, start_of(second)), acct(0, start_of(third)), link(0, abort_numbered(first, 0)))
    for number in range(1, 255):
        yield from (link(0, abort_numbered(second, number)), control(0, nak(disconnect(number, (), second))))
    yield link(0, abort_numbered(third, 255))
    yield from (link(0, abort_numbered(second, 256)), link(0, abort_numbered(second, 257)), link(0, abort_numbered(NOBODY, 258)))
    yield control(0, nak(disconnect(0, (), first)))
    yield from (link(0, abort_numbered(second, 259)), link(0, abort_numbered(first, 260)), "2000 tick")
    yield from (control(2000, ack(disconnect(0, (), second))), control(2000, nak(disconnect(255, (), third))), "4000 tick")


case("sixty-four", "64 aborts are open: 5012 for one more, but 5002 and a repetition come before; a place that is free again",
     sixty_four(), head=MANY)
case("identifiers", "the 257th abort while the first is open: 5012; once it is closed: opened, with its identifier, and behind the 256th",
     all_identifiers(), head=MANY)

# ---- Lines

PLACE = f"2100 control {ONE.address} 3799"
for name, *lines in (
    ("no line at all", ),
    ("the settings alone", AGENT),
    ("a control line comes before the settings", f"{PLACE} {ACK.hex()}"),
    ("a control line directly behind the settings, and then a client", AGENT, f"{PLACE} -", NAS1),
    ("a control line between clients", AGENT, NAS1, f"{PLACE} -", NAS2),
    ("the settings again", *HEAD, f"{PLACE} -", AGENT),
    ("outputs before a bad line are printed", *HEAD, *OPENED, control(2100, ACK), f"{PLACE} 0"),
    ("digits of either case", *HEAD, *OPENED, f"{PLACE} {ACK.hex().upper()}"),
    ("without octets", *HEAD, PLACE),
    ("one word more", *HEAD, f"{PLACE} 00 00"),
    ("two spaces", *HEAD, f"2100  control {ONE.address} 3799 00"),
    ("a space behind", *HEAD, f"{PLACE} 00 "),
    ("a space before", *HEAD, f" {PLACE} 00"),
    ("octets of no digits", *HEAD, f"{PLACE} "),
    ("another word", *HEAD, f"2100 Control {ONE.address} 3799 00"),
    ("half an octet", *HEAD, f"{PLACE} 290"),
    ("no digit", *HEAD, f"{PLACE} 2g"),
    ("a hyphen and more", *HEAD, f"{PLACE} -00"),
    ("the ports 0, 3799 and 65535", *HEAD, *(f"0 control {ONE.address} {port} -" for port in (0, 3799, 65535))),
    ("the port 65536", *HEAD, f"0 control {ONE.address} 65536 -"),
    ("a port with a zero before", *HEAD, f"0 control {ONE.address} 03799 -"),
    ("no port", *HEAD, f"0 control {ONE.address} - -"),
    ("an address of three numbers", *HEAD, "0 control 192.168.1 3799 -"),
    ("an address of five numbers", *HEAD, "0 control 192.168.1.16.1 3799 -"),
    ("an address with 256", *HEAD, "0 control 192.168.1.256 3799 -"),
    ("an address with a zero before", *HEAD, "0 control 192.168.1.016 3799 -"),
    ("the addresses 0.0.0.0 and 255.255.255.255", *HEAD, "0 control 0.0.0.0 3799 -", "0 control 255.255.255.255 3799 -"),
    ("the greatest moment", *HEAD, f"{2**64 - 1} control {ONE.address} 3799 -"),
    ("a moment of 2^64", *HEAD, f"{2**64} control {ONE.address} 3799 -"),
    ("a moment with a zero before", *HEAD, f"01 control {ONE.address} 3799 -"),
    ("no moment", *HEAD, f"client control {ONE.address} 3799 00"),
    ("no moment, directly behind the settings", AGENT, f"client control {ONE.address} 3799 00"),
    ("an empty line", *HEAD, ""),
):
    case("lines", name, *lines, head=[])
LONG = f"210 control {ONE.address} 3799 "
LONG += "00" * ((140000 - len(LONG)) // 2)
case("lines", "a line of 140000 octets", LONG)
case("lines", "a line of 140001 octets", "1" + LONG)
case("lines", "an answer with as much padding as a line can hold", OPENED, LONG.replace("3799 " + "00" * 20, f"3799 {ACK.hex()}", 1))


# ---- Writing and checking

BY_TEXT = {text: name for name, text in NAMES.items()}


def short(octets):
    """Hex digits, with a count for many octets that are the same."""
    pairs = [octets[at:at + 2] for at in range(0, len(octets), 2)]
    runs = [(pair, len(list(run))) for pair, run in itertools.groupby(pairs)]
    return "".join(f"{{{pair}*{count}}}" if count > 16 else pair * count for pair, count in runs)


def told(line):
    """A line with names in place of what they stand for."""
    if line in BY_TEXT:
        return f"${BY_TEXT[line]}"
    return " ".join(f"${BY_TEXT[word]}" if word in BY_TEXT else short(word) if re.fullmatch("([0-9a-f]{2}){17,}", word) else word
                    for word in line.split(" "))


def written():
    """Each file with its text."""
    texts = {}
    for file, cases in FILES.items():
        blocks = []
        for name, lines in cases.items():
            played, end = play(lines)
            blocks += ["", f"== {name}"]
            for line, outputs in played:
                blocks += [f"< {told(line)}", *(f"> {told(output)}" for output in outputs)]
            blocks.append(f"= {end}")
        texts[file] = FORM + "\n".join(blocks) + "\n"
    used = set(re.findall(r"\$([a-z0-9-]+)", "\n".join(texts.values())))
    texts["names"] = NAMES_FORM + "".join(f"{name} {text}\n" for name, text in sorted(NAMES.items()) if name in used)
    return texts


def main():
    if sys.argv[1:] == ["--write"]:
        for file, text in written().items():
            (HERE / file).write_text(text, "ascii")
    elif sys.argv[1:] == ["--check"]:
        there = {path.name: path.read_text("ascii") for path in HERE.iterdir() if path.is_file() and path.suffix != ".py"}
        texts = written()
        differ = sorted(file for file in texts.keys() | there.keys() if texts.get(file) != there.get(file))
        print(*(f"{file}: not what reference.py writes" for file in differ), sep="\n", end="\n" if differ else "")
        return 1 if differ else 0
    elif len(sys.argv) == 1:
        lines = sys.stdin.read().split("\n")
        played, end = play(lines[:-1] if lines[-1] == "" else lines)
        for place, (_, outputs) in enumerate(played, 1):
            for output in outputs:
                print(place, output)
        print(end, file=sys.stdout if end.startswith("end ") else sys.stderr)
        return 0 if end.startswith("end ") else 3
    else:
        sys.exit(__doc__)
    return 0


if __name__ == "__main__":
    sys.exit(main())
