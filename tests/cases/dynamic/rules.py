"""What `agent dynamic` prints for a transcript: its rules written a second time, apart from the program.

Of the agent's own rules stands here what the cases need: Accounting-Requests with the attributes 1, 25, 40 and 44, their answers,
and the base messages of the link. At anything else it stops with NotModelled. Rules marked (profile) are the agent's own, no RFC's.
"""
import hashlib
import re
from types import SimpleNamespace


class NotModelled(Exception):
    """The transcript asks for a rule that isn't written here."""


class NoRoom(Exception):
    """The link has no room for a further base message."""


class BadLine(Exception):
    """A line that may not stand where it stands, with its reason."""


# ---- RADIUS

def attribute(kind, value):
    return bytes([kind, len(value) + 2]) + value


def signed(code, identifier, authenticator, attributes, secret):
    """A packet whose authenticator is the MD5 of its octets, with this authenticator in their place, and of the secret: the
    request's in an answer (RFC 2865, section 3), 16 octets 00 in an Accounting-Request (RFC 2866, section 3) and in a
    Disconnect-Request (RFC 5176, section 2.3)."""
    front = bytes([code, identifier]) + (20 + len(attributes)).to_bytes(2, "big")
    return front + hashlib.md5(front + authenticator + attributes + secret).digest() + attributes


def asking(code, identifier, attributes, secret):
    return signed(code, identifier, bytes(16), attributes, secret)


def answering(code, request, secret, attributes=b""):
    return signed(code, request[1], request[4:20], attributes, secret)


def read_packet(octets):
    """The octets of a datagram's packet and its attributes, or None where it holds none. What is past its Length is padding
    (RFC 2865, section 3)."""
    length = int.from_bytes(octets[2:4], "big")
    if not 20 <= length <= 4096 or length > len(octets):
        return None
    attributes, rest = [], octets[20:length]
    while rest:
        if len(rest) < 2 or not 2 <= rest[1] <= len(rest):
            return None
        attributes.append((rest[0], rest[2:rest[1]]))
        rest = rest[rest[1]:]
    return octets[:length], attributes


def values(attributes, kind):
    return [value for code, value in attributes if code == kind]


# ---- Diameter (RFC 6733, sections 3 and 4.1)

FLAG_REQUEST, FLAG_PROXIABLE, FLAG_ERROR, FLAG_AGAIN = 0x80, 0x40, 0x20, 0x10
FLAG_VENDOR, FLAG_MANDATORY = 0x80, 0x40


def four(value):
    return value.to_bytes(4, "big")


def avp(code, body, flags=FLAG_MANDATORY, vendor=b""):
    length = 8 + len(vendor) + len(body)
    return four(code) + four(flags << 24 | length) + vendor + body + bytes(-length % 4)


def message(flags, command, application, hop, end, *avps):
    behind = four(flags << 24 | command) + four(application) + four(hop) + four(end) + b"".join(avps)
    return four(1 << 24 | 4 + len(behind)) + behind


def read_message(octets):
    """The header of a message, its AVPs up to the first fault of their list, each as its code, whether it is a vendor's, and its
    body, and whether there is no fault."""
    avps, place, whole = [], 20, True
    while place < len(octets):
        vendor = len(octets) - place >= 8 and octets[place + 4] & FLAG_VENDOR != 0
        head = 12 if vendor else 8
        length = int.from_bytes(octets[place + 5:place + 8], "big")
        if len(octets) - place < 8 or length < head or place + length + -length % 4 > len(octets):
            whole = False
            break
        avps.append((int.from_bytes(octets[place:place + 4], "big"), vendor, octets[place + head:place + length]))
        place += length + -length % 4
    numbers = [int.from_bytes(octets[at:at + 4], "big") for at in (8, 12, 16)]
    return SimpleNamespace(flags=octets[4], is_request=octets[4] & FLAG_REQUEST != 0, command=int.from_bytes(octets[5:8], "big"),
                           application=numbers[0], hop=numbers[1], end=numbers[2], avps=avps, whole=whole)


def bodies(said, code):
    """The bodies of the AVPs of a code that are no vendor's."""
    return [body for number, vendor, body in said.avps if number == code and not vendor]


def first_number(said, code):
    """The first AVP of a code that has four octets, and 0 where there is none (profile)."""
    return next((int.from_bytes(body, "big") for body in bodies(said, code) if len(body) == 4), 0)


# ---- The agent, as far as it is modelled

class Core:
    def __init__(self, settings, clients):
        self.settings, self.clients = settings, clients
        self.phase = "Closed"
        self.link = self.total = self.used = self.outbox = self.base = 0
        self.pending = []
        self.taken = None  # the request that the present event took up

    def step(self, moment, kind, *parts):
        """What goes out for an event. The moment is the greatest so far."""
        self.moment, self.taken = moment, None
        try:
            return getattr(self, f"on_{kind}")(*parts)
        except NoRoom:
            return self.closed("Stalled")

    # Messages of the agent

    def origin(self):
        return avp(264, self.settings.host), avp(296, self.settings.realm)

    def sent(self, octets):
        self.outbox += 1
        return f"send {octets.hex()}"

    def next_end(self):
        """The End-to-End Identifier of a new request: what the agent was started as, and how many went before (profile)."""
        self.total += 1
        return (self.settings.boot % 4096 << 20) + self.total - 1 & 0xFFFFFFFF

    def next_hop(self):
        self.used += 1
        return self.used - 1

    def base_sent(self, make, *parts):
        """A base message has room while 64 more than the backlog aren't handed over or wait (profile)."""
        if self.outbox + len(self.waiting()) >= self.settings.backlog + 64:
            raise NoRoom
        return self.sent(make(*parts))

    def base_request(self, command, *avps):
        self.base += 1
        return message(FLAG_REQUEST, command, 0, 2**31 + self.base - 1, self.next_end(), *self.origin(), *avps)

    def answer(self, asked, result, error=0):
        """The answer to a request: its numbers and its flag P, its first Session-Id of at most 4096 octets before a fault of its
        AVPs, and the result (RFC 6733, section 6.2; the order is profile)."""
        session = [avp(263, body) for body in bodies(asked, 263) if len(body) <= 4096][:1]
        return message(asked.flags & FLAG_PROXIABLE | error, asked.command, asked.application, asked.hop, asked.end, *session,
                       avp(268, four(result)), *self.origin())

    # Accounting

    def live(self):
        """Those that wait for an answer until the patience is over, and those that were answered until the retention is over
        (profile)."""
        self.pending = [entry for entry in self.pending if self.moment < (
            entry.taken + self.settings.patience if entry.settled is None else entry.settled + self.settings.retention)]
        return self.pending

    def waiting(self):
        return [entry for entry in self.live() if entry.settled is None]

    def on_acct(self, address, port, octets):
        """An Accounting-Request is dropped, answered again, or taken up and sent on."""
        client = self.clients.get(address)
        if client is None:
            return ["drop 1 UnknownClient"]
        packet = read_packet(octets)
        if packet is None or octets[0] != 4:
            raise NotModelled("a datagram that is no Accounting-Request")
        whole, attributes = packet
        if whole != asking(4, whole[1], whole[20:], client.secret):
            return ["drop 6 BadAuthenticator"]
        status = values(attributes, 40)
        if len(status) != 1 or status[0] not in (four(1), four(2), four(3)) or {kind for kind, _ in attributes} - {1, 25, 40, 44}:
            raise NotModelled("attributes of an Accounting-Request")
        key = address, port, whole
        for entry in self.live():
            if entry.key == key:
                again = f"reply acct {address} {port} {entry.reply.hex()}" if entry.reply else "drop 18 Silent"
                return ["drop 17 Waiting" if entry.settled is None else again]
        waiting = len(self.waiting())
        if self.phase != "Serving":
            return ["drop 19 LinkDown"]
        if len(self.live()) >= self.settings.capacity:
            return ["drop 21 Full"]
        if max(self.outbox, waiting) + waiting + 2 > self.settings.backlog:
            return ["drop 22 Backlog"]
        return [self.take_up(key, client, int.from_bytes(status[0], "big"), attributes)]

    def take_up(self, key, client, status, attributes):
        """The Accounting-Request that is sent on (RFC 6733, section 9.7.1, and RFC 4005, section 9; the order, the record's numbers
        and the session's name are profile). A Class `Diameter/SESSION` names the session; the first such isn't copied."""
        carriers = [value for value in values(attributes, 25) if re.fullmatch(rb"Diameter/[!-~]+", value)]
        account = values(attributes, 44)
        session = carriers[0].removeprefix(b"Diameter/") if carriers else b"%s;0;0;acct;%s;%s" % (
            self.settings.host, client.name, (account or [b""])[0].hex().encode())
        images, carrier = [], carriers[:1]
        for kind, value in attributes:
            if kind == 1 and (b"@" in value or not value.isascii()):
                raise NotModelled("a user of a realm")
            if kind == 25 and [value] == carrier:
                carrier = []
            elif kind != 40:
                images.append(avp(kind, value))
        octets = message(FLAG_REQUEST | FLAG_PROXIABLE, 271, 3, self.next_hop(), self.next_end(), avp(263, session),
                         avp(264, client.host), avp(296, client.realm), avp(283, self.settings.home),
                         avp(480, four({1: 2, 3: 3, 2: 4}[status])), avp(485, four({1: 0, 3: 1, 2: 2}[status])), avp(259, four(3)),
                         avp(408, four(1)), *images)
        self.pending.append(SimpleNamespace(key=key, client=client, status=status, session=session, octets=octets, link=self.link,
                                            hop=self.used - 1, taken=self.moment, settled=None, reply=None))
        self.taken = SimpleNamespace(status=status, session=session, address=key[0], users=values(attributes, 1), accounts=account)
        return self.sent(octets)

    def on_record_answer(self, said):
        """An answer is accepted where its result is a success: the client has its reply then. A Stop's ends the session at the
        home server too."""
        entry = next((entry for entry in self.waiting() if (entry.link, entry.hop) == (self.link, said.hop)), None)
        if entry is None:
            return ["drop 25 Unmatched"]
        if not said.whole or said.flags & FLAG_ERROR or bodies(said, 263) != [entry.session] or {
                (code, vendor) for code, vendor, _ in said.avps} - {(code, False) for code in (263, 264, 268, 296, 480, 485)}:
            raise NotModelled("such an answer")
        outputs, (address, port, request) = [], entry.key
        entry.settled = self.moment
        if 2000 <= first_number(said, 268) <= 2999:
            entry.reply = answering(5, request, entry.client.secret)
            outputs.append(f"reply acct {address} {port} {entry.reply.hex()}")
        if entry.status == 2:
            outputs.append(self.sent(message(FLAG_REQUEST | FLAG_PROXIABLE, 275, 1, self.next_hop(), self.next_end(),
                                             avp(263, entry.session), avp(264, entry.client.host), avp(296, entry.client.realm),
                                             avp(283, self.settings.home), avp(258, four(1)), avp(295, four(1)))))
        return outputs

    # The link

    def begin(self, phase):
        self.phase, self.heard, self.asked = phase, self.moment, None
        self.link += 1
        self.used = self.outbox = self.base = 0

    def serve(self):
        """What waits is sent again, with the flag T and numbers of this link (RFC 6733, section 5.5.4)."""
        self.phase, outputs = "Serving", []
        for entry in self.waiting():
            entry.link, entry.hop = self.link, self.next_hop()
            flags = bytes([entry.octets[4] | FLAG_AGAIN])
            outputs.append(self.sent(entry.octets[:4] + flags + entry.octets[5:12] + four(entry.hop) + entry.octets[16:]))
        return outputs

    def closed(self, cause):
        self.phase = "Closed"
        return [f"close {cause}"]

    def on_ready(self):
        if self.phase != "Closed":
            return ["drop 24 WrongPhase"]
        self.begin("Serving")
        return self.serve()

    def on_up(self):
        """The capabilities (RFC 6733, section 5.3.1)."""
        if self.phase != "Closed":
            return ["drop 24 WrongPhase"]
        self.begin("Greeting")
        address = bytes(map(int, self.settings.address.split(".")))
        return [self.base_sent(self.base_request,
            257, avp(257, b"\0\1" + address), avp(266, four(0)), avp(269, b"rd-agent", 0), avp(278, four(self.settings.boot)),
            avp(258, four(1)), avp(258, four(5)), avp(259, four(3)))]

    def on_down(self):
        return ["drop 24 WrongPhase"] if self.phase == "Closed" else self.closed("Ended")

    def on_broken(self, fault):
        return ["drop 24 WrongPhase"] if self.phase == "Closed" else self.closed(f"Broken {fault}")

    def on_drain(self):
        self.outbox = 0
        return []

    def on_leave(self):
        if self.phase == "Greeting":
            return self.closed("Left")
        if self.phase != "Serving":
            return ["drop 24 WrongPhase"]
        self.phase, self.left = "Closing", self.moment
        return [self.base_sent(self.base_request, 282, avp(273, four(0)))]

    def on_tick(self):
        """The watchdog (RFC 3539, section 3.4, without jitter)."""
        limit = self.settings.watchdog
        if self.phase == "Greeting" and self.moment >= self.heard + limit:
            return self.closed("Watchdog")
        if self.phase == "Closing" and self.moment >= self.left + limit:
            return self.closed("Left")
        if self.phase == "Serving" and self.asked is not None and self.moment >= self.asked + limit:
            return self.closed("Watchdog")
        if self.phase == "Serving" and self.asked is None and self.moment >= self.heard + limit:
            self.asked = self.moment
            return [self.base_sent(self.base_request, 280, avp(278, four(self.settings.boot)))]
        return []

    def on_message(self, octets):
        said = read_message(octets)
        if self.phase == "Closed":
            return ["drop 24 WrongPhase"]
        self.heard, self.asked = self.moment, None
        if self.phase == "Greeting":
            if said.is_request or said.command != 257 or said.hop != 2**31:
                return ["drop 24 WrongPhase"]
            if not said.whole or not 2000 <= first_number(said, 268) <= 2999:
                raise NotModelled("capabilities that are refused")
            return self.serve()
        return self.on_request(said) if said.is_request else self.on_answer(said)

    def on_request(self, said):
        """A request that the agent doesn't serve is refused with 3001, sessions aren't ended here, and of the base protocol it
        answers the watchdog and the disconnect (RFC 6733, sections 5.4, 5.5 and 7.1; profile)."""
        if said.command == 257:
            return ["drop 24 WrongPhase"]
        if said.command == 280:
            return [self.base_sent(self.answer, said, 2001)]
        if said.command == 282:
            return [self.base_sent(self.answer, said, 2001), *self.closed(f"PeerLeft {first_number(said, 273)}")]
        if said.command in (258, 274):
            return [self.base_sent(self.answer, said, 5012)]
        return [self.base_sent(self.answer, said, 3001, FLAG_ERROR)]

    def on_answer(self, said):
        if said.command == 271:
            return self.on_record_answer(said)
        if said.command == 282:
            return self.closed("Left") if self.phase == "Closing" else ["drop 24 WrongPhase"]
        return [] if said.command in (275, 280) else ["drop 25 Unmatched"]


# ---- The book of sessions

MOST_ABORTS, PAUSE, SENDINGS, CONTROL_PORT = 64, 2000, 3, 3799


class Book:
    """The agent with a book of the sessions that are being accounted. An Abort-Session-Request (RFC 6733, section 8.5) of such a
    session becomes a Disconnect-Request (RFC 5176, section 2.1) to the client where it is."""

    def __init__(self, settings, clients):
        self.core = Core(settings, clients)
        self.clients, self.capacity = clients, settings.capacity
        self.moment = self.opened = 0
        self.entries = {}  # of a session: the client's address, and what names the session there
        self.aborts = []  # those that are open, in the order of opening

    def step(self, moment, kind, *parts):
        """What goes out for an event. A moment that goes back counts as the greatest so far, whatever it came with (profile)."""
        self.moment = max(self.moment, moment)
        if kind == "control":
            return self.on_control(*parts)
        if kind == "message" and self.is_caught(read_message(*parts)):
            return self.on_abort(read_message(*parts))
        outputs = self.core.step(self.moment, kind, *parts)
        if self.core.taken:
            self.keep(self.core.taken)
        if any(output.startswith("close ") for output in outputs):
            self.aborts = []  # nobody is left to be answered (profile)
        elif kind == "tick":
            outputs += self.overdue()
        return outputs

    def keep(self, taken):
        """A Start that names itself enters its session, unless this is there already or the book is full; a Stop takes it out
        (profile). Only what is taken up counts: no repetition, and nothing that is sent again."""
        if taken.status == 2:
            self.entries.pop(taken.session, None)
        if taken.status == 1 and taken.accounts and taken.session not in self.entries and len(self.entries) < self.capacity:
            self.entries[taken.session] = taken.address, taken.users[:1], taken.accounts[0]

    def is_caught(self, said):
        """The book takes an Abort-Session-Request with one Session-Id and one Origin-Host, of any octets, while the agent serves or
        leaves. Any other is the agent's (profile)."""
        return (said.is_request and said.command == 274 and self.core.phase in ("Serving", "Closing") and said.whole
                and len(bodies(said, 263)) == len(bodies(said, 264)) == 1)

    def answer(self, asked, result):
        return f"send {self.core.answer(asked, result).hex()}"

    def on_abort(self, asked):
        """The first case that stands counts (profile). 5002 says that the session isn't known, and 5012 that it can't be ended now
        (RFC 6733, section 7.1.5)."""
        (session,), (origin,) = bodies(asked, 263), bodies(asked, 264)
        if any((abort.origin, abort.asked.end) == (origin, asked.end) for abort in self.aborts):
            return ["drop 26 AbortOpen"]  # the same request again (RFC 6733, section 3)
        if session not in self.entries:
            return [self.answer(asked, 5002)]
        identifier = self.opened % 256
        if len(self.aborts) == MOST_ABORTS or any(
                abort.session == session or abort.request[1] == identifier for abort in self.aborts):
            return [self.answer(asked, 5012)]
        address, users, account = self.entries[session]
        # User-Name, NAS-IP-Address and Acct-Session-Id name the session (RFC 5176, section 3; the choice and the order are profile).
        own = bytes(map(int, address.split(".")))
        attributes = b"".join([*(attribute(1, user) for user in users), attribute(4, own), attribute(44, account)])
        self.opened += 1
        abort = SimpleNamespace(asked=asked, origin=origin, session=session, address=address, count=0,
                                request=asking(40, identifier, attributes, self.clients[address].secret))
        self.aborts.append(abort)
        return [self.disconnect(abort)]

    def disconnect(self, abort):
        """The Disconnect-Request goes to port 3799 (RFC 5176, section 2.1), each time with the same octets (section 2.3)."""
        abort.count, abort.last = abort.count + 1, self.moment
        return f"control {abort.address} {CONTROL_PORT} {abort.request.hex()}"

    def on_control(self, address, port, octets):
        """A Disconnect-ACK, of code 41, says that the session has ended, and a Disconnect-NAK, of code 42, that it hasn't (RFC 5176,
        sections 2.1 and 2.3). Either counts for the first open abort whose request it answers, from where that was sent to. What
        the session has in the book then goes with an ACK, whatever came in since (profile)."""
        packet = read_packet(octets)
        for abort in self.aborts if packet else []:
            whole = packet[0]
            if (address, port) == (abort.address, CONTROL_PORT) and whole[0] in (41, 42) and whole == answering(
                    whole[0], abort.request, self.clients[address].secret, whole[20:]):
                self.aborts.remove(abort)
                if whole[0] == 42:
                    return [self.answer(abort.asked, 5012)]
                self.entries.pop(abort.session, None)
                return [self.answer(abort.asked, 2001)]
        return ["drop 27 StrangeControl"]

    def overdue(self):
        """What was sent 2 s ago or earlier is sent again, three times in all; then the client has said nothing (profile)."""
        outputs = []
        for abort in [abort for abort in self.aborts if self.moment >= abort.last + PAUSE]:
            if abort.count < SENDINGS:
                outputs.append(self.disconnect(abort))
            else:
                self.aborts.remove(abort)
                outputs.append(self.answer(abort.asked, 5012))
        return outputs


# ---- Transcripts (profile)

class Framer:
    """A stream of the link, cut into messages. The first fault ends it."""

    def __init__(self):
        self.left, self.is_broken = b"", False

    def feed(self, piece):
        self.left += piece
        while self.left and not self.is_broken:
            length = int.from_bytes(self.left[1:4], "big") if len(self.left) >= 4 else None
            if self.left[0] != 1 or length is not None and (length < 20 or length % 4 or length > 65536):
                self.is_broken = True
                yield "broken", "BadVersion" if self.left[0] != 1 else "BadLength" if length < 20 or length % 4 else "TooLong"
            elif length is None or length > len(self.left):
                return
            else:
                whole, self.left = self.left[:length], self.left[length:]
                yield "message", whole


def number(word, limit):
    if not re.fullmatch("0|[1-9][0-9]*", word) or int(word) >= limit:
        raise BadLine(3)
    return int(word)


def address_of(word):
    parts = word.split(".")
    if len(parts) != 4:
        raise BadLine(3)
    for part in parts:
        number(part, 256)
    return word


def octets_of(word):
    if not re.fullmatch("-|([0-9a-fA-F]{2})+", word):
        raise BadLine(3)
    return bytes.fromhex(word.replace("-", ""))


def settings_of(words):
    """An agent line, whose words are right in all cases."""
    host, realm, home, address, boot, retention, capacity, backlog, watchdog, *patience = words[1:]
    return SimpleNamespace(host=host.encode(), realm=realm.encode(), home=home.encode(), address=address, boot=int(boot),
                           retention=int(retention), capacity=int(capacity), backlog=int(backlog), watchdog=int(watchdog),
                           patience=int((patience or [retention])[0]))


def client_of(words):
    """A client line, likewise."""
    return SimpleNamespace(name=words[1].encode(), secret=bytes.fromhex(words[3]), host=words[4].encode(), realm=words[5].encode())


class Transcript:
    def __init__(self):
        self.settings, self.clients, self.book, self.framer = None, {}, None, Framer()

    def outputs(self, line):
        """What a line gives."""
        words = line.split(" ")
        if len(line) > 140000:
            raise BadLine(1)
        if self.settings is None:
            if words[0] != "agent" or len(words) not in (10, 11):
                raise BadLine(2)
            self.settings = settings_of(words)
            return []
        if self.book is None and words[0] == "client" and len(words) == 9:
            self.clients[words[2]] = client_of(words)
            return []
        return [output for moment, event in self.events(words) for output in self.begun().step(moment, *event)]

    def begun(self):
        self.book = self.book or Book(self.settings, self.clients)
        return self.book

    def events(self, words):
        """The events of a line, each with the moment."""
        shapes = {5: ("auth", "acct", "control"), 3: ("link",), 2: ("up", "ready", "down", "tick", "drain", "leave")}
        if len(words) < 2 or words[1] not in shapes.get(len(words), ()):
            raise BadLine(2)
        moment, kind = number(words[0], 2**64), words[1]
        self.begun()
        if kind == "auth":
            raise NotModelled("logins")
        if kind == "link":
            return [(moment, event) for event in self.framer.feed(octets_of(words[2]))]
        if kind in ("up", "ready"):
            self.framer = Framer()
        return [(moment, (kind, address_of(words[2]), number(words[3], 65536), octets_of(words[4])) if words[2:] else (kind,))]


def play(lines):
    """Each line with what it gives, up to a bad one, and how the run ends."""
    transcript, played = Transcript(), []
    for line in lines:
        try:
            played.append((line, transcript.outputs(line)))
        except BadLine as bad:
            return [*played, (line, [])], f"BadTranscript {len(played) + 1} {bad}"
    kinds = [output.split(" ")[0] for _, outputs in played for output in outputs]
    return played, " ".join(["end", *(str(kinds.count(kind)) for kind in ("reply", "send", "drop", "control"))])


def printed(lines):
    played, end = play(lines)
    texts = [f"{place} {output}" for place, (_, outputs) in enumerate(played, 1) for output in outputs]
    return texts + [end]
