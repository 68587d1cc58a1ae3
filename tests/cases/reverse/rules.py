"""What `agent reverse` prints for a script: its rules written a second time, apart from the program.

Rules marked (profile) are the agent's own, no RFC's.
"""
import hashlib
import hmac
import re
from collections import namedtuple
from types import SimpleNamespace


class BadLine(Exception):
    """A line that may not stand where it stands, with its reason."""


class Refused(Exception):
    """A request that becomes no packet, with the Result-Code that says so."""


def four(value):
    return value.to_bytes(4, "big")


def eight(value):
    return value.to_bytes(8, "big")


def number_in(octets):
    return int.from_bytes(octets, "big")


# ---- RADIUS

ACCESS_REQUEST, ACCOUNTING_REQUEST, ACCEPT, REJECT, RESPONSE, CHALLENGE = 1, 4, 2, 3, 5, 11
MESSAGE_AUTHENTICATOR, VENDOR_SPECIFIC = 80, 26
MOST_OCTETS = 4096


def attribute(kind, value):
    return bytes([kind, len(value) + 2]) + value


def joined(attributes):
    return b"".join(attribute(kind, value) for kind, value in attributes)


def packet(code, identifier, authenticator, attributes):
    return bytes([code, identifier]) + (20 + len(attributes)).to_bytes(2, "big") + authenticator + attributes


def signed(code, identifier, authenticator, attributes, secret):
    """A packet whose authenticator is the MD5 of its octets, with this authenticator in their place, and of the secret: the
    request's in a reply (RFC 2865, section 3), 16 octets 00 in an Accounting-Request (RFC 2866, section 3)."""
    digest = hashlib.md5(packet(code, identifier, authenticator, attributes) + secret).digest()
    return packet(code, identifier, digest, attributes)


def seal(code, identifier, authenticator, attributes, secret):
    """The Message-Authenticator: the HMAC-MD5 of the packet with 16 octets 00 in its own place, and in a reply with the request's
    authenticator (RFC 3579, section 3.2)."""
    blank = joined((kind, bytes(16) if kind == MESSAGE_AUTHENTICATOR else value) for kind, value in attributes)
    return hmac.new(secret, packet(code, identifier, authenticator, blank), "md5").digest()


def read_attributes(octets):
    """Each attribute as its type and its value, or None where one can't be read."""
    attributes = []
    while octets:
        if len(octets) < 2 or not 2 <= octets[1] <= len(octets):
            return None
        attributes.append((octets[0], octets[2:octets[1]]))
        octets = octets[octets[1]:]
    return attributes


def read_packet(octets):
    """The octets of a datagram's packet and its attributes, or None where it holds none. What is past its Length is padding
    (RFC 2865, section 3)."""
    length = number_in(octets[2:4])
    if not 20 <= length <= MOST_OCTETS or length > len(octets):
        return None
    attributes = read_attributes(octets[20:length])
    return None if attributes is None else (octets[:length], attributes)


def vendor_parts(value):
    """The parts of a Vendor-Specific attribute in the suggested form (RFC 2865, section 5.26), each as its vendor, type and value.
    There is none in another form."""
    parts = read_attributes(value[4:]) if len(value) > 4 else None
    return [(number_in(value[:4]), kind, part) for kind, part in parts or []]


def hidden(password, authenticator, secret):
    """A User-Password (RFC 2865, section 5.2)."""
    padded = password + bytes(-len(password) % 16) or bytes(16)
    blocks = [authenticator]
    for at in range(0, len(padded), 16):
        mask = hashlib.md5(secret + blocks[-1]).digest()
        blocks.append(bytes(left ^ right for left, right in zip(padded[at:at + 16], mask)))
    return b"".join(blocks[1:])


# ---- Diameter (RFC 6733, sections 3 and 4.1)

FLAG_REQUEST, FLAG_PROXIABLE, FLAG_ERROR = 0x80, 0x40, 0x20
FLAG_VENDOR, FLAG_MANDATORY = 0x80, 0x40
AA, ACCOUNTING = 265, 271  # commands

Avp = namedtuple("Avp", "code vendor flags body")  # a vendor is None where the flag V is clear


def avp(code, body, flags=FLAG_MANDATORY, vendor=None):
    flags, vendor = (flags, b"") if vendor is None else (flags | FLAG_VENDOR, four(vendor))
    return four(code) + four(flags << 24 | 8 + len(vendor) + len(body)) + vendor + body + bytes(-len(body) % 4)


def message(flags, command, application, hop, end, *avps):
    behind = four(flags << 24 | command) + four(application) + four(hop) + four(end) + b"".join(avps)
    return four(1 << 24 | 4 + len(behind)) + behind


def read_avps(octets):
    """The AVPs of a list, or None where one can't be read."""
    avps = []
    while octets:
        code, flags, length = number_in(octets[:4]), octets[4:5], number_in(octets[5:8])
        vendor = flags and flags[0] & FLAG_VENDOR
        head = 12 if vendor else 8
        if len(octets) < 8 or length < head or length + -length % 4 > len(octets):
            return None
        avps.append(Avp(code, number_in(octets[8:12]) if vendor else None, flags[0], octets[head:length]))
        octets = octets[length + -length % 4:]
    return avps


def read_message(octets):
    """The header of a message and its AVPs, or None where the octets are none."""
    if len(octets) < 20 or octets[0] != 1 or number_in(octets[1:4]) != len(octets) or len(octets) % 4:
        return None
    application, hop, end = (number_in(octets[at:at + 4]) for at in (8, 12, 16))
    return SimpleNamespace(flags=octets[4], command=number_in(octets[5:8]), application=application, hop=hop, end=end,
                           avps=read_avps(octets[20:]))


def bodies(avps, code):
    """The bodies of the AVPs of a code that are no vendor's."""
    return [found.body for found in avps if (found.code, found.vendor) == (code, None)]


# ---- What crosses over

# Types of attributes, which are codes of AVPs too, with the kind of their values and where they are carried: in an Access-Request
# (A), in an Accounting-Request (C), in a success (S), in a challenge (H) and in a refusal (J). The choice is profile.
ROWS = {int(kind): (form, ways) for kind, _, form, ways in (row.split() for row in """\
1 User-Name Text ACS
4 NAS-IP-Address Four AC
5 NAS-Port Four AC
6 Service-Type Four ACS
7 Framed-Protocol Four ACS
8 Framed-IP-Address Four ACS
9 Framed-IP-Netmask Four ACS
10 Framed-Routing Four CS
11 Filter-Id Text CS
12 Framed-MTU Four ACS
13 Framed-Compression Four ACS
14 Login-IP-Host Four ACS
15 Login-Service Four CS
16 Login-TCP-Port Four CS
18 Reply-Message Text SHJ
19 Callback-Number Text ACS
20 Callback-Id Text CS
22 Framed-Route Text CS
25 Class Plain CS
27 Session-Timeout Four C
28 Idle-Timeout Four CSH
30 Called-Station-Id Text AC
31 Calling-Station-Id Text AC
32 NAS-Identifier Text AC
41 Acct-Delay-Time Four C
44 Acct-Session-Id Plain AC
45 Acct-Authentic Four C
46 Acct-Session-Time Four C
50 Acct-Multi-Session-Id Text C
51 Acct-Link-Count Four C
55 Event-Timestamp Time C
60 CHAP-Challenge Plain A
61 NAS-Port-Type Four AC
62 Port-Limit Four ACS
75 Password-Retry Four J
76 Prompt Four H
77 Connect-Info Text AC
78 Configuration-Token Plain S
85 Acct-Interim-Interval Four S
87 NAS-Port-Id Text AC
88 Framed-Pool Plain CS
95 NAS-IPv6-Address Sixteen AC
96 Framed-Interface-Id Eight ACS
97 Framed-IPv6-Prefix Prefix ACS
98 Login-IPv6-Host Sixteen ACS
99 Framed-IPv6-Route Text CS
100 Framed-IPv6-Pool Plain CS""".split("\n"))}

# Further AVPs that are known: those of the base protocol and of NASREQ that are read or give nothing, and those that become
# attributes of another type or of another form.
KNOWN = {2, 24, 29, 33, 258, 259, 260, 263, 264, 268, 270, 271, 272, 274, 276, 277, 278, 279, 281, 282, 283, 284, 285, 287, 291,
         293, 294, 295, 296, 297, 363, 364, 365, 366, 401, 402, 408, 462, 465, 480, 483, 485}

SIZES = {"Four": range(4, 5), "Time": range(4, 5), "Eight": range(8, 9), "Sixteen": range(16, 17), "Prefix": range(2, 19)}
SECONDS_FROM_1900_TO_1970 = 2208988800


def is_of(form, value):
    """Whether a value is of this kind. Text is UTF-8."""
    if form == "Text":
        try:
            value.decode("utf-8")
        except UnicodeDecodeError:
            return False
    return form not in SIZES or len(value) in SIZES[form]


def shifted(form, value, seconds):
    """A time counts from 1900 in Diameter (RFC 6733, section 4.3.1), and from 1970 in RADIUS (RFC 2869, section 5.3)."""
    return four((number_in(value) + seconds) % 2**32) if form == "Time" else value


def forward(form, value):
    """The AVP's value for an attribute's, or None where it isn't of its kind."""
    return shifted(form, value, SECONDS_FROM_1900_TO_1970) if is_of(form, value) else None


def backward(form, body):
    """The attribute's value for an AVP's, or None where it has none."""
    return shifted(form, body, -SECONDS_FROM_1900_TO_1970) if len(body) <= 253 and is_of(form, body) else None


def is_key(code, vendor):
    """Whether an AVP or an attribute is a key for a session: Tunnel-Password, EAP-Key-Name, EAP-Master-Session-Key, Microsoft's."""
    return code in (12, 16, 17) if vendor == 311 else vendor is None and code in (69, 102, 464)


# ---- Requests

# A part of a Vendor-Specific attribute has so many octets at most.
MOST_OF_VENDOR = 253 - 4 - 2
TYPES_OF_RECORDS = {2: 1, 3: 3, 4: 2}  # Accounting-Record-Type: Acct-Status-Type


def way_of(command):
    return "A" if command == AA else "C"


def is_unknown(found):
    """Whether an AVP is one that nobody here knows."""
    if is_key(found.code, found.vendor):
        return False
    return found.code not in KNOWN and found.code not in ROWS if found.vendor is None else found.code > 255


def is_unfit(found, way):
    """Whether an AVP's value fits into no attribute that it becomes by the table, or as a vendor's."""
    if found.vendor is not None:
        return len(found.body) > MOST_OF_VENDOR
    form, ways = ROWS.get(found.code, ("", ""))
    return way in ways and backward(form, found.body) is None


def chap_password(body):
    """The CHAP-Password for the members of a CHAP-Auth (RFC 4005, section 5.4), or None where they aren't as they are to be."""
    algorithms, idents, responses = (bodies(read_avps(body) or [], code) for code in (403, 404, 405))
    is_right = algorithms == [four(5)] and [*map(len, idents)] == [1] and [*map(len, responses)] == [16]
    return idents[0] + responses[0] if is_right else None


def check_login(asked):
    """Refuses what an Access-Request can't carry."""
    passwords, groups = bodies(asked.avps, 2), bodies(asked.avps, 402)
    if (len(passwords) + len(groups) > 1 or any(len(password) > 128 for password in passwords)
            or any(chap_password(group) is None for group in groups) or any(len(state) > 253 for state in bodies(asked.avps, 24))):
        raise Refused(5012)


def check_record(asked):
    """Refuses what an Accounting-Request can't carry."""
    types = bodies(asked.avps, 480)
    if (any(len(count) != 8 for code in (363, 364, 365, 366) for count in bodies(asked.avps, code))
            or any(len(cause) != 4 for cause in bodies(asked.avps, 295))
            or len(types) != 1 or types[0] not in map(four, TYPES_OF_RECORDS)):
        raise Refused(5012)


def of_login(found, random, secret):
    """The attributes of an Access-Request that the table doesn't have."""
    if found.code == 2:
        return [(2, hidden(found.body, random, secret))]
    if found.code == 402:
        return [(3, chap_password(found.body))]
    return [(24, found.body)] if found.code == 24 else []


def of_record(found):
    """The attributes of an Accounting-Request that the table doesn't have: octets and their gigawords (RFC 2869, sections 5.1 and
    5.2), packets, and the cause, which RFC 4005, section 9.3.5, counts from 11 on."""
    number = number_in(found.body)
    if found.code in (363, 364):
        low, high = (42, 52) if found.code == 363 else (43, 53)
        return [(low, found.body[4:])] + [(high, found.body[:4])] * (number >= 2**32)
    if found.code in (365, 366):
        return [(47 if found.code == 365 else 48, four(min(number, 2**32 - 1)))]
    return [(49, four(number - 10))] if found.code == 295 and 11 <= number <= 28 else []


def become(found, way, random, secret):
    """The attributes that an AVP becomes."""
    if found.vendor is not None:
        return [(VENDOR_SPECIFIC, four(found.vendor) + attribute(found.code, found.body))]
    form, ways = ROWS.get(found.code, ("", ""))
    if way in ways:
        return [(found.code, backward(form, found.body))]
    return of_login(found, random, secret) if way == "A" else of_record(found)


def request(asked, identifier, random, secret):
    """The packet that a Diameter request becomes (the choice, the order and the refusals are profile)."""
    way = way_of(asked.command)
    mandatory = [found for found in asked.avps if found.flags & FLAG_MANDATORY]
    if any(is_unknown(found) for found in mandatory):
        raise Refused(5001)
    if any(is_key(found.code, found.vendor) for found in asked.avps) or any(is_unfit(found, way) for found in mandatory):
        raise Refused(5012)
    (check_login if way == "A" else check_record)(asked)
    taken = [found for found in asked.avps if not is_unknown(found) and not is_unfit(found, way)]
    attributes = [pair for found in taken for pair in become(found, way, random, secret)]
    if way == "A":
        first = MESSAGE_AUTHENTICATOR, bytes(16)
    else:
        first = 40, four(TYPES_OF_RECORDS[number_in(bodies(asked.avps, 480)[0])])
    attributes.insert(0, first)
    if 20 + len(joined(attributes)) > MOST_OCTETS:
        raise Refused(5012)
    if way == "C":
        return signed(ACCOUNTING_REQUEST, identifier, bytes(16), joined(attributes), secret)
    attributes[0] = MESSAGE_AUTHENTICATOR, seal(ACCESS_REQUEST, identifier, random, attributes, secret)
    return packet(ACCESS_REQUEST, identifier, random, joined(attributes))


# ---- Answers

RESULTS = {ACCEPT: 2001, RESPONSE: 2001, REJECT: 4001, CHALLENGE: 1001}
WAYS_OF_REPLIES = {ACCEPT: "S", CHALLENGE: "H", REJECT: "J"}
CODES_OF_REPLIES = {AA: (ACCEPT, REJECT, CHALLENGE), ACCOUNTING: (RESPONSE,)}


def is_reply(reply, sent, secret):
    """Whether a packet is what answers a request: by its Response Authenticator (RFC 2865, section 3) and, where it has one, by its
    only Message-Authenticator (RFC 3579, section 3.2)."""
    (whole, attributes), authenticator = reply, sent[4:20]
    seals = [value for kind, value in attributes if kind == MESSAGE_AUTHENTICATOR]
    return (whole == signed(whole[0], whole[1], authenticator, whole[20:], secret)
            and seals in ([], [seal(whole[0], whole[1], authenticator, attributes, secret)]))


def has_key(attributes):
    parts = [part for kind, value in attributes if kind == VENDOR_SPECIFIC for part in vendor_parts(value)]
    return any(is_key(kind, None) for kind, _ in attributes) or any(is_key(kind, vendor) for vendor, kind, _ in parts)


def images(code, attributes):
    """The AVPs that the attributes of a reply become. What isn't of its kind becomes none."""
    found = []
    for kind, value in attributes:
        form, ways = ROWS.get(kind, ("", ""))
        if WAYS_OF_REPLIES[code] in ways:
            image = forward(form, value)
            found += [avp(kind, image)] if image is not None else []
        elif kind == 27 and code != REJECT and len(value) == 4 or kind == 24 and code == CHALLENGE:
            found.append(avp(kind, value))
        elif kind == VENDOR_SPECIFIC and code != REJECT:
            found += [avp(part, body, 0, vendor) for vendor, part, body in vendor_parts(value)]
    return found


def first_of_four(asked, code):
    """The first AVP of a code that has four octets, where there is one."""
    return [avp(code, body) for body in bodies(asked.avps, code) if len(body) == 4][:1]


def answer(own, asked, result, more=()):
    """The answer to a request: its numbers and its flag P, its session, the result and the origin, what the command wants of the
    request, and the AVPs of a reply (the order is profile). The flag E marks a protocol error (RFC 6733, section 7.1.3)."""
    error = FLAG_ERROR if 3000 <= result < 4000 else 0
    if asked.command == AA:
        told = [avp(258, four(1)), *first_of_four(asked, 274)]
    else:
        told = first_of_four(asked, 480) + first_of_four(asked, 485)
    return message(asked.flags & FLAG_PROXIABLE | error, asked.command, asked.application, asked.hop, asked.end,
                   avp(263, bodies(asked.avps, 263)[0]), avp(268, four(result)), avp(264, own.host), avp(296, own.realm),
                   *told, *more)


def translated(own, asked, reply):
    """The answer that a reply becomes."""
    (whole, attributes), code = reply, reply[0][0]
    if has_key(attributes):
        return answer(own, asked, 5012)
    return answer(own, asked, RESULTS[code], images(code, attributes) if code != RESPONSE else ())


# ---- What is open and what is kept (profile)

MOST_REQUESTS, IDENTIFIERS, PAUSE, SENDINGS = 4096, 256, 2000, 3


class Core:
    def __init__(self, own):
        self.own = own
        self.moment = self.taken = 0
        self.open = []  # in the order of taking
        self.kept = {}  # of a key: the answer, and the moment from which it isn't kept any more

    def step(self, moment, kind, *parts):
        """What goes out for an event. A moment that goes back counts as the greatest so far."""
        if moment > self.moment:
            self.moment = moment
            self.kept = {key: kept for key, kept in self.kept.items() if moment < kept[1]}
        return getattr(self, f"on_{kind}")(*parts)

    def on_request(self, octets, random):
        """The first case that stands counts. 3004 says that there is no room now, 5001 that an AVP isn't supported, and 5012 that
        it can't be done (RFC 6733, sections 7.1.3 and 7.1.5)."""
        asked = read_message(octets)
        if asked is None or not asked.flags & FLAG_REQUEST or asked.command not in (AA, ACCOUNTING):
            return ["drop 28 NotRequest"]
        sessions, origins = bodies(asked.avps or [], 263), bodies(asked.avps or [], 264)
        if len(sessions) != 1 or len(sessions[0]) > 4096 or len(origins) != 1:
            return ["drop 29 NoIdentity"]
        key = origins[0], asked.end  # the same request again has the same (RFC 6733, section 3)
        if any(waiting.key == key for waiting in self.open):
            return ["drop 30 Open"]
        if key in self.kept:
            again = self.kept[key][0]
            return [f"answer {(again[:12] + four(asked.hop) + again[16:]).hex()}"]
        identifier = self.taken % IDENTIFIERS
        if len(self.open) + len(self.kept) >= MOST_REQUESTS or any(waiting.identifier == identifier for waiting in self.open):
            return [f"answer {answer(self.own, asked, 3004).hex()}"]
        try:
            octets = request(asked, identifier, random, self.own.secret)
        except Refused as refused:
            return [f"answer {answer(self.own, asked, *refused.args).hex()}"]
        self.taken += 1
        waiting = SimpleNamespace(asked=asked, key=key, identifier=identifier, octets=octets, count=0)
        self.open.append(waiting)
        return [self.sent(waiting)]

    def sent(self, waiting):
        waiting.count, waiting.last = waiting.count + 1, self.moment
        return f"send {waiting.octets.hex()}"

    def settled(self, waiting, octets):
        self.open.remove(waiting)
        self.kept[waiting.key] = octets, self.moment + self.own.retention
        return f"answer {octets.hex()}"

    def on_reply(self, octets):
        reply = read_packet(octets)
        for waiting in self.open if reply else []:
            code, identifier = reply[0][:2]
            if (identifier == waiting.identifier and code in CODES_OF_REPLIES[waiting.asked.command]
                    and is_reply(reply, waiting.octets, self.own.secret)):
                return [self.settled(waiting, translated(self.own, waiting.asked, reply))]
        return ["drop 31 StrangeReply"]

    def on_tick(self):
        """What was sent 2 s ago or earlier is sent again, three times in all; then the server couldn't be reached, which 3002 says
        (RFC 6733, section 7.1.3)."""
        return [self.sent(waiting) if waiting.count < SENDINGS else self.settled(waiting, answer(self.own, waiting.asked, 3002))
                for waiting in list(self.open) if self.moment - waiting.last >= PAUSE]


# ---- Scripts (profile)

def number(word, least, most):
    if not re.fullmatch("0|[1-9][0-9]*", word) or not least <= int(word) <= most:
        raise BadLine(3)
    return int(word)


def identity_of(word):
    if not re.fullmatch("[A-Za-z0-9._-]{1,64}", word):
        raise BadLine(3)
    return word.encode()


def octets_of(word, least, most):
    if not re.fullmatch("-|([0-9a-fA-F]{2})+", word) or not least <= len(word.replace("-", "")) // 2 <= most:
        raise BadLine(3)
    return bytes.fromhex(word.replace("-", ""))


def own_of(words):
    """What the first line says: the agent's own name, the secret that it shares with the server, and how long answers are kept."""
    _, host, realm, server, port, secret, retention = words
    parts = server.split(".")
    if len(parts) != 4:
        raise BadLine(3)
    for part in parts:
        number(part, 0, 255)
    number(port, 0, 65535)
    return SimpleNamespace(host=identity_of(host), realm=identity_of(realm), secret=octets_of(secret, 1, 128),
                           retention=number(retention, 1000, 300000))


class Script:
    """A script that is read line by line."""
    LONGEST_LINE, LONGEST_MESSAGE = 140000, 65536
    # Of each kind of line the words behind it, by the octets that each may have.
    WORDS = {"request": [(0, LONGEST_MESSAGE), (16, 16)], "reply": [(0, LONGEST_LINE)], "tick": []}

    def __init__(self):
        self.core, self.counts = None, {"send": 0, "answer": 0, "drop": 0}

    def outputs(self, line):
        """What the next line gives."""
        if len(line) > self.LONGEST_LINE:
            raise BadLine(1)
        words = line.split(" ")
        if self.core is None:
            if words[0] != "reverse" or len(words) != 7:
                raise BadLine(2)
            self.core = Core(own_of(words))
            return []
        sizes = self.WORDS.get("".join(words[1:2]))
        if sizes is None or len(words) != 2 + len(sizes):
            raise BadLine(2)
        moment, parts = number(words[0], 0, 2**64 - 1), [octets_of(word, *size) for word, size in zip(words[2:], sizes)]
        outputs = self.core.step(moment, words[1], *parts)
        for output in outputs:
            self.counts[output.split(" ")[0]] += 1
        return outputs

    def end(self):
        return " ".join(["end", *map(str, self.counts.values())])


def play(lines):
    """What is printed for each line, as a list, and at last how the run ends: the end line, or what is said of a bad line."""
    script = Script()
    for place, line in enumerate(lines, 1):
        try:
            yield [f"{place} {output}" for output in script.outputs(line)]
        except BadLine as bad:
            yield f"BadTranscript {place} {bad}"
            return
    yield script.end()
