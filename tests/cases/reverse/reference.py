#!/usr/bin/env python3
"""The cases of `agent reverse` beside this file, and what each is to print, which rules.py works out apart from the program.

    reference.py --write            writes the cases
    reference.py --check            ends with status 1 where they aren't what it writes
    reference.py reverse < SCRIPT   does what `agent reverse` does, and prints what a line gives before it reads the next one
"""
import hashlib
import hmac
import itertools
import pathlib
import re
import sys
from collections import namedtuple

sys.dont_write_bytecode = True
from rules import (  # noqa: E402
    AA, ACCOUNTING, KNOWN, ROWS, attribute, avp, eight, four, joined, message, packet, play, read_message, request, seal, signed)

HERE = pathlib.Path(__file__).resolve().parent

FORM = """\
# Each case is a script that `agent reverse` reads. A line `== NAME` begins it and says what it shows. A line `< ..` is a line of
# the script; the lines `> ..` below it are what it gives, each without the line's number that is printed before it. A line `= ..`
# ends the case: the end line, or what is said of a bad line on standard error, with status 3 and no end line. $NAME is the text of
# that name in `names`, and {XX*N} are N octets XX. `<N ..` are N lines, in which {#} is the number of the line among all such lines
# of the case, from 0 on, in eight hex digits; `>N HASH` are N lines of output, by the SHA-256 of them as they are printed.
# reference.py wrote this file.
"""
NAMES_FORM = "# Texts that stand in many cases: a name and, behind the first space, the text. reference.py wrote this file.\n"
# More lines of output than these are told by their hash.
MOST_OUTPUTS = 8

# ---- What the cases are made of

SECRET = b"secret"
OWN = f"reverse rev realm 10.0.0.5 1812 {SECRET.hex()} 30000"
LASTING = OWN.replace(" 30000", " 300000")
RANDOM = bytes(range(16))
SESSION, HOST, START = avp(263, b"s"), avp(264, b"h"), avp(480, four(2))
STRANGE, KEY = avp(9999, b"a"), avp(69, b"")  # an AVP that nobody knows, and one that is a key
CLEAR = 0  # the flags of an AVP whose flag M is clear
COMMANDS = ("AA-Request", "Accounting-Request")

Many = namedtuple("Many", "count line")
NUMBER = 0xE0E1E2E3  # stands for the number of one of many lines

NAMES = {"own": OWN, "random": RANDOM.hex()}
FILES = {}


def named(name, octets):
    """These octets, which stand under a name in the cases."""
    if NAMES.setdefault(name, octets.hex()) != octets.hex():
        raise ValueError(f"{name} has two values")
    return octets


def flat(lines):
    for line in lines:
        if isinstance(line, (str, Many)):
            yield line
        else:
            yield from flat(line)


def case(file, name, *lines, head=OWN):
    """A case of a file: lines, or lists of lines, behind the usual first line."""
    cases = FILES.setdefault(file, {})
    if name in cases:
        raise ValueError(f"{file} has two cases '{name}'")
    cases[name] = list(flat([*([head] if head else []), *lines]))


def ask(octets, moment=0, random=RANDOM):
    return f"{moment} request {octets.hex() or '-'} {random.hex()}"


def reply(octets, moment=100):
    return f"{moment} reply {octets.hex() or '-'}"


def many(count, line):
    return Many(count, line.replace(f"{NUMBER:08x}", "{#}"))


def ticks(start):
    """By which what was taken at a moment, and isn't answered, is sent twice more and given up."""
    return [f"{start + pause} tick" for pause in (2000, 4000, 6000)]


def asking(command, *avps, end=0, flags=0xC0, application=1, hop=7):
    return message(flags, command, application, hop, end, *avps)


def login(*avps, end=0, **header):
    return asking(AA, SESSION, HOST, *avps, end=end, **header)


def record(*avps, end=0, first=START, **header):
    return asking(ACCOUNTING, SESSION, HOST, first, *avps, end=end, **{"application": 3, **header})


MAKERS = dict(zip(COMMANDS, (login, record)))


def each(make, *lists):
    """A request for each list of AVPs."""
    return [ask(make(*avps, end=end)) for end, avps in enumerate(lists)]


def set_and_clear(make, code, body, vendor=None):
    """A request with an AVP whose flag M is set, and one where it is clear."""
    return each(make, [avp(code, body, vendor=vendor)], [avp(code, body, CLEAR, vendor)])


def sent(octets, identifier=0, random=RANDOM, secret=SECRET):
    return request(read_message(octets), identifier, random, secret)


def replying(code, *attributes, to=None, identifier=0, secret=SECRET):
    """A reply whose authenticator is right."""
    return signed(code, identifier, sent(to or LOGIN, identifier, secret=secret)[4:20], joined(attributes), secret)


def sealing(code, *attributes, to=None, identifier=0):
    """A reply whose attributes 80 have the value of a right seal, and whose authenticator is right."""
    value = seal(code, identifier, sent(to or LOGIN, identifier)[4:20], attributes, SECRET)
    return replying(code, *((kind, value if kind == 80 else body) for kind, body in attributes), to=to, identifier=identifier)


LOGIN, RECORD = named("login", login()), named("record", record())
named("login-sent", sent(LOGIN))
named("record-sent", sent(RECORD))
ACCEPT, REJECT, CHALLENGE = (named(name, replying(code)) for name, code in (("accept", 2), ("reject", 3), ("challenge", 11)))
RESPONSE = named("response", replying(5, to=RECORD))
ASKED, RECORDED = ask(LOGIN), ask(RECORD)
SEAL = 80, bytes(16)
PASSWORD, CHAP = avp(2, b"arctangent"), avp(402, avp(403, four(5)) + avp(404, b"\7") + avp(405, bytes(range(16))))

# ---- Headers, and what an answer has of its request

for command, make in MAKERS.items():
    for name, *requests in (
        ("flags R; R and P; R, P and E; R and T; all of them", *(
            make(STRANGE, flags=flags, end=flags) for flags in (0x80, 0xC0, 0xE0, 0x90, 0xFF))),
        ("its application and its numbers, at their least and at their greatest",
         make(STRANGE, application=0, hop=0, end=0), make(STRANGE, application=2**32 - 1, hop=2**32 - 1, end=2**32 - 1)),
    ):
        case("answers", f"{command}: {name}", [ask(octets) for octets in requests])
for name, *avps in (
    ("none of 274, 480 and 485", ),
    ("274, 480 and 485, behind other AVPs", avp(1, b"nemo"), avp(274, four(2)), avp(480, four(2)), avp(485, four(9))),
    ("274, 480 and 485 in another order", avp(485, four(9)), avp(480, four(2)), avp(274, four(3))),
    ("274, 480 and 485 whose flag M is clear", *(avp(code, four(2), CLEAR) for code in (274, 480, 485))),
    ("of each the first one of four octets", *(
        avp(code, body) for code in (274, 480, 485) for body in (b"", b"abc", eight(1), four(4), four(3)))),
    ("none of four octets", *(avp(code, body) for code in (274, 480, 485) for body in (b"", b"abc", eight(1)))),
    ("of a vendor's none", *(avp(code, four(1), CLEAR, 9) for code in (274, 480, 485))),
):
    for command, code in zip(COMMANDS, (AA, ACCOUNTING)):
        case("answers", f"{command}: {name}", ask(asking(code, SESSION, HOST, *avps, STRANGE)))
for name, length in (("no octets", 0), ("7 octets", 7), ("4096 octets", 4096)):
    case("answers", f"a Session-Id of {name}", ask(asking(AA, avp(263, b"\xff" * length), HOST)), reply(ACCEPT))
case("answers", "the request's origin and realm aren't in it", ask(login(avp(296, b"there"), avp(283, b"realm"))), reply(ACCEPT))
case("answers", "own names of 64 octets, and the shortest secret", ASKED, reply(replying(3, secret=b"k")),
     head=f"reverse {'h' * 64} {'r' * 64} 0.0.0.0 0 {b'k'.hex()} 1000")
for length in (1, 64, 65, 128):
    secret = b"k" * length
    case("answers", f"a secret of length {length}", ask(login(PASSWORD)), ask(record(end=1)),
         reply(replying(2, to=login(PASSWORD), secret=secret)), reply(replying(5, to=record(end=1), identifier=1, secret=secret)),
         head=OWN.replace(SECRET.hex(), secret.hex()))

# ---- What makes a request Unsupported

for command, make in MAKERS.items():
    case("unsupported", f"{command}: an AVP that nobody knows", set_and_clear(make, 9999, b"abc"))
    case("unsupported", f"{command}: a vendor's code 256", set_and_clear(make, 256, b"abc", 9))
    case("unsupported", f"{command}: a vendor's codes 0 and 255", each(make, [avp(0, b"a", vendor=9)], [avp(255, b"b", vendor=9)]))
    case("unsupported", f"{command}: the greatest code, and a vendor's", set_and_clear(make, 2**32 - 1, b""),
         set_and_clear(make, 2**32 - 1, b"", 2**32 - 1))
    case("unsupported", f"{command}: codes that are known, and give nothing", ask(make(*(
        avp(code, b"") for code in sorted(KNOWN - {2, 24, 263, 264, 295, 363, 364, 365, 366, 402, 480})))))
    case("unsupported", f"{command}: each code up to 511", many(512, ask(make(avp(NUMBER, four(0)), end=NUMBER))))
    case("unsupported", f"{command}: each code up to 511 with the flag M clear", [
        [many(128, ask(make(avp(NUMBER, four(0), CLEAR), end=NUMBER), start)), ticks(start)] for start in (0, 6000, 12000, 18000)])
    for vendor in (0, 9, 311, 2**32 - 1):
        case("unsupported", f"{command}: each code up to 255 of vendor {vendor}",
             many(256, ask(make(avp(NUMBER, four(0), vendor=vendor), end=NUMBER))))
    case("unsupported", f"{command}: codes of Microsoft's keys without the vendor", set_and_clear(make, 17, b"key"))
    case("unsupported", f"{command}: EAP-Master-Session-Key's code with a vendor", set_and_clear(make, 464, b"key", 311))
    for code in (263, 363, 480):
        case("unsupported", f"{command}: the code {code}, which is known without a vendor", set_and_clear(make, code, eight(2), 9))
    case("unsupported", f"{command}: reserved flags, and the flag for encryption, don't count as M",
         each(make, [avp(9999, b"a", 0x3F)], [avp(9999, b"a", 0x7F)]))
    case("unsupported", f"{command}: members of groups aren't looked at", ask(make(
        avp(401, STRANGE + avp(69, b"a")), avp(279, STRANGE), avp(284, b"rotten"), avp(297, avp(266, four(1))))))
for name, *avps in (
    ("before a key", avp(102, b"key"), STRANGE),
    ("before a value of a wrong size", avp(5, b""), STRANGE),
    ("before a vendor's value that is too long", avp(1, bytes(248), vendor=9), STRANGE),
    ("before two passwords", PASSWORD, PASSWORD, STRANGE),
    ("a vendor's, before two passwords", PASSWORD, PASSWORD, avp(256, b"", vendor=9)),
):
    case("unsupported", f"AA-Request: {name}", ask(login(*avps)))
for name, *avps in (
    ("before a count of a wrong size", avp(363, b""), STRANGE),
    ("before a second type of record", START, STRANGE),
):
    case("unsupported", f"Accounting-Request: {name}", ask(record(*avps)))
case("unsupported", "Accounting-Request: before a missing type of record", ask(asking(ACCOUNTING, SESSION, HOST, STRANGE)))

# ---- What makes a request Unable: keys and values

KEYS = [(69, None), (102, None), (464, None), (12, 311), (16, 311), (17, 311)]
WRONG = {"Text": (b"\xff", b"\xc0\x80", b"\xed\xa0\x80", b"a" * 254), "Plain": (b"\xff" * 254,), "Four": (b"", b"abc", b"abcde"),
         "Eight": (b"", bytes(7), bytes(9)), "Sixteen": (b"", bytes(15), bytes(17)), "Prefix": (b"", b"\0", bytes(19), bytes(254)),
         "Time": (b"", b"abc", b"abcde", eight(0))}
RIGHT = {"Text": (b"", "é€𐍈".encode(), b"a" * 253), "Plain": (b"", b"\0\xff", b"\xff" * 253), "Four": (b"\xff" * 4,),
         "Eight": (b"\xff" * 8,), "Sixteen": (b"\xff" * 16,), "Prefix": (b"\0\0", bytes(18)), "Time": (bytes(4), b"\xff" * 4)}
OF_KINDS = {
    "AA-Request": (("Text", 1), ("Plain", 44), ("Four", 5), ("Eight", 96), ("Sixteen", 95), ("Prefix", 97)),
    "Accounting-Request": (("Text", 50), ("Plain", 25), ("Four", 46), ("Eight", 96), ("Sixteen", 98), ("Prefix", 97), ("Time", 55)),
}
for command, make in MAKERS.items():
    for code, vendor in KEYS:
        case("unable", f"{command}: the key {code} of vendor {vendor}" if vendor else f"{command}: the key {code}",
             set_and_clear(make, code, b"key", vendor))
    case("unable", f"{command}: keys of no octets, and keys that are too long for an attribute, with the flag M clear", each(
        make, *([avp(code, body, CLEAR, vendor)] for code, vendor in KEYS for body in (b"", b"k" * 300))))
    case("unable", f"{command}: a key behind what is left out", ask(make(
        avp(9999, b"", CLEAR), avp(1, b"\xff", CLEAR), avp(69, b"", CLEAR))))
    for kind, code in OF_KINDS[command]:
        case("unable", f"{command}: values that aren't {kind}, and are of {code}", each(
            make, *([avp(code, value, flags)] for value in WRONG[kind] for flags in (0x40, CLEAR))))
        case("unable", f"{command}: values that are {kind}, of {code}", each(make, *([avp(code, value)] for value in RIGHT[kind])))
    for body in (b"\xff", b"\x80\0\0\1", bytes(8), bytes(16), bytes(18), bytes(19), b"a" * 253, b"a" * 254):
        told = f"{len(body)} octets {body[0]:02x} and so on"
        case("unable", f"{command}: each code up to 127 with {told}", many(128, ask(make(avp(NUMBER, body), end=NUMBER))))
        case("unable", f"{command}: each code up to 127 with {told}, the flag M being clear",
             many(128, ask(make(avp(NUMBER, body, CLEAR), end=NUMBER))))
    case("unable", f"{command}: a vendor's value of 247 octets, and of 248", each(make, *(
        [avp(1, b"v" * length, flags, 9)] for length in (0, 247, 248) for flags in (0x40, CLEAR))))
    case("unable", f"{command}: what is left out among what isn't", ask(make(
        avp(32, b"a"), avp(9999, b"", CLEAR), avp(5, b"abc", CLEAR), avp(5, four(3)), avp(1, b"v" * 248, CLEAR, 9),
        avp(256, b"v", CLEAR, 9), avp(1, b"v", CLEAR, 9))))
case("unable", "AA-Request: wrong sizes of AVPs that it doesn't carry", ask(login(
    *(avp(code, b"") for code in (10, 15, 16, 18, 27, 28, 41, 45, 46, 51, 55, 75, 76, 85)), avp(11, b"\xff"), avp(25, bytes(254)))))
case("unable", "Accounting-Request: wrong sizes of AVPs that it doesn't carry", ask(record(
    *(avp(code, b"") for code in (75, 76, 85)), avp(18, b"\xff"), avp(60, bytes(254)), avp(78, bytes(254)))))
case("unable", "AA-Request: what makes an Accounting-Request Unable doesn't count", ask(login(
    *(avp(code, b"abc") for code in (363, 364, 365, 366, 295, 480)))))
case("unable", "Accounting-Request: what makes an AA-Request Unable doesn't count", ask(record(
    avp(2, bytes(129)), PASSWORD, CHAP, avp(402, b"rotten"), avp(24, bytes(254)))))

# ---- Logins: passwords, CHAP and State

for length in (0, 1, 15, 16, 17, 32, 127, 128, 129):
    case("logins", f"a password of length {length}", set_and_clear(login, 2, bytes(range(1, length + 1))))
case("logins", "passwords that end in octets 00", each(login, [avp(2, b"a\0")], [avp(2, bytes(16))], [avp(2, bytes(17))]))
case("logins", "a password under two authenticators", ask(login(PASSWORD)), ask(login(PASSWORD, end=1), random=b"\xff" * 16))
case("logins", "passwords of a vendor are none", ask(login(avp(2, b"a", vendor=9), PASSWORD, avp(2, b"b", vendor=9))))
for name, *avps in (
    ("two passwords", PASSWORD, avp(2, b"a")),
    ("two passwords, of which one has the flag M", PASSWORD, avp(2, b"a", CLEAR)),
    ("two passwords without the flag M", avp(2, b"a", CLEAR), avp(2, b"a", CLEAR)),
    ("a password and CHAP", PASSWORD, CHAP),
    ("CHAP and a password, apart", CHAP, avp(1, b"nemo"), PASSWORD),
    ("CHAP twice", CHAP, CHAP),
    ("CHAP and the members of CHAP without the flag M", CHAP, avp(402, CHAP[8:], CLEAR)),
):
    case("logins", name, ask(login(*avps)))
ALGORITHM, IDENT, HASH = avp(403, four(5)), avp(404, b"\7"), avp(405, bytes(range(16)))
for name, *members in (
    ("its three members", ALGORITHM, IDENT, HASH),
    ("its members in another order", HASH, IDENT, ALGORITHM),
    ("members without the flag M", avp(403, four(5), CLEAR), avp(404, b"\xff", CLEAR), avp(405, b"\xff" * 16, CLEAR)),
    ("further members", avp(1, b"a"), ALGORITHM, STRANGE, IDENT, avp(69, b"a"), HASH, avp(402, b"")),
    ("members of a vendor beside them", avp(403, four(1), vendor=9), ALGORITHM, avp(404, b"", vendor=9), IDENT,
     avp(405, b"", vendor=9), HASH),
    ("no members", ),
    ("no 403", IDENT, HASH),
    ("no 404", ALGORITHM, HASH),
    ("no 405", ALGORITHM, IDENT),
    ("two 403", ALGORITHM, ALGORITHM, IDENT, HASH),
    ("two 403 of two values", ALGORITHM, avp(403, four(4)), IDENT, HASH),
    ("two 404", ALGORITHM, IDENT, IDENT, HASH),
    ("two 404 of two sizes", ALGORITHM, IDENT, avp(404, b""), HASH),
    ("two 405", ALGORITHM, IDENT, HASH, HASH),
    ("two 405 of two sizes", ALGORITHM, IDENT, HASH, avp(405, b"")),
    ("403 of value 4", avp(403, four(4)), IDENT, HASH),
    ("403 of value 5 and 2^24", avp(403, four(5 + 2**24)), IDENT, HASH),
    ("403 of one octet", avp(403, b"\5"), IDENT, HASH),
    ("403 of eight octets", avp(403, eight(5)), IDENT, HASH),
    ("403 of no octets", avp(403, b""), IDENT, HASH),
    ("404 of no octets", ALGORITHM, avp(404, b""), HASH),
    ("404 of two octets", ALGORITHM, avp(404, b"\0\7"), HASH),
    ("405 of 15 octets", ALGORITHM, IDENT, avp(405, bytes(15))),
    ("405 of 17 octets", ALGORITHM, IDENT, avp(405, bytes(17))),
    ("403 of a vendor alone", avp(403, four(5), vendor=9), IDENT, HASH),
    ("404 of a vendor alone", ALGORITHM, avp(404, b"\7", vendor=9), HASH),
    ("405 of a vendor alone", ALGORITHM, IDENT, avp(405, bytes(16), vendor=9)),
    ("rotten behind its members", ALGORITHM, IDENT, HASH, bytes(4)),
    ("rotten before its members", bytes.fromhex("0000000140000007"), ALGORITHM, IDENT, HASH),
    ("rotten, the padding of its last member not being there", ALGORITHM, HASH, IDENT[:-3]),
):
    case("logins", f"CHAP: {name}", set_and_clear(login, 402, b"".join(members)))
case("logins", "CHAP and its challenge, before and behind", each(login, [avp(60, b"\xff" * 16), CHAP], [CHAP, avp(60, b"c")]))
case("logins", "CHAP of a vendor is none", ask(login(avp(402, b"", CLEAR, 9), CHAP)))
for code in (403, 404, 405):
    case("logins", f"{code}, a member of CHAP, alone", set_and_clear(login, code, b""))
for length in (0, 253, 254):
    case("logins", f"a State of {length} octets", set_and_clear(login, 24, b"s" * length))
case("logins", "two States, and a second one that is too long", each(
    login, [avp(24, b"a"), avp(24, b"b")], [avp(24, b"a"), avp(24, bytes(254), CLEAR)]))
case("logins", "all at once, in the order of the AVPs", ask(login(
    avp(24, b"state"), avp(3000, b"v", CLEAR, 9), avp(1, b"nemo"), avp(30, b"b", vendor=9), PASSWORD, avp(1, b"again"),
    avp(274, four(3)), avp(31, b"a", CLEAR), avp(4, bytes(4)), avp(2, b"c", vendor=10))))
case("logins", "all that the agent itself sends with a login", ask(asking(
    AA, avp(263, b"nas1.example;7;0"), avp(258, four(1)), avp(264, b"nas1.example"), avp(296, b"example"), avp(283, b"example"),
    avp(293, b"rev"), avp(274, four(3)), avp(408, four(1)), avp(1, b"nemo"), PASSWORD, avp(4, bytes([192, 168, 1, 16])),
    avp(5, four(3)))))

# ---- Records: types, counts and causes

for number in (0, 1, 2, 3, 4, 5, 2**32 - 1, 2**24 + 2):
    case("records", f"a record of type {number}", ask(record(first=avp(480, four(number)))))
for name, *types in (
    ("no type", ),
    ("a type that is behind other AVPs", avp(1, b"nemo"), avp(44, b"A1"), avp(480, four(3))),
    ("a type without the flag M", avp(480, four(4), CLEAR)),
    ("two types that are the same", START, START),
    ("two types, of which the second isn't right", START, avp(480, four(1))),
    ("two types, of which the first has no octets", avp(480, b""), START),
    ("two types without the flag M", avp(480, four(2), CLEAR), avp(480, four(2), CLEAR)),
    ("a type of three octets", avp(480, b"\0\0\2")),
    ("a type of eight octets", avp(480, eight(2))),
    ("a vendor's type beside it", avp(480, four(1), CLEAR, 9), START),
    ("a vendor's type alone", avp(480, four(2), CLEAR, 9)),
):
    case("records", name, ask(asking(ACCOUNTING, SESSION, HOST, *types)))
COUNTS = (363, 364, 365, 366)
for count in (0, 1, 2**32 - 1, 2**32, 2**32 + 1, 2**63 - 1, 2**64 - 1):
    case("records", f"each count at {count}", each(record, *([avp(code, eight(count))] for code in COUNTS)))
for code in COUNTS:
    case("records", f"{code} of other sizes", each(record, *(
        [avp(code, body, flags)] for body in (b"", four(1), bytes(7), bytes(9), bytes(16)) for flags in (0x40, CLEAR))))
    case("records", f"{code} twice, without the flag M, and beside a vendor's", ask(record(
        avp(code, eight(2**32 + 5), CLEAR), avp(code, b"", CLEAR, 9), avp(code, eight(7)))))
case("records", "a count that isn't right behind one that is", each(record, *(
    [avp(code, eight(1)), avp(code, four(1), CLEAR)] for code in COUNTS)))
case("records", "all counts", ask(record(*(avp(code, eight(2**40 + code)) for code in reversed(COUNTS)))))
for number in (0, 1, 10, 11, 12, 27, 28, 29, 2**32 - 1, 2**24 + 11):
    case("records", f"the cause {number}", set_and_clear(record, 295, four(number)))
case("records", "causes of other sizes", each(record, *(
    [avp(295, body, flags)] for body in (b"", b"\0\0\x0b", bytes(5), eight(11)) for flags in (0x40, CLEAR))))
case("records", "several causes", each(
    record, [avp(295, four(cause)) for cause in (11, 1, 28, 11)], [avp(295, four(11)), avp(295, b"", CLEAR)],
    [avp(295, b"", CLEAR, 9), avp(295, four(12))]))
case("records", "times", each(record, *([avp(55, four(time))] for time in (0, 2208988799, 2208988800, 2208988801, 2**32 - 1))))
case("records", "Class and State, a password, and a Session-Timeout", ask(record(
    avp(25, b"Diameter/agent.example;7;0"), avp(24, b"s"), avp(25, b""), PASSWORD, avp(27, four(9)))))
case("records", "all at once, in the order of the AVPs", ask(record(
    avp(366, eight(8)), avp(26, b"v", vendor=9), avp(363, eight(2**32 + 1)), avp(44, b"A1"), avp(295, four(11)), avp(485, four(2)),
    avp(46, four(60)), avp(364, eight(2**32)), avp(1, b"nemo"), avp(3000, b"", CLEAR, 9), avp(365, eight(9)), avp(259, four(3)))))
case("records", "the authenticator isn't the random octets", RECORDED, ask(record(end=1), random=b"\xff" * 16))

# ---- The table of attributes

KINDS = {
    "Text": lambda code: b"text%d" % code, "Plain": lambda code: b"\0\xff" + bytes([code]), "Four": lambda code: four(2**31 + code),
    "Time": lambda code: four(2208988800 + code), "Eight": eight, "Sixteen": lambda code: bytes(15) + bytes([code]),
    "Prefix": lambda code: b"\0\x40" + bytes(7) + bytes([code]),
}
VALUES = {code: KINDS[form](code) for code, (form, _) in ROWS.items()}
for command, make in MAKERS.items():
    case("rows", f"{command}: each row alone", each(make, *([avp(code, value)] for code, value in VALUES.items())))
    for name, avps in (
        ("from the last to the first", [avp(code, value) for code, value in reversed(VALUES.items())]),
        ("without the flag M", [avp(code, value, CLEAR) for code, value in VALUES.items()]),
        ("twice", [avp(code, value) for code, value in VALUES.items() for _ in range(2)]),
        ("with a vendor", [avp(code, value, vendor=9) for code, value in VALUES.items()]),
    ):
        case("rows", f"{command}: each row, {name}", ask(make(*avps)))
CODES = {2: "an Access-Accept", 11: "an Access-Challenge", 3: "an Access-Reject", 5: "an Accounting-Response"}
for code, kind in CODES.items():
    asked, to = (RECORDED, RECORD) if code == 5 else (ASKED, LOGIN)
    case("rows", f"{kind}: each row", asked, reply(replying(code, *VALUES.items(), to=to)))
    case("rows", f"{kind}: each row, from the last to the first", asked, reply(replying(code, *reversed(VALUES.items()), to=to)))
    for size in (1, 4, 8, 16):
        case("rows", f"{kind}: each type up to 127 that is no key, with {size} octets", asked, reply(replying(
            code, *((of, b"\x7f" * size) for of in range(128) if of not in (26, 69, 80, 102)), to=to)))
    case("rows", f"{kind}: each type from 128 on", asked, reply(replying(code, *((of, bytes(4)) for of in range(128, 256)), to=to)))

# ---- The size of a packet


def filled(code, octets):
    """AVPs that become attributes of so many octets together."""
    return [avp(code, b"a" * 253)] * (octets // 255) + ([avp(code, b"a" * (octets % 255 - 2))] if octets % 255 else [])


ROOM, ROOM_OF_RECORD = 4096 - 20 - 18, 4096 - 20 - 6
for command, make, room in (("AA-Request", login, ROOM), ("Accounting-Request", record, ROOM_OF_RECORD)):
    case("sizes", f"{command}: 4096 octets, and one more", each(make, filled(30, room), filled(30, room + 1)))
    case("sizes", f"{command}: 4096 octets, and one more, without the flag M", each(
        make, [*filled(30, room - 10), avp(31, b"a" * 8, CLEAR)], [*filled(30, room - 10), avp(31, b"a" * 9, CLEAR)]))
    case("sizes", f"{command}: 4096 octets, and one more, with a vendor's", each(make, *(
        [avp(1, b"v" * length, CLEAR, 9), *filled(30, room - 20)] for length in (12, 13))))
    case("sizes", f"{command}: what is left out doesn't count", ask(make(
        *filled(30, room), avp(9999, b"a" * 9, CLEAR), avp(5, b"abc", CLEAR), avp(1, b"v" * 248, CLEAR, 9), avp(274, four(1)))))
    case("sizes", f"{command}: 65,536 octets", ask(make(*filled(30, 65536))))
    case("sizes", f"{command}: 65,536 octets that give nothing", ask(make(avp(283, b"a" * (65536 - len(make()) - 8)))))
case("sizes", "AA-Request: 4096 octets, and one more, with a password", each(login, *(
    [avp(2, password), *filled(30, ROOM - 18)] for password in (b"", b"a" * 16, b"a" * 17))))
case("sizes", "AA-Request: 4096 octets, and one more, with CHAP", each(login, *(
    [CHAP, *filled(30, octets)] for octets in (ROOM - 19, ROOM - 18))))
case("sizes", "AA-Request: 4096 octets, and one more, with a State", each(login, *(
    [avp(24, state), *filled(30, ROOM - 9)] for state in (b"s" * 7, b"s" * 8))))
case("sizes", "Accounting-Request: 4096 octets, and six more, with octets from 2^32 on", each(record, *(
    [avp(363, eight(octets)), *filled(30, ROOM_OF_RECORD - 6)] for octets in (2**32 - 1, 2**32))))
case("sizes", "Accounting-Request: 4096 octets, and six more, with a cause", each(record, *(
    [avp(295, four(cause)), *filled(30, ROOM_OF_RECORD)] for cause in (10, 11))))
FULL = [(18, b"a" * 253)] * 15 + [(18, b"a" * 249)]
case("sizes", "a reply of 4096 octets", ASKED, reply(replying(3, *FULL)))
case("sizes", "a reply of 4097 octets", ASKED, reply(replying(3, *FULL[:-1], (18, b"a" * 250))))

# ---- Which case stands first

OPEN = [ASKED]
KEPT = [ASKED, reply(ACCEPT, 0)]
for name, *lines in (
    ("1: no octets", ask(b"")),
    ("1: 19 octets", ask(LOGIN[:19])),
    ("1: the header alone, and an octet less", ask(message(0xC0, AA, 1, 7, 0)), ask(message(0xC0, AA, 1, 7, 0)[:-1])),
    ("1: versions 0 and 2", ask(b"\0" + LOGIN[1:]), ask(b"\2" + LOGIN[1:])),
    ("1: a length that isn't the count of octets", ask(LOGIN[:-4]), ask(LOGIN + bytes(4)), ask(b"\1\0\0\0" + LOGIN[4:])),
    ("1: a length that is no multiple of 4", *(
        ask(b"\1\0\0" + bytes([len(LOGIN) + more]) + LOGIN[4:] + bytes(more)) for more in (1, 2, 3))),
    ("1: a length past 2^16", ask(b"\1\1\0" + LOGIN[3:])),
    ("1: an AA-Answer and an Accounting-Answer", ask(login(flags=0x40)), ask(record(flags=0x7F))),
    ("1: requests of other commands", *(ask(asking(command, SESSION, HOST)) for command in (
        0, 9, 15, 257, 258, 264, 266, 268, 270, 272, 274, 275, 280, 282, 2**16 + 265, 2**24 - 1))),
    ("2: no AVPs", *(ask(asking(command)) for command in (AA, ACCOUNTING))),
    ("2: no Session-Id", ask(asking(AA, HOST))),
    ("2: no Origin-Host", ask(asking(AA, SESSION))),
    ("2: two Session-Ids", ask(login(SESSION)), ask(record(avp(263, b"t", CLEAR)))),
    ("2: two Origin-Hosts", ask(login(HOST)), ask(login(avp(264, b"", CLEAR)))),
    ("2: a Session-Id of 4097 octets", ask(asking(AA, avp(263, b"s" * 4097), HOST))),
    ("2: a Session-Id of 4097 octets beside one of 4096", ask(asking(AA, avp(263, b"s" * 4097), HOST, avp(263, b"s" * 4096)))),
    ("2: a vendor's Session-Id alone", ask(asking(AA, avp(263, b"s", CLEAR, 9), HOST))),
    ("2: a vendor's Origin-Host alone", ask(asking(AA, SESSION, avp(264, b"h", CLEAR, 9)))),
    ("2: AVPs that can't be read: four octets that are left", ask(login(bytes(4)))),
    ("2: AVPs that can't be read, before both", ask(asking(AA, bytes.fromhex("0000000140ffffff"), SESSION, HOST))),
    ("2: AVPs that can't be read, between both", ask(asking(AA, SESSION, bytes.fromhex("0000000140000007"), HOST))),
    ("2: a vendor's AVP of length 8, behind both", ask(login(bytes.fromhex("0000000180000008")))),
    ("2: an AVP of length 5, and one of which an octet isn't there", ask(login(bytes.fromhex("0000000140000005"))),
     ask(login(bytes.fromhex("0000000140000009")))),
    ("both AVPs without the flag M, with reserved flags, behind others, and beside a vendor's", ask(asking(
        AA, avp(1, b"nemo"), avp(264, b"h", 0x1F), avp(263, b"t", CLEAR, 9), avp(263, b"s", 0x3F), avp(264, b"i", CLEAR, 0)))),
    ("padding of any octets", ask(asking(AA, SESSION[:-3] + b"abc", HOST[:-3] + b"\xff\xff\xff"))),
    ("a Session-Id of 4096 octets and an Origin-Host of no octets", ask(asking(AA, avp(263, b"s" * 4096), avp(264, b"")))),
    ("an Origin-Host of 4097 octets", ask(asking(AA, SESSION, avp(264, b"h" * 4097)))),
    ("3: the same request while it is open", OPEN, ASKED),
    ("3: an open key with another command, session, application and number", OPEN,
     ask(asking(ACCOUNTING, avp(263, b"t"), HOST, START, hop=9, application=3, flags=0x90))),
    ("3: the same request once it is answered", KEPT, ASKED),
    ("3: a kept key with another command, session, application, number and flags", KEPT,
     ask(asking(ACCOUNTING, avp(263, b"t"), HOST, START, hop=9, application=3, flags=0x90))),
    ("another End-to-End Identifier or another Origin-Host is another request", OPEN, ask(login(end=1)),
     ask(asking(AA, SESSION, avp(264, b"H"))), ask(asking(AA, SESSION, avp(264, b"h\0"))), ask(asking(AA, SESSION, avp(264, b"")))),
    ("1 before 2: an answer, and a request of another command, without AVPs", ask(asking(AA, flags=0x40)), ask(asking(280))),
    ("1 before 3: an answer, and another command, with an open key", OPEN, ask(login(flags=0x40)), ask(asking(275, SESSION, HOST))),
    ("1 before 3: an answer, and another command, with a kept key", KEPT, ask(login(flags=0x40)), ask(asking(275, SESSION, HOST))),
    ("1 before 5: an answer, and another command, with what is Unsupported or Unable", ask(login(STRANGE, flags=0x40)),
     ask(asking(268, SESSION, HOST, KEY))),
    ("2 before 3: two Session-Ids, and rotten AVPs, with an open key", OPEN, ask(login(SESSION)), ask(login(bytes(4)))),
    ("2 before 3: two Session-Ids, and rotten AVPs, with a kept key", KEPT, ask(login(SESSION)), ask(login(bytes(4)))),
    ("2 before 5: no Origin-Host, with what is Unsupported or Unable", ask(asking(AA, SESSION, STRANGE)),
     ask(asking(AA, SESSION, KEY))),
    ("3 before 5: an open key with what is Unsupported or Unable", OPEN, ask(login(STRANGE)), ask(login(KEY))),
    ("3 before 5: a kept key with what is Unsupported or Unable", KEPT, ask(login(STRANGE)), ask(login(KEY))),
    ("5: Unsupported and Unable aren't kept, and give no number away", ask(login(STRANGE)), ask(login(STRANGE)), ask(login(KEY)),
     ask(login(KEY)), ASKED, ask(login(end=1))),
):
    case("order", name, *lines)
TAKEN = many(256, ask(login(end=NUMBER)))
NEW = 10**6
NEWLY = ask(login(end=NEW))
case("order", "4 behind 1, 2 and 3, and before 5, while the next identifier is taken", TAKEN, ask(login(flags=0x40, end=NEW)),
     ask(asking(280, SESSION, HOST, end=NEW)), ask(login(SESSION, end=NEW)), ask(login(end=0)), ask(login(end=255, hop=9)),
     reply(replying(2, identifier=5)), ask(login(end=5, hop=9)), ask(login(STRANGE, end=5, hop=10)), ask(login(STRANGE, end=NEW)),
     ask(login(KEY, end=NEW)), NEWLY, ask(record(end=NEW)))

# ---- Identifiers, and how many requests

case("many", "256 are open: 3004 until the first is answered; then its identifier, and 3004 until the second is", TAKEN,
     NEWLY, NEWLY, reply(replying(2, identifier=1)), NEWLY, reply(REJECT), NEWLY, ask(login(end=NEW + 1)), ask(login(end=NEW + 2)),
     NEWLY, reply(ACCEPT, 200), "2000 tick")
case("many", "what is refused gives no identifier away", many(300, ask(login(STRANGE, end=NUMBER))), NEWLY,
     many(300, ask(login(KEY, end=NUMBER))), ask(login(end=NEW + 1)))
case("many", "the 257th once all before it are given up", TAKEN, "2000 tick", "4000 tick", ask(login(end=NEW), 4000), "6000 tick",
     ask(login(end=NEW), 6000), ask(login(end=0, hop=8), 6000), ask(login(end=256), 6000), "8000 tick")


def given_up(count, start):
    """So many requests that are taken and given up, so that their answers are kept."""
    return [many(count, ask(login(end=NUMBER), start)), ticks(start)]


ROUNDS = [given_up(256, 6000 * turn) for turn in range(15)]
case("many", "4,095 are kept: one more is taken; then 3004, though no identifier is in use, until the oldest aren't kept any more",
     ROUNDS, given_up(255, 90000), ask(login(end=NEW), 96000), ask(login(end=NEW + 1), 96000), ask(login(end=0, hop=8), 96000),
     ask(login(end=NEW, hop=8), 96000), ask(login(flags=0x40, end=NEW + 1), 96000), ask(login(SESSION, end=NEW + 1), 96000),
     ask(login(STRANGE, end=NEW + 1), 96000), ask(login(KEY, end=NEW + 1), 96000),
     reply(replying(2, identifier=255), 96000), ask(login(end=NEW + 1), 96000), ask(login(end=NEW, hop=8), 305999),
     ask(login(end=NEW + 1), 305999), ask(login(end=NEW + 1), 306000), ask(login(end=0), 306000), head=LASTING)
case("many", "3,840 are kept and 255 are open: one more is taken, and then none", ROUNDS, many(255, ask(login(end=NUMBER), 90000)),
     ask(login(end=NEW), 90000), ask(login(end=NEW + 1), 90000), reply(ACCEPT, 90000), ask(login(end=NEW + 1), 90000), head=LASTING)

# ---- What is kept

AGAIN = [ask(login(hop=hop), moment) for hop, moment in ((8, 30099), (9, 30099), (10, 30100), (11, 30100))]
for name, *lines in (
    ("up to and without its moment plus the retention", ASKED, reply(ACCEPT), AGAIN),
    ("answering again doesn't keep it longer", ASKED, reply(ACCEPT), ask(LOGIN, 20000), AGAIN),
    ("the moment is that of the answer, not of the request or of a later sending", ask(LOGIN, 0), "2000 tick", reply(ACCEPT, 3000),
     ask(LOGIN, 32999), ask(LOGIN, 33000)),
    ("an answer 3002", ASKED, "2000 tick", "4000 tick", "6000 tick", ask(LOGIN, 35999), ask(LOGIN, 36000)),
    ("answers 1001, 4001 and 5012", ASKED, reply(CHALLENGE), ask(login(end=1)), reply(replying(3, (18, b"no"), identifier=1)),
     ask(login(end=2)), reply(replying(2, (69, b"key"), identifier=2)), [ask(login(end=end, hop=8)) for end in (0, 1, 2)]),
    ("an answer of accounting", RECORDED, reply(RESPONSE), ask(record(hop=2**32 - 1)), ask(record(hop=0))),
    ("numbers at their least and at their greatest", ask(login(hop=2**32 - 1)), reply(ACCEPT), ask(login(hop=0)),
     ask(login(hop=2**32 - 1))),
    ("it is taken anew with the next identifier, and has another answer", ASKED, reply(ACCEPT), ask(LOGIN, 30100),
     reply(ACCEPT, 30101), reply(replying(3, identifier=1), 30102), ask(LOGIN, 60101), ask(LOGIN, 60102)),
    ("a reply to it is strange", ASKED, reply(ACCEPT), reply(ACCEPT), reply(REJECT)),
    ("an open one isn't over, however late it is", ASKED, ask(LOGIN, 300000), reply(ACCEPT, 300000), ask(LOGIN, 329999),
     ask(LOGIN, 330000)),
    ("an input that is dropped shows that it isn't kept any more", ASKED, reply(ACCEPT), reply(b"", 30100), ask(LOGIN, 0)),
):
    case("kept", name, *lines)
for retention in (1000, 300000):
    case("kept", f"a retention of {retention}", ASKED, reply(ACCEPT, 0), ask(LOGIN, retention - 1), ask(LOGIN, retention),
         head=OWN.replace("30000", str(retention)))
LAST = 2**64 - 1
case("kept", "at the greatest moment", ask(LOGIN, LAST), reply(ACCEPT, LAST), ask(LOGIN, LAST))
case("kept", "to the greatest moment", ask(LOGIN, LAST - 30000), reply(ACCEPT, LAST - 30000), ask(LOGIN, LAST - 1),
     ask(LOGIN, LAST))
case("kept", "past the greatest moment", ask(LOGIN, LAST - 29999), reply(ACCEPT, LAST - 29999), ask(LOGIN, LAST))

# ---- Moments

TWO, THREE = ask(login(end=1)), ask(login(end=2))
for name, *lines in (
    ("three sendings, 2000 ms after each other, and then 3002", ASKED,
     [f"{moment} tick" for moment in (0, 1999, 2000, 2000, 3999, 4000, 4001, 5999, 6000, 6001, 8000)], reply(ACCEPT, 8001)),
    ("three sendings of a record, and then 3002", RECORDED, [f"{moment} tick" for moment in (1999, 2000, 4000, 6000)]),
    ("2000 ms are counted from the last sending", ASKED, [f"{moment} tick" for moment in (2500, 4499, 4500, 6499, 6500)]),
    ("a late tick makes one step alone", ASKED, [f"{moment} tick" for moment in (20000, 20000, 29999, 29999, 31998, 31999)]),
    ("moments that go back count as the greatest so far", ASKED,
     [f"{moment} tick" for moment in (2000, 1000, 3999, 0, 4000, 1, 6000)]),
    ("a request whose moment goes back", "5000 tick", ASKED, "6999 tick", "7000 tick"),
    ("a reply whose moment goes back is kept from the greatest so far", ask(LOGIN, 5000), reply(ACCEPT, 0), ask(LOGIN, 34999),
     ask(LOGIN, 35000)),
    ("a strange reply raises the moment", ASKED, reply(b"", 2000), "0 tick"),
    ("a reply that counts raises the moment", ASKED, TWO, reply(ACCEPT, 2000), "0 tick"),
    ("a request that is dropped as none raises the moment", ASKED, ask(b"", 2000), "0 tick"),
    ("a request that is dropped without an identity raises the moment", ASKED, ask(asking(AA), 2000), "0 tick"),
    ("a request that is open raises the moment", ASKED, ask(LOGIN, 2000), "0 tick"),
    ("a request that is refused raises the moment", ASKED, ask(login(STRANGE, end=1), 2000), "0 tick"),
    ("a request that is taken raises the moment, and waits from then on", ASKED, ask(login(end=1), 2000), "0 tick", "3999 tick",
     "4000 tick"),
    ("only a tick sends again", ASKED, reply(b"", 9000), ask(LOGIN, 9000), ask(login(end=1), 9000)),
    ("several that are due at one tick, in the order of taking", [
        ask(login(end=end), moment) for moment, end in enumerate((5, 3, 4))],
     [f"{moment} tick" for moment in (2001, 2002, 4001, 4002, 6001, 6002)]),
    ("one that is given up before two that are sent again, and these in their order", ask(login(end=9), 1000), "3000 tick",
     ask(login(end=8), 3500), "5000 tick", "5500 tick", ask(login(end=7), 5500), "7500 tick", "9500 tick", "11500 tick"),
    ("two that are due at one tick, of which the first was sent later", ASKED, ask(login(end=1), 1000),
     [f"{moment} tick" for moment in (2500, 4500, 6500)]),
    ("one that is answered between two", ASKED, TWO, THREE, reply(replying(2, identifier=1)), "2000 tick"),
    ("a reply after the second sending", ASKED, "2000 tick", reply(ACCEPT, 2001), "4001 tick"),
    ("a reply after the third sending, and one after the request is given up", ASKED, TWO, "2000 tick", "4000 tick",
     reply(ACCEPT, 5999), "6000 tick", reply(replying(2, identifier=1), 6000)),
    ("nothing is open", "0 tick", "9000 tick"),
):
    case("moments", name, *lines)
case("moments", "the greatest moment", ask(LOGIN, LAST), f"{LAST} tick", f"{LAST} tick")
case("moments", "2000 ms before the greatest moment", ask(LOGIN, LAST - 2000), f"{LAST - 1} tick", f"{LAST} tick", f"{LAST} tick")

# ---- Which replies count

OTHER = bytes([ACCEPT[19] ^ 1])
for name, *lines in (
    ("codes 2, 3 and 11", ASKED, reply(ACCEPT), TWO, reply(replying(3, identifier=1)), THREE, reply(replying(11, identifier=2))),
    ("code 5", RECORDED, reply(RESPONSE)),
    ("other codes for a login", ASKED, *(reply(replying(code)) for code in (0, 1, 4, 5, 12, 13, 40, 41, 43, 255)), reply(ACCEPT)),
    ("other codes for a record", RECORDED, *(reply(replying(code, to=RECORD)) for code in (0, 1, 2, 3, 4, 11, 12, 41, 255)),
     reply(RESPONSE)),
    ("another identifier, which is open or isn't", ASKED, TWO, reply(replying(2, identifier=2)),
     reply(ACCEPT[:1] + b"\1" + ACCEPT[2:]), reply(replying(3, identifier=1)), reply(ACCEPT)),
    ("the right identifier with the authenticator of another request", RECORDED, ask(record(end=1)),
     reply(signed(5, 1, sent(RECORD)[4:20], b"", SECRET)), reply(replying(5, to=record(end=1), identifier=1))),
    ("an authenticator whose last octet is another", ASKED, reply(ACCEPT[:19] + OTHER)),
    ("an authenticator whose first octet is another", ASKED, reply(ACCEPT[:4] + bytes([ACCEPT[4] ^ 128]) + ACCEPT[5:])),
    ("the authenticator of an accept in a reject", ASKED, reply(b"\3" + ACCEPT[1:])),
    ("an authenticator over octets 00, and the request's own", ASKED, reply(signed(2, 0, bytes(16), b"", SECRET)),
     reply(packet(2, 0, RANDOM, b""))),
    ("a record's authenticator over its random octets", RECORDED, reply(signed(5, 0, RANDOM, b"", SECRET))),
    ("another secret", ASKED, reply(signed(2, 0, RANDOM, b"", b"secreT")), reply(signed(2, 0, RANDOM, b"", b""))),
    ("the request itself", ASKED, reply(sent(LOGIN))),
    ("octets past the Length are padding", ASKED, reply(ACCEPT + b"\xff" * 7)),
    ("octets past the Length, of more than a packet's size", ASKED, reply(REJECT + bytes(5000))),
    ("cut packets", ASKED, reply(ACCEPT[:19]), reply(ACCEPT[:1]), reply(b""), reply(replying(2, (6, four(2)))[:-1]), reply(ACCEPT)),
    ("a Length below 20, above the octets and above 4096", ASKED, *(
        reply(ACCEPT[:2] + length.to_bytes(2, "big") + ACCEPT[4:] + bytes(behind))
        for length, behind in ((19, 0), (21, 0), (4097, 4100)))),
    ("attributes that can't be read, under a right authenticator", ASKED, *(
        reply(signed(2, 0, RANDOM, rotten, SECRET)) for rotten in (
            b"\6", b"\6\0", b"\6\1", b"\6\3", b"\6\1\2", attribute(6, four(2)) + b"\6\5ab"))),
    ("nothing is open", reply(ACCEPT)),
    ("the same reply again", ASKED, reply(ACCEPT), reply(ACCEPT)),
    ("three are open: each reply goes to its own", ASKED, TWO, ask(record(end=2)),
     reply(replying(5, to=record(end=2), identifier=2)), reply(ACCEPT), reply(replying(11, identifier=1)), "2000 tick"),
    ("a reply to a request of other random octets", ask(LOGIN, random=b"\xff" * 16), reply(ACCEPT),
     reply(signed(2, 0, b"\xff" * 16, b"", SECRET))),
):
    case("replies", name, *lines)
for code, kind in CODES.items():
    asked, to = (RECORDED, RECORD) if code == 5 else (ASKED, LOGIN)
    own = sent(to)[4:20]
    of_itself = seal(code, 0, replying(code, SEAL, to=to)[4:20], [SEAL], SECRET)
    over_zeros = seal(code, 0, bytes(16), [SEAL], SECRET)
    right, beside = (seal(code, 0, own, seals, SECRET) for seals in ([SEAL], [SEAL, SEAL]))
    beside_none = hmac.new(SECRET, packet(code, 0, own, joined([SEAL, (80, b"")])), "md5").digest()
    for name, octets in (
        ("a right seal", sealing(code, SEAL, to=to)),
        ("a right seal behind other attributes", sealing(code, (18, b"no"), (25, b"c"), SEAL, to=to)),
        ("a right seal before other attributes", sealing(code, SEAL, (18, b"no"), (25, b"c"), to=to)),
        ("a seal of octets 00", replying(code, SEAL, to=to)),
        ("a seal whose last octet is another", replying(code, (80, right[:15] + bytes([right[15] ^ 1])), to=to)),
        ("a seal whose first octet is another", replying(code, (80, bytes([right[0] ^ 128]) + right[1:]), to=to)),
        ("a seal of 15 octets", replying(code, (80, right[:15]), to=to)),
        ("a seal of 17 octets", replying(code, (80, right + b"\0"), to=to)),
        ("a seal of no octets", replying(code, (80, b""), to=to)),
        ("two seals, each over octets 00 in both places", sealing(code, SEAL, SEAL, to=to)),
        ("two seals, of which the first would be right alone", replying(code, (80, right), SEAL, to=to)),
        ("two seals, of which the first is right beside the second", replying(code, (80, beside), SEAL, to=to)),
        ("two seals, of which the second has no octets", replying(code, (80, beside_none), (80, b""), to=to)),
        ("a seal over the reply's own authenticator", replying(code, (80, of_itself), to=to)),
        ("a seal over octets 00 in the authenticator's place", replying(code, (80, over_zeros), to=to)),
        ("a right seal under a wrong authenticator", sealing(code, SEAL, to=to)[:4] + bytes(16) + attribute(80, right)),
        ("a right seal and padding", sealing(code, SEAL, to=to) + b"pad"),
    ):
        case("replies", f"{kind}: {name}", asked, reply(octets))

# ---- What a reply becomes

MPPE = attribute(16, b"key")


def vendors(vendor, *parts):
    return 26, four(vendor) + b"".join(attribute(kind, value) for kind, value in parts)


for code, kind in CODES.items():
    asked, to = (RECORDED, RECORD) if code == 5 else (ASKED, LOGIN)
    for name, *attributes in (
        ("no attributes", ),
        ("a key: 69", (69, b"\0key")),
        ("a key: 102", (102, b"key")),
        ("a key of no octets, behind other attributes", (18, b"no"), (25, b"c"), (69, b"")),
        ("464 isn't a type, and 208 is no key", (464 % 256, b"key"), (103, b"key"), (68, b"key"), (70, b"key")),
        ("Microsoft's key 12", vendors(311, (12, b"key"))),
        ("Microsoft's key 16", vendors(311, (16, b"key"))),
        ("Microsoft's key 17", vendors(311, (17, b""))),
        ("a key as the last of three parts", vendors(311, (1, b"a"), (13, b"b"), (17, b"key"))),
        ("Microsoft's others", vendors(311, (1, b"a"), (11, b"b"), (13, b"c"), (15, b"d"), (18, b"e"), (69, b"f"), (102, b"g"))),
        ("other vendors' 12, 16, 17, 69 and 102", *(vendors(vendor, (12, b"a"), (16, b"b"), (17, b"c"), (69, b"d"), (102, b"e"))
                                                   for vendor in (0, 9, 310, 312, 2**24 + 311))),
        ("keys in a 26 of bad form", (26, four(311) + MPPE + b"\1"), (26, four(311) + MPPE[:-1]), (26, four(311) + MPPE + b"\7\1")),
        ("one part", vendors(9, (1, b"value"))),
        ("three parts, one of no octets", vendors(9, (1, b"a"), (255, b""), (0, b"ccc"))),
        ("a part of 247 octets", vendors(9, (1, b"v" * 247))),
        ("a part for each 26, of several vendors", vendors(9, (1, b"a")), vendors(2**32 - 1, (2, b"b")), vendors(0, (3, b"c"))),
        ("26 of bad form", *((26, value) for value in (
            b"", b"\0", four(9), four(9)[:3] + b"\1\2", four(9) + b"\1", four(9) + b"\1\0", four(9) + b"\1\1a", four(9) + b"\1\4a",
            four(9) + b"\1\1\2", four(9) + b"\1\3ab", four(9) + b"\1\3a\2", four(9) + b"\1\3a\2\0"))),
        ("26 of bad form between others", (26, four(9) + b"\1\3"), vendors(9, (1, b"a")), (26, four(9) + b"\1\3a\1"),
         vendors(9, (2, b"b"))),
        ("27 of four octets, twice", (27, four(3600)), (27, four(2**32 - 1))),
        ("27 of other sizes", *((27, value) for value in (b"", b"abc", b"abcde", eight(1))), (27, four(1))),
        ("24, thrice, one of no octets", (24, b"one"), (24, b""), (24, b"\xff" * 253)),
        ("24 with the form of the agent's own", (24, b"Diameter/home.example/example/agent.example;7;0")),
        ("18 that is no text, and 18 that is", (18, b"\xff"), (18, b""), (18, "né".encode()), (18, b"\xe2\x82"), (18, b"a" * 253)),
        ("values of wrong sizes left out, each beside a right one", *(
            (of, value) for of in (6, 28, 75, 76, 96, 97, 98) for value in (b"", VALUES[of], VALUES[of] + bytes(18)))),
        ("25 in a carrier's form, and another", (25, b"Diameter/agent.example;7;0"), (25, b"")),
        ("attributes that are known to nobody, or give nothing", *(
            (of, four(1)) for of in (2, 3, 4, 5, 17, 29, 33, 40, 42, 64, 79, 241, 255))),
        ("all at once, in the order of the attributes", (76, four(1)), vendors(9, (1, b"a"), (2, b"b")), (27, four(9)),
         (24, b"state"), (18, b"welcome"), (75, four(3)), (25, b"class"), (28, four(8)), (18, b"again")),
    ):
        case("images", f"{kind}: {name}", asked, reply(replying(code, *attributes, to=to)))
REAL = login(avp(274, four(3)), avp(1, b"nemo"), PASSWORD)
case("images", "a challenge, and the login with its State", ask(REAL),
     reply(replying(11, (18, b"code?"), (24, b"state"), (27, four(60)), (76, four(1)), to=REAL)),
     ask(login(avp(1, b"nemo"), avp(2, b"123456"), avp(24, b"state"), end=1), 5000))

# ---- Lines

SCRIPT_LINE = OWN.split(" ")


def own_with(place, word):
    return " ".join([*SCRIPT_LINE[:place], word, *SCRIPT_LINE[place + 1:]])


for name, *lines in (
    ("no line at all", ),
    ("the first line alone", OWN),
    ("an empty line alone", ""),
    ("an event comes first", "0 tick"),
    ("a transcript's first line", "agent agent.example example example 192.0.2.1 7 30000 64 64 30000"),
    ("the first line without a retention", OWN.removesuffix(" 30000")),
    ("the first line with one word more", f"{OWN} 30000"),
    ("the first line with two spaces", OWN.replace(" ", "  ", 1)),
    ("the first line with a space behind", OWN.removesuffix("30000")),
    ("the first line with another word", own_with(0, "Reverse")),
    ("the first line again", OWN, OWN),
    ("the first line again behind events", OWN, ASKED, OWN),
    ("the first line again, which isn't right", OWN, own_with(1, "-")),
    ("a host of a letter, and a realm of all signs", "reverse a -._0zZ9 255.255.255.255 65535 00 1000"),
    ("a host of 65 octets", own_with(1, "h" * 65)),
    ("a host of no octets", own_with(1, "")),
    ("a host with a sign that no identity has", own_with(1, "rev!")),
    ("a host that isn't ASCII", own_with(1, "r\u00e9v")),
    ("a realm of 65 octets", own_with(2, "r" * 65)),
    ("a realm of no octets", own_with(2, "")),
    ("a realm with a slash", own_with(2, "a/b")),
    ("an address of three numbers", own_with(3, "10.0.0")),
    ("an address of five numbers", own_with(3, "10.0.0.5.1")),
    ("an address with 256", own_with(3, "10.0.0.256")),
    ("an address with a zero before", own_with(3, "10.0.0.05")),
    ("a name in place of an address", own_with(3, "localhost")),
    ("the port 65536", own_with(4, "65536")),
    ("a port with a zero before", own_with(4, "01812")),
    ("no port", own_with(4, "-")),
    ("a secret of no octets", own_with(5, "-")),
    ("a secret of 129 octets", own_with(5, "6b" * 129)),
    ("a secret of half an octet", own_with(5, "6b6")),
    ("a secret that isn't hex", own_with(5, "secret")),
    ("a retention of 999", own_with(6, "999")),
    ("a retention of 300001", own_with(6, "300001")),
    ("a retention with a zero before", own_with(6, "030000")),
    ("outputs before a bad line are printed", OWN, ASKED, reply(ACCEPT), TWO, "2200 tick", "tick"),
    ("digits of either case", OWN.replace("73", "7A"), f"0 request {LOGIN.hex().upper()} {RANDOM.hex().upper()}", "0 reply ABCdef"),
    ("an empty line", OWN, ""),
    ("a moment alone", OWN, "0"),
    ("another event", OWN, "0 drain"),
    ("an event of a transcript with as many words", OWN, f"0 link {LOGIN.hex()}"),
    ("an event in other letters", OWN, "0 Tick"),
    ("a tick with a word more", OWN, "0 tick -"),
    ("a reply without octets", OWN, "0 reply"),
    ("a reply with a word more", OWN, "0 reply 00 00"),
    ("a request without random octets", OWN, f"0 request {LOGIN.hex()}"),
    ("a request with a word more", OWN, f"{ASKED} 00"),
    ("two spaces", OWN, "0  tick"),
    ("a space behind", OWN, "0 tick "),
    ("a space before", OWN, " 0 tick"),
    ("a request of no octets", OWN, ask(b"")),
    ("no octets in place of the random ones", OWN, f"0 request {LOGIN.hex()} -"),
    ("15 random octets", OWN, ask(LOGIN, random=bytes(15))),
    ("17 random octets", OWN, ask(LOGIN, random=bytes(17))),
    ("15 random octets of what is no request", OWN, ask(b"", random=bytes(15))),
    ("random octets that aren't hex", OWN, f"0 request {LOGIN.hex()} {'0g' * 16}"),
    ("half an octet of a request", OWN, f"0 request {LOGIN.hex()}0 {RANDOM.hex()}"),
    ("half an octet of a reply", OWN, "0 reply 020"),
    ("a reply with no digit", OWN, "0 reply 2g"),
    ("a reply with a hyphen and more", OWN, "0 reply -00"),
    ("a reply of an empty word", OWN, "0 reply "),
    ("the greatest moment", OWN, f"{LAST} tick"),
    ("a moment of 2^64", OWN, f"{LAST + 1} tick"),
    ("a moment with a zero before", OWN, "01 tick"),
    ("a moment with a sign", OWN, "+1 tick"),
    ("no moment", OWN, "- tick"),
    ("the first word of the first line in place of a moment", OWN, "reverse tick"),
    ("the words of the first line in a line of four", OWN, f"reverse request {LOGIN.hex()} {RANDOM.hex()}"),
    ("an octet that is no ASCII", OWN, "0 t\u00edck"),
    ("reason 2 before 3", OWN, "x tack"),
    ("a request of 65,536 octets that is none", OWN, ask(bytes(65536))),
    ("a request of 65,540 octets", OWN, ask(login(avp(283, b"a" * (65540 - len(LOGIN) - 8))))),
    ("an octet more than 65,536 of what is no request", OWN, ask(bytes(65537))),
):
    case("lines", name, *lines, head=None)
LONG = "0 reply " + ACCEPT.hex()
LONG += "00" * ((140000 - len(LONG)) // 2)
case("lines", "a line of 140,000 octets, most of them padding", ASKED, LONG)
case("lines", "a line of 140,001 octets", ASKED, "1" + LONG)
case("lines", "a line of 140,002 octets and no space", "a" * 140002)
case("lines", "a first line of 140,002 octets", "a" * 140002, head=None)

# ---- Writing and checking

BY_TEXT = {text: name for name, text in NAMES.items()}


def short(octets):
    """Hex digits, with a count for many octets that are the same."""
    pairs = [octets[at:at + 2] for at in range(0, len(octets), 2)]
    runs = [(pair, len(list(run))) for pair, run in itertools.groupby(pairs)]
    return "".join(f"{{{pair}*{count}}}" if count > 16 else pair * count for pair, count in runs)


def told(line):
    """A line with names in place of what they stand for."""
    if line in BY_TEXT:
        return f"${BY_TEXT[line]}"
    return " ".join(f"${BY_TEXT[word]}" if word in BY_TEXT else short(word) if re.fullmatch("([0-9a-f]{2}){17,}", word) else word
                    for word in line.split(" "))


def told_outputs(outputs, is_many):
    if is_many or len(outputs) > MOST_OUTPUTS:
        text = "".join(f"{output}\n" for output in outputs)
        return [f">{len(outputs)} {hashlib.sha256(text.encode()).hexdigest()}"] if outputs else []
    return [f"> {told(output.partition(' ')[2])}" for output in outputs]


def block(lines):
    """The lines of a file for the lines of a case."""
    numbers = itertools.count()
    spread = [[line.line.replace("{#}", f"{next(numbers):08x}") for _ in range(line.count)] if isinstance(line, Many) else [line]
              for line in lines]
    *given, end = play(itertools.chain(*spread))
    given = iter(given)
    for line, parts in zip(lines, spread):
        is_many = isinstance(line, Many)
        yield f"<{line.count} {told(line.line)}" if is_many else f"< {told(line)}"
        yield from told_outputs([output for outputs in itertools.islice(given, len(parts)) for output in outputs], is_many)
    yield f"= {end}"


def written():
    """Each file with its text."""
    texts = {file: FORM + "".join("\n".join(["", f"== {name}", *block(lines), ""]) for name, lines in cases.items())
             for file, cases in FILES.items()}
    used = set(re.findall(r"\$([a-z0-9-]+)", "\n".join(texts.values())))
    texts["names"] = NAMES_FORM + "".join(f"{name} {text}\n" for name, text in sorted(NAMES.items()) if name in used)
    return texts


def run():
    """Reads a script and prints what it gives, line by line. The status is that of `agent reverse`."""
    for given in play(line.removesuffix(b"\n").decode("latin-1") for line in iter(sys.stdin.buffer.readline, b"")):
        if isinstance(given, list):
            print(*given, sep="\n", end="\n" if given else "", flush=True)
    is_whole = given.startswith("end ")
    print(given if is_whole else f"agent: {given}", file=sys.stdout if is_whole else sys.stderr)
    return 0 if is_whole else 3


def main():
    if sys.argv[1:] == ["reverse"]:
        return run()
    if sys.argv[1:] == ["--write"]:
        for file, text in written().items():
            (HERE / file).write_text(text, "utf-8")
        return 0
    if sys.argv[1:] == ["--check"]:
        there = {path.name: path.read_text("utf-8") for path in HERE.iterdir() if path.is_file() and path.suffix != ".py"}
        texts = written()
        differ = sorted(file for file in texts.keys() | there.keys() if texts.get(file) != there.get(file))
        print(*(f"{file}: not what reference.py writes" for file in differ), sep="\n", end="\n" if differ else "")
        return 1 if differ else 0
    sys.exit(__doc__)


if __name__ == "__main__":
    sys.exit(main())
