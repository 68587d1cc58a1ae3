#!/usr/bin/env python3
"""Writes a script of logins for `agent reverse`: COUNT AA-Requests with a password, each answered by a sealed Access-Accept.

usage: script.py COUNT OPEN

OPEN, from 1 to 4096, is how many are live at a time. The identifier of a RADIUS packet has one octet, and no two open requests
have the same one, so at most 256 of them are open; the others are answered, and their answers are kept. First come as many
requests as are to be open; then, again and again, the reply to the oldest of them and a new request; at last the replies to those
that are left. At least 10 answers are kept besides those that are open, so with an OPEN below 266 some more than OPEN are live.

The moments and the retention make it so: where K answers are to be kept, a request comes every 1000 / K milliseconds, rounded up,
and the retention is K times as long: 1,000 for 1 open, 3,744 for 4,000. There are no ticks, so nothing is sent twice. The run
ends with `end COUNT COUNT 0`.
"""
import hashlib
import hmac
import struct
import sys

SECRET = b"xyzzy5461"
SERVERS, PORTS = 16, 1000
IDENTIFIERS, MOST_LIVE, LEAST_KEPT, LEAST_RETENTION = 256, 4096, 10, 1000


def avp(code, body):
    """An AVP with flag M (RFC 6733, section 4.1)."""
    return struct.pack(">II", code, 0x40 << 24 | 8 + len(body)) + body + bytes(-len(body) % 4)


def number(code, value):
    return avp(code, struct.pack(">I", value))


def attribute(code, value):
    return bytes((code, len(value) + 2)) + value


# What all requests of an access server have: NAS-IP-Address, NAS-Identifier and Called-Station-Id go by the server.
HEADS = [
    number(258, 1) + avp(264, b"nas%d.example.net" % server) + avp(296, b"example.net") + avp(283, b"example.org") + number(274, 3)
    for server in range(SERVERS)]
TAILS = [
    avp(4, bytes((192, 0, 2, server + 1))) + avp(32, b"nas%d.example.net" % server) + number(61, 15) + number(6, 2) + number(7, 1)
    + number(12, 1500) + avp(30, b"00-10-A4-23-19-%02X" % server) + avp(77, b"CONNECT 1Gbps")
    for server in range(SERVERS)]
# Service-Type, Framed-Protocol, Framed-IP-Netmask, Framed-MTU, Idle-Timeout, Session-Timeout, Acct-Interim-Interval
SERVICE = b"".join(attribute(code, struct.pack(">I", value)) for code, value in (
    (6, 2), (7, 1), (9, 0xFFFFFFFF), (12, 1500), (28, 600), (27, 86400), (85, 300)))


def request(place, random):
    """A login (RFC 4005, section 3.1) whose Session-Id, numbers, user, password and port are its own."""
    server = place % SERVERS
    avps = b"".join((
        avp(263, b"nas%d.example.net;1700000000;%d" % (server, place)), HEADS[server], avp(1, b"user%d@example.org" % place),
        avp(2, b"pass%d" % place), number(5, place % PORTS), TAILS[server],
        avp(31, b"02-00-%02X-%02X-%02X-%02X" % tuple(struct.pack(">I", place))), avp(44, b"%08X" % place)))
    head = struct.pack(">IIIII", 1 << 24 | 20 + len(avps), 0xC0 << 24 | 265, 1, place, 0x1000000 + place)
    return f"request {head.hex()}{avps.hex()} {random.hex()}"


def reply(place, random):
    """The Access-Accept for it. The request's authenticator is its random octets, and its identifier goes by the requests before
    it, none of which is refused (RFC 2865, section 3; RFC 3579, section 3.2)."""
    behind = attribute(8, struct.pack(">I", 0x0A000000 + place % 0x1000000)) + SERVICE + attribute(25, b"class-%d" % place)
    head = struct.pack(">BBH", 2, place % IDENTIFIERS, 20 + 18 + len(behind))
    seal = hmac.digest(SECRET, head + random + attribute(80, bytes(16)) + behind, "md5")
    attributes = attribute(80, seal) + behind
    return f"reply {head.hex()}{hashlib.md5(head + random + attributes + SECRET).hexdigest()}{attributes.hex()}"


def random_of(place):
    return hashlib.md5(b"random octets %d" % place).digest()


def main():
    if len(sys.argv) != 3 or not all(word.isdecimal() for word in sys.argv[1:]) or not 1 <= int(sys.argv[2]) <= MOST_LIVE:
        sys.exit(__doc__)
    count, live = map(int, sys.argv[1:])
    most_open = min(live, IDENTIFIERS)
    kept = max(live - most_open, LEAST_KEPT)
    step = -(-LEAST_RETENTION // kept)
    write = sys.stdout.write
    write(f"reverse agent.example.org example.org 10.0.0.5 1812 {SECRET.hex()} {step * kept}\n")
    for place in range(count + most_open):
        moment, oldest = place * step, place - most_open
        if 0 <= oldest < count:
            write(f"{moment} {reply(oldest, random_of(oldest))}\n")
        if place < count:
            write(f"{moment} {request(place, random_of(place))}\n")


main()
