"""Diameter requests from words, and answers as words.

    messages.py requests   reads lines such as `265 User-Name=nemo NAS-Port=3`, and writes each as a request in hex digits
    messages.py answers    reads lines `N answer HEX` among others, and writes each such as `265 Result-Code=2001`
"""

import hashlib
import os
import socket
import sys

SECONDS_FROM_1900_TO_1970 = 2208988800
APPLICATIONS = {265: 1, 271: 3}
REQUEST = 0xC0  # the flags of a request that may be proxied
MANDATORY = 0x40


def text(word):
    return word.encode()


def number(word):
    return int(word).to_bytes(4, "big")


def count(word):
    return int(word).to_bytes(8, "big")


def moment(word):
    return number(int(word) + SECONDS_FROM_1900_TO_1970)


# Of each AVP its code, and what makes its value of a word.
AVPS = {
    "User-Name": (1, text), "User-Password": (2, text), "NAS-IP-Address": (4, socket.inet_aton), "NAS-Port": (5, number),
    "Reply-Message": (18, text), "Class": (25, text), "Session-Timeout": (27, number), "Acct-Session-Id": (44, text),
    "Acct-Session-Time": (46, number), "Event-Timestamp": (55, moment), "Auth-Application-Id": (258, number),
    "Session-Id": (263, text), "Origin-Host": (264, text), "Result-Code": (268, number),
    "Auth-Request-Type": (274, number), "Termination-Cause": (295, number), "Origin-Realm": (296, text),
    "Accounting-Input-Octets": (363, count), "Accounting-Output-Octets": (364, count),
    "Accounting-Record-Type": (480, number), "Accounting-Record-Number": (485, number),
}
NAMES = {code: (name, make) for name, (code, make) in AVPS.items()}


def avp(code, value):
    head = code.to_bytes(4, "big") + bytes([MANDATORY]) + (8 + len(value)).to_bytes(3, "big")
    return head + value + bytes(-len(value) % 4)


def chap(password):
    """CHAP-Auth and CHAP-Challenge (RFC 4005, sections 5.4 and 5.8; RFC 1994, section 4.1)."""
    ident, challenge = os.urandom(1), os.urandom(16)
    response = hashlib.md5(ident + password.encode() + challenge).digest()
    return avp(402, avp(403, number(5)) + avp(404, ident) + avp(405, response)) + avp(60, challenge)


def made(name, word):
    if name == "CHAP-Password":
        return chap(word)
    code, make = AVPS[name]
    return avp(code, make(word))


def request(line, end):
    """A request whose Hop-by-Hop and End-to-End Identifier are this number."""
    command, *words = line.split()
    words = ["Session-Id=nas1.example;7;0", "Origin-Host=nas1.example", "Origin-Realm=example", *words]
    avps = b"".join(made(*word.split("=", 1)) for word in words)
    length, command = (20 + len(avps)).to_bytes(3, "big"), int(command)
    header = b"\1" + length + bytes([REQUEST]) + command.to_bytes(3, "big") + number(APPLICATIONS[command])
    return header + number(end) * 2 + avps


def told(code, value):
    """An AVP of an answer as a word."""
    name, make = NAMES.get(code, (code, None))
    if make is text:
        return f"{name}={value.decode()}"
    return f"{name}={int.from_bytes(value, 'big')}" if make is number else f"{name}={value.hex()}"


def answer(message):
    words, rest = [str(int.from_bytes(message[5:8], "big"))], message[20:]
    while rest:
        length = int.from_bytes(rest[5:8], "big")
        words.append(told(int.from_bytes(rest[:4], "big"), rest[8:length]))
        rest = rest[length + -length % 4:]
    return " ".join(words)


for place, line in enumerate(sys.stdin):
    if sys.argv[1] == "requests":
        print(request(line, place).hex())
    elif " answer " in line:
        print(answer(bytes.fromhex(line.split()[-1])))
