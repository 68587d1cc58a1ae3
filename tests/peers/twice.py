"""Sends one login twice, the same octets from the same port, and wants one reply twice: twice.py ADDRESS PORT SECRET"""

import hashlib
import hmac
import os
import socket
import sys

ACCEPT = 2
SEAL = bytes([80, 18])


def md5(octets):
    return hashlib.md5(octets).digest()


def attribute(code, value):
    return bytes([code, len(value) + 2]) + value


def packet(code, number, authenticator, attributes):
    return bytes([code, number]) + (20 + len(attributes)).to_bytes(2, "big") + authenticator + attributes


def login(secret):
    """An Access-Request with a hidden password of at most 16 octets and a right seal."""
    authenticator = os.urandom(16)
    password = b"arctangent".ljust(16, b"\0")
    hidden = bytes(a ^ b for a, b in zip(password, md5(secret + authenticator)))
    attributes = attribute(1, b"nemo") + attribute(2, hidden) + attribute(5, bytes([0, 0, 0, 3]))
    unsealed = packet(1, 7, authenticator, SEAL + bytes(16) + attributes)
    seal = hmac.new(secret, unsealed, "md5").digest()
    return packet(1, 7, authenticator, SEAL + seal + attributes)


def fault(secret, request, reply):
    """What is wrong with the reply of a login that is accepted, the seal being its first attribute; or None."""
    asked = request[4:20]
    attributes = reply[20:]
    if reply[:2] != bytes([ACCEPT, request[1]]) or len(reply) != int.from_bytes(reply[2:4], "big"):
        return "it accepts no login: " + reply.hex()
    if reply[4:20] != md5(reply[:4] + asked + attributes + secret):
        return "its authenticator is wrong"
    unsealed = reply[:4] + asked + SEAL + bytes(16) + attributes[18:]
    if attributes[:18] != SEAL + hmac.new(secret, unsealed, "md5").digest():
        return "its seal is wrong"
    return None


def main():
    address, port, secret = sys.argv[1], int(sys.argv[2]), sys.argv[3].encode()
    request = login(secret)
    client = socket.socket(socket.AF_INET, socket.SOCK_DGRAM)
    client.settimeout(5)
    client.connect((address, port))
    replies = []
    for _ in range(2):
        client.send(request)
        replies.append(client.recv(4096))
    wrong = fault(secret, request, replies[0])
    if wrong is None and replies[1] != replies[0]:
        wrong = "a repeat has another one: " + replies[0].hex() + " " + replies[1].hex()
    if wrong is not None:
        sys.exit("the reply: " + wrong)


main()
