"""Carries what `agent reverse` sends to a RADIUS server, and back: reverse_bridge.py ADDRESS AUTH ACCT SECRET COMMAND..

Each line of standard input is a Diameter request in hex digits. COMMAND gets it as a line of a script, and so each
datagram that comes from the server, and ticks. The packets that it sends go to the port AUTH, and those of accounting to
ACCT. What it prints is printed. When each request has got its answer, or was dropped, its input ends; its status is the
bridge's.
"""

import os
import select
import socket
import subprocess
import sys
import time

# So long, in seconds, is waited for something to come before each tick.
PAUSE = 0.1
MOST_OCTETS = 65536
ACCOUNTING_REQUEST = 4


class Lines:
    """The lines that come from a file."""

    def __init__(self, file):
        self.file, self.left, self.is_open = file, b"", True

    def fileno(self):
        return self.file.fileno()

    def take(self):
        """Those that are there now."""
        piece = os.read(self.fileno(), MOST_OCTETS)
        self.is_open = piece != b""
        *lines, self.left = (self.left + piece).split(b"\n")
        return [line.decode() for line in lines]


class Bridge:
    def __init__(self, address, auth, acct, secret, command):
        self.address, self.auth, self.acct = address, int(auth), int(acct)
        self.radius = socket.socket(socket.AF_INET, socket.SOCK_DGRAM)
        self.agent = subprocess.Popen(command, stdin=subprocess.PIPE, stdout=subprocess.PIPE)
        self.asked, self.printed = Lines(sys.stdin), Lines(self.agent.stdout)
        self.began, self.waiting = time.monotonic(), 0
        self.put(f"reverse bridge.example example {address} {auth} {secret.encode().hex()} 30000")

    def put(self, line):
        self.agent.stdin.write(line.encode() + b"\n")
        self.agent.stdin.flush()

    def event(self, words):
        self.put(f"{int((time.monotonic() - self.began) * 1000)} {words}")

    def follow(self, line):
        """Does what a line says that the command printed."""
        print(line, flush=True)
        what, *words = line.split(" ")[1:]
        if what == "send":
            packet = bytes.fromhex(words[0])
            self.radius.sendto(packet, (self.address, self.acct if packet[0] == ACCOUNTING_REQUEST else self.auth))
        elif what == "answer" or words[-1] != "StrangeReply":
            self.waiting -= 1

    def run(self):
        while self.printed.is_open and (self.asked.is_open or self.waiting):
            sources = [self.printed, self.radius, *([self.asked] if self.asked.is_open else [])]
            for source in select.select(sources, [], [], PAUSE)[0]:
                if source is self.radius:
                    self.event(f"reply {self.radius.recv(MOST_OCTETS).hex() or '-'}")
                elif source is self.printed:
                    for line in self.printed.take():
                        self.follow(line)
                else:
                    for line in self.asked.take():
                        self.waiting += 1
                        self.event(f"request {line} {os.urandom(16).hex()}")
            self.event("tick")
        self.agent.stdin.close()
        print((self.printed.left + self.agent.stdout.read()).decode(), end="")
        return self.agent.wait()


address, auth, acct, secret, *command = sys.argv[1:]
sys.exit(Bridge(address, auth, acct, secret, command).run())
