"""A Diameter home server that refuses each link: it answers the capabilities with a Result-Code, and closes. So does one that
still holds the old link: Erlang's says 4003 (RFC 6733, ELECTION_LOST), freeDiameter's 5012.

usage: refusing_home.py ADDRESS PORT RESULT SECONDS
"""
import socket
import struct
import sys
import threading
import time

CAPABILITIES = 257


def avp(code, value):
    """An AVP with flag M, filled up to a multiple of four octets."""
    return struct.pack(">IBBH", code, 0x40, 0, 0)[:5] + (8 + len(value)).to_bytes(3, "big") + value + bytes(-len(value) % 4)


def refusal(request, result):
    """The answer to the request of capabilities, with this Result-Code."""
    body = b"".join([
        avp(268, struct.pack(">I", result)),
        avp(264, b"home.example"),
        avp(296, b"example"),
        avp(257, b"\0\1" + bytes([127, 0, 0, 1])),
        avp(266, bytes(4)),
        avp(269, b"refusing"),
    ])
    head = b"\1" + (20 + len(body)).to_bytes(3, "big") + b"\0" + CAPABILITIES.to_bytes(3, "big") + bytes(4)
    return head + request[12:20] + body


def read_exactly(link, count):
    octets = b""
    while len(octets) < count:
        piece = link.recv(count - len(octets))
        if not piece:
            return None
        octets += piece
    return octets


class RefusingHome:
    """Refuses from its making on until `leave`. `refused` is how many links it refused."""

    def __init__(self, address, port, result):
        self.result = result
        self.refused = 0
        self.listener = socket.socket()
        self.listener.setsockopt(socket.SOL_SOCKET, socket.SO_REUSEADDR, 1)
        self.listener.bind((address, port))
        self.listener.listen()
        threading.Thread(target=self.serve, daemon=True).start()

    def serve(self):
        while True:
            try:
                link, _ = self.listener.accept()
            except OSError:
                return
            with link:
                self.refuse(link)

    def refuse(self, link):
        head = read_exactly(link, 20)
        if head is None or int.from_bytes(head[5:8], "big") != CAPABILITIES:
            return
        if read_exactly(link, int.from_bytes(head[1:4], "big") - 20) is None:
            return
        link.sendall(refusal(head, self.result))
        self.refused += 1

    def leave(self):
        # A listener that is only closed goes on while another thread waits in it.
        self.listener.shutdown(socket.SHUT_RDWR)
        self.listener.close()


def main():
    if len(sys.argv) != 5:
        sys.exit(__doc__)
    address, port, result, span = sys.argv[1:]
    home = RefusingHome(address, int(port), int(result))
    time.sleep(float(span))
    home.leave()
    print(f"refused {home.refused} links with {result}")


if __name__ == "__main__":
    main()
