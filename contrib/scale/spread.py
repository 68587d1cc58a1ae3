#!/usr/bin/env python3
"""Which agent serves which access server, for director.nft (docs/scaling.md).

    spread.py share AGENT.. [--pin ADDRESS=AGENT]..             the maps of director.nft, for nft -f -
    spread.py where AGENT.. [--pin ADDRESS=AGENT].. --at ADDRESS..   the agent of each address, a line each
    spread.py watch AGENT.. [--pin ADDRESS=AGENT].. --service ADDRESS --secret FILE
        loads the maps, asks each agent each two seconds, and loads them anew whenever one stops or begins to answer, as root

AGENT is a number, the mark of director.nft. An access server's address gives its share, one of 256, as the rules work it out. A share
belongs to the agent that its number draws among those that serve: it moves only if its own agent goes, or if one comes that it
draws instead. So all who know the agents that serve know where each share is, and nothing is kept.
"""

import argparse
import contextlib
import hashlib
import hmac
import ipaddress
import os
import socket
import subprocess
import sys
import time

SHARES = 256
SEED = 0x52414449

# `watch`: so long, in seconds, from one question to the next, and for the reply; so many in a row without one, or with one, until the
# agent is out, or is back; and so many without one right after nobody answered, when agents find their home server again one after
# another, each after up to 8 seconds.
PAUSE = 2
PATIENCE = 1
STRIKES = 3
STRIKES_THEN = 7

SO_MARK = 36


def share_of(address):
    """`jhash ip saddr mod SHARES seed SEED` of nftables: the system's jhash of four octets, scaled to the shares."""

    def turned(value, by):
        return (value << by | value >> (32 - by)) & 0xFFFFFFFF

    a = b = c = (0xDEADBEEF + 4 + SEED) & 0xFFFFFFFF
    a = (a + int.from_bytes(ipaddress.IPv4Address(address).packed, "little")) & 0xFFFFFFFF
    c = (c ^ b) - turned(b, 14) & 0xFFFFFFFF
    a = (a ^ c) - turned(c, 11) & 0xFFFFFFFF
    b = (b ^ a) - turned(a, 25) & 0xFFFFFFFF
    c = (c ^ b) - turned(b, 16) & 0xFFFFFFFF
    a = (a ^ c) - turned(c, 4) & 0xFFFFFFFF
    b = (b ^ a) - turned(a, 14) & 0xFFFFFFFF
    c = (c ^ b) - turned(b, 24) & 0xFFFFFFFF
    return c * SHARES >> 32


def agent_of(share, agents):
    """The agent with the highest draw: taking out another one doesn't change that."""
    return max(agents, key=lambda agent: hashlib.sha256(f"{share} {agent}".encode()).digest())


def maps(agents, pins):
    """Both maps, replaced in one step. A pin to an agent that doesn't serve doesn't hold."""
    shares = ", ".join(f"{share} : {agent_of(share, agents)}" for share in range(SHARES))
    lines = ["flush map ip radius_spread pinned", "flush map ip radius_spread shares"]
    lines += [f"add element ip radius_spread shares {{ {shares} }}"]
    lines += [f"add element ip radius_spread pinned {{ {address} : {agent} }}" for address, agent in pins.items() if agent in agents]
    return "\n".join(lines) + "\n"


def place_of(address, agents, pins):
    return pins[address] if pins.get(address) in agents else agent_of(share_of(address), agents)


def attribute(code, value):
    return bytes([code, len(value) + 2]) + value


def question(secret, number):
    """An Access-Request of the user `health` with a password that is right nowhere, and a Message-Authenticator (RFC 3579)."""
    authenticator = os.urandom(16)
    attributes = attribute(1, b"health") + attribute(2, os.urandom(16))
    head = bytes([1, number]) + (20 + 18 + len(attributes)).to_bytes(2, "big") + authenticator
    seal = hmac.new(secret, head + attribute(80, bytes(16)) + attributes, "md5").digest()
    return head + attribute(80, seal) + attributes


def answers(secret, asked, reply):
    """Is it the authentic reply, whatever it says?"""
    if len(reply) < 20 or reply[1] != asked[1] or len(reply) != int.from_bytes(reply[2:4], "big"):
        return False
    return reply[4:20] == hashlib.md5(reply[:4] + asked[4:20] + reply[20:] + secret).digest()


def asked_all(agents, service, secret):
    """Those agents that answer a question, asked all at once. The mark leads to an agent as it leads the access servers' datagrams."""
    with contextlib.ExitStack() as all_ways:
        ways = {}
        for agent in agents:
            way = all_ways.enter_context(socket.socket(socket.AF_INET, socket.SOCK_DGRAM))
            way.setsockopt(socket.SOL_SOCKET, SO_MARK, agent)
            ways[agent] = way, question(secret, os.urandom(1)[0])
        end = time.monotonic() + PATIENCE
        for way, asked in ways.values():
            with contextlib.suppress(OSError):
                way.connect((service, 1812))
                way.send(asked)
        return {agent for agent, (way, asked) in ways.items() if answers(secret, asked, received(way, end))}


def received(way, end):
    """A datagram that comes until then, or nothing."""
    try:
        way.settimeout(max(0.001, end - time.monotonic()))
        return way.recv(4096)
    except OSError:
        return b""


def load(agents, pins):
    subprocess.run(["nft", "-f", "-"], input=maps(agents, pins), text=True, check=True)
    print("serving:", *agents, flush=True)


def watch(agents, pins, service, secret):
    """Where no agent answers nothing is changed, and that round doesn't count: it is then the home server that is away, or the
    question."""
    serving, against = list(agents), dict.fromkeys(agents, 0)
    load(serving, pins)
    while True:
        begun = time.monotonic()
        answered = asked_all(agents, service, secret)
        # How often in a row the agent was not what it is taken for.
        against = {agent: against[agent] + 1 if (agent in answered) != (agent in serving) else 0 for agent in agents}
        if not answered:
            against = dict.fromkeys(agents, STRIKES - STRIKES_THEN)
        found = [agent for agent in agents if (agent in serving) != (against[agent] >= STRIKES)]
        if found and found != serving:
            serving, against = found, dict.fromkeys(agents, 0)
            load(serving, pins)
        time.sleep(max(0, begun + PAUSE - time.monotonic()))


def main():
    words = argparse.ArgumentParser(description=__doc__, formatter_class=argparse.RawDescriptionHelpFormatter)
    words.add_argument("command", choices=["share", "where", "watch"])
    words.add_argument("agents", type=int, nargs="+", metavar="AGENT")
    words.add_argument("--pin", action="append", default=[], metavar="ADDRESS=AGENT")
    words.add_argument("--at", nargs="+", default=[], metavar="ADDRESS")
    words.add_argument("--service", metavar="ADDRESS")
    words.add_argument("--secret", metavar="FILE")
    told = words.parse_args()
    agents = sorted(set(told.agents))
    pins = {address: int(agent) for address, agent in (pin.split("=") for pin in told.pin)}
    if told.command == "share":
        sys.stdout.write(maps(agents, pins))
    elif told.command == "where":
        for address in told.at:
            print(address, place_of(address, agents, pins))
    elif told.service and told.secret:
        with open(told.secret, "rb") as file:
            watch(agents, pins, told.service, file.read().rstrip(b"\n"))
    else:
        words.error("watch wants --service and --secret")


if __name__ == "__main__":
    main()
