"""Whether what went over the wire is what the records of the agent's runs hold, octet for octet, in order, and nothing else.

    compare_record.py CAPTURE AGENT SERVER RECORD=PEER..

Of each run: its record, and the address of the home server that it linked with. Replies are compared for each of the two ports, over
all runs; messages, both ways, for each link. What the agent didn't hand to a link that ended may be missing on the wire, and what the
home server sent last may be missing in the record, but nothing between.
"""

import itertools
import subprocess
import sys

capture, agent, server, *runs = sys.argv[1:]
PORT = 3868
# What the agent calls itself in its first message.
HOST = b"agent.example"


def captured(wanted, *fields):
    """These fields of the frames that a filter takes."""
    words = [word for field in fields for word in ("-e", field)]
    told = subprocess.run(["tshark", "-r", capture, "-Y", wanted, "-T", "fields", *words], capture_output=True, text=True, check=True)
    return [line.split("\t") for line in told.stdout.splitlines()]


def links_to(peer):
    """The octets of each link to this address, in the order in which they were dialled: those from the agent and those to it."""
    found = {}
    fields = ["tcp.stream", "tcp.dstport", "tcp.seq", "tcp.payload"]
    for stream, port, place, payload in captured(f"tcp.port == {PORT} && ip.addr == {peer} && tcp.len > 0", *fields):
        ways = found.setdefault(int(stream), ({}, {}))
        ways[port != str(PORT)].setdefault(int(place), bytes.fromhex(payload.replace(":", "")))
    for stream in sorted(found):
        sent, came = (b"".join(pieces[place] for place in sorted(pieces)) for pieces in found[stream])
        # The relay has a link of its own with the home server.
        if HOST in sent[: int.from_bytes(sent[1:4], "big")]:
            yield sent, came


def links_in(lines, printed):
    """What a record has of each link: the octets of its `send` lines and of its `link` lines."""
    links = []
    for number, line in enumerate(lines, 1):
        words = line.split()
        if words[1:] == ["up"]:
            links.append((bytearray(), bytearray()))
        for output in printed.get(number, []):
            if output[0] == "send":
                links[-1][0].extend(bytes.fromhex(output[1]))
        if words[1] == "link":
            links[-1][1].extend(bytes.fromhex(words[2]))
    return [link for link in links if link[0] or link[1]]


def fault(what, found, wanted):
    print(f"{what}: the record has {len(found)}, the wire {len(wanted)}; they differ at {first_difference(found, wanted)}")
    return 1


def first_difference(left, right):
    return next((place for place, (a, b) in enumerate(itertools.zip_longest(left, right)) if a != b), None)


faults = messages = 0
replies = {"auth": [], "acct": []}
for run in runs:
    path, peer = run.split("=")
    text = open(path, encoding="ascii").read()
    told = subprocess.run([agent, "replay"], input=text, capture_output=True, text=True)
    if told.returncode != 0:
        sys.exit(f"{path} is no transcript: {told.stderr}")
    lines, printed = text.splitlines(), {}
    for line in told.stdout.splitlines()[:-1]:
        number, *words = line.split()
        printed.setdefault(int(number), []).append(words)
        if words[0] == "reply":
            replies[words[1]].append(words[2:])
    own, wire = links_in(lines, printed), list(links_to(peer))
    if len(own) != len(wire):
        faults += fault(f"{path}: links", own, wire)
    for place, ((said, heard), (sent, came)) in enumerate(zip(own, wire), 1):
        messages += len(sent)
        if not said.startswith(sent) or (len(said) > len(sent) and place == len(own)):
            faults += fault(f"{path}: link {place}, from the agent", said, sent)
        if not came.startswith(heard):
            faults += fault(f"{path}: link {place}, to the agent", heard, came)
for name, port in (("auth", 1812), ("acct", 1813)):
    wire = captured(f"!icmp && ip.src == {server} && udp.srcport == {port}", "ip.dst", "udp.dstport", "udp.payload")
    wire = [[address, to, payload.replace(":", "")] for address, to, payload in wire]
    if wire != replies[name]:
        faults += fault(f"replies from {port}", replies[name], wire)
print(f"{sum(map(len, replies.values()))} replies and {messages} octets of messages from the agent stand in the records")
sys.exit(faults > 0)
