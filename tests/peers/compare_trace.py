#!/usr/bin/env python3
"""Compares what `agent trace` says of runs in names with what Wireshark and radclient -x say of the same packets and messages.

    compare_trace.py CAPTURE RADCLIENT-LOG SERVER TRACE..

SERVER is the agent's address. Each packet and message of the agent that Wireshark found in the capture, and each reply that radclient
printed, must have the same attributes or AVPs in the same order, with the same names and values. What came in while no agent took it
has no trace, and what went out has one. Prints a line for each difference and how many were compared, and ends with status 1 where
one differs.
"""
import collections
import re
import subprocess
import sys
import xml.etree.ElementTree as tree

# Names and names of values that the RFCs write as `trace` does, and others otherwise.
SAME = [
    {"framedappletalknetwork", "framedappletalknet"}, {"wirelessieee80211", "wireless80211"},
    {"login", "loginuser"}, {"framed", "frameduser"}, {"callbacklogin", "callbackloginuser"}, {"nasprompt", "naspromptuser"},
    {"authorizeauthenticate", "authorizeandauthenticate"}, {"diametersuccess", "success"},
]
NO_VALUE = {"hidden"}
# What the agent calls itself in its first message of a link.
HOST = b"agent.example"


def plain(name):
    return re.sub(r"[^a-z0-9]", "", name.lower())


def are_same(one, other):
    one, other = plain(one), plain(other)
    return one == other or any({one, other} <= names for names in SAME)


def unescaped(text):
    octets, rest = bytearray(), text.encode("latin-1")
    while rest:
        found = re.match(rb"\\x([0-9a-f]{2})|\\(.)|(.)", rest, re.S)
        octets += bytes.fromhex(found[1].decode()) if found[1] else found[2] or found[3]
        rest = rest[found.end():]
    return bytes(octets)


# ---- What trace says

HEADING = re.compile(
    r"\d+ (?:\d+ (?P<in>auth|acct|link)|(?P<out>reply|send)) "
    r"(?:[\d.]+:(?P<port>\d+) (?P<packet>\S+) (?P<id>\d+)|(?P<message>\S+) (?P<hop>0x[0-9a-f]{8}) (?P<end>0x[0-9a-f]{8})) \((?P<length>\d+)\)$")


def key_of(found):
    if found["packet"]:
        return "in" if found["in"] else "out", found["port"], found["packet"], int(found["id"]), int(found["length"])
    return "in" if found["in"] else "out", found["message"], found["hop"], found["end"], int(found["length"])


def traced(paths):
    """By what tells a packet or message from others: its attributes or AVPs, each time that it came or went."""
    all_found = collections.defaultdict(list)
    for path in paths:
        items = None
        for line in open(path, encoding="latin-1"):
            line = line.rstrip("\n")
            if heading := HEADING.match(line):
                items = []
                all_found[key_of(heading)].append(items)
            elif items is not None and (item := re.match(r"( +)(\S+) =(?: (.*))?$", line)):
                items.append((len(item[1]) // 4, item[2], item[3]))
            else:
                items = None
    return all_found


# ---- What Wireshark says

def shown(field):
    """An attribute or AVP: its name, its code, the octets of its value, and what Wireshark says of them."""
    said = re.match(r"AVP: (?:t=)?(.*?)\((\d+)\) l=\d+(.*)$", field.get("showname"))
    octets = bytes.fromhex(field.get("value") or "")
    return said[1], int(said[2]), octets, said[3].partition(" val=")[2]


def avps_in(field, depth):
    for avp in field.findall("field"):
        if avp.get("name") == "diameter.avp":
            name, code, octets, said = shown(avp)
            start = 12 if octets[4] & 128 else 8
            yield depth, name, code, octets[start:int.from_bytes(octets[5:8], "big")], said, bool(octets[4] & 128)
            yield from avps_in(avp, depth + 1)
        elif avp.get("name", "").startswith("diameter."):
            yield from avps_in(avp, depth)


def attributes_in(field):
    for avp in field.iter("field"):
        if avp.get("name") == "radius.avp":
            name, code, octets, said = shown(avp)
            yield 1, name, code, octets[2:], said, code == 26


def value(proto, name):
    return next(field for field in proto.iter("field") if field.get("name") == name)


def captured(path, server):
    links = set()
    # A packet that found no port is quoted by an ICMP message too.
    pdml = subprocess.run(["tshark", "-r", path, "-d", "tcp.port==3868,diameter", "-Y", "(radius or diameter) and not icmp", "-T", "pdml"],
                          capture_output=True, check=True).stdout
    for packet in tree.fromstring(pdml):
        protos = {proto.get("name"): proto for proto in packet}
        for proto in packet:
            if proto.get("name") == "radius":
                if server not in (value(protos["ip"], f"ip.{end}").get("show") for end in ("src", "dst")):
                    continue
                source, to = (value(protos["udp"], f"udp.{end}port").get("show") for end in ("src", "dst"))
                name = re.match(r"Code: (\S+)", value(proto, "radius.code").get("showname"))[1]
                way, port = ("in", source) if to in ("1812", "1813") else ("out", to)
                key = way, port, name, int(value(proto, "radius.id").get("show"), 0), int(value(proto, "radius.length").get("show"))
                yield key, list(attributes_in(proto))
            elif proto.get("name") == "diameter":
                stream = value(protos["tcp"], "tcp.stream").get("show")
                # Its first message names the agent. A relay has links of its own.
                if any(avp[1] == "Origin-Host" and avp[3] == HOST for avp in avps_in(proto, 1)):
                    links.add(stream)
                if stream not in links:
                    continue
                name = re.match(r"Command Code: (\S+)", value(proto, "diameter.cmd.code").get("showname"))[1]
                is_request = int(value(proto, "diameter.flags").get("show"), 0) & 128
                to = value(protos["tcp"], "tcp.dstport").get("show")
                key = ("out" if to == "3868" else "in", f"{name}-{'Request' if is_request else 'Answer'}",
                       value(proto, "diameter.hopbyhopid").get("show"), value(proto, "diameter.endtoendid").get("show"),
                       int(value(proto, "diameter.length").get("show")))
                yield key, list(avps_in(proto, 1))


def differs(ours, theirs):
    """What is wrong with an attribute or AVP of the trace beside Wireshark's, or None."""
    depth, name, said = ours
    their_depth, their_name, code, octets, their_said, is_vendors = theirs
    if depth != their_depth:
        return f"{name} at depth {depth}, not {their_depth}"
    if is_vendors:
        return None if str(code) in name or "Vendor-Specific" in name else f"{name} for code {code}"
    tag = re.search(r":(\d+)$", name)
    if not are_same(name.partition(":")[0], their_name):
        return f"{name} for {their_name} ({code})"
    body = octets[1:] if tag else octets
    if said is None or said in NO_VALUE:
        return None
    if said.startswith('"'):
        return None if unescaped(said[1:-1]) == body else f"{name} = {said} for {body!r}"
    if said.startswith("0x"):
        return None if said[2:] == body.hex() else f"{name} = {said} for {body.hex()}"
    if re.fullmatch(r"\d+\.\d+\.\d+\.\d+", said):
        return None if bytes(map(int, said.split("."))) == body[-4:] else f"{name} = {said} for {body.hex()}"
    number, _, value_name = said.partition(" ")
    if int(number) != int.from_bytes(body, "big"):
        return f"{name} = {said} for {body.hex()}"
    named = re.match(r"(.*?) ?\((\d+)\)$", their_said)
    if value_name and named and not are_same(value_name, named[1]):
        return f"{name} = {said} for {their_said}"
    return None


# ---- What radclient says

def received(path):
    """The replies of a log of radclient -x: by port, code, identifier and length, its attributes as text."""
    key, items = None, []
    for line in open(path, encoding="latin-1"):
        if found := re.match(r"(Received|Sent) (\S+) Id (\d+) from \S+ to [\d.]+:(\d+) length (\d+)", line):
            if key:
                yield key, items
            key = ("out", found[4], found[2], int(found[3]), int(found[5])) if found[1] == "Received" else None
            items = []
        elif key and (found := re.match(r"\t(\S+) = (.*)$", line)):
            items.append((found[1], found[2]))
    if key:
        yield key, items


def differs_in_text(ours, theirs):
    _, name, said = ours
    their_name, their_said = theirs
    if name.startswith("Vendor-"):
        return None
    if not are_same(name.partition(":")[0], their_name.partition(":")[0]):
        return f"{name} for radclient's {their_name}"
    if said in NO_VALUE:
        return None
    if said.startswith('"'):
        return None if said == their_said else f"{name} = {said} for radclient's {their_said}"
    number, _, value_name = said.partition(" ")
    if said == their_said or number == their_said or are_same(value_name or said, their_said.partition(" ")[0]):
        return None
    return f"{name} = {said} for radclient's {their_said}"


def main():
    capture, log, server, *traces = sys.argv[1:]
    ours, compared, faults = traced(traces), collections.Counter(), []

    def compare(what, key, theirs, difference):
        # Of repeats that are the same octet for octet any stands for each.
        found = ours.get(key)
        if not found:
            if key[0] == "out":
                faults.append(f"no trace of {what}'s {key}")
            return
        problems = []
        for items in found:
            wrong = [fault for pair in zip(items, theirs) if (fault := difference(*pair))]
            if len(items) != len(theirs):
                wrong.append(f"{len(items)} for {len(theirs)}")
            if not wrong:
                compared[what] += 1
                compared[f"{what}'s values"] += len(theirs)
                return
            problems.append(wrong)
        faults.append(f"{what} {key}: {min(problems, key=len)}")

    for key, theirs in captured(capture, server):
        compare("Wireshark", key, theirs, differs)
    for key, theirs in received(log):
        compare("radclient", key, theirs, differs_in_text)
    for fault in faults:
        print(fault)
    print(", ".join(f"{what}: {count}" for what, count in compared.items()) or "nothing was compared")
    return 1 if faults or not compared else 0


if __name__ == "__main__":
    sys.exit(main())
