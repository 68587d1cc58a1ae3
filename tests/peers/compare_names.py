#!/usr/bin/env python3
"""Compares the names of crates/names with two other lists: FreeRADIUS's dictionaries for what is below 256, and Wireshark's
for the rest. Usage: compare_names [FREERADIUS-FOLDER WIRESHARK-FOLDER]."""

import glob
import re
import sys
import xml.etree.ElementTree as tree

radius_folder, wireshark_folder = sys.argv[1:] or ["/usr/share/freeradius", "/usr/share/wireshark"]

RADIUS_KINDS = {"string": "Text", "integer": "Number", "ipaddr": "Address", "date": "Time"}
DIAMETER_KINDS = {
    "UTF8String": "Text",
    "DiameterIdentity": "Text",
    "DiameterURI": "Text",
    "IPFilterRule": "Text",
    "QoSFilterRule": "Text",
    "Unsigned32": "Number",
    "Integer32": "Number",
    "Enumerated": "Number",
    "AppId": "Number",
    "VendorId": "Number",
    "Unsigned64": "Wide",
    "IPAddress": "Address",
    "OctetString": "Octets",
    "Time": "Time",
    "Grouped": "Group",
}

# Where the two lists and the RFCs differ, the RFC has it. Names of the same value that are written otherwise.
SAME_VALUES = {
    (6, 1): "Login-User",
    (6, 2): "Framed-User",
    (6, 3): "Callback-Login-User",
    (6, 4): "Callback-Framed-User",
    (6, 5): "Outbound-User",
    (6, 6): "Administrative-User",
    (6, 7): "NAS-Prompt-User",
    (10, 1): "Broadcast",
    (10, 3): "Broadcast-Listen",
    (49, 21): "Port-Reinit",
    (49, 22): "Port-Disabled",
    (61, 2): "ISDN",
    (61, 3): "ISDN-V120",
    (61, 4): "ISDN-V110",
    (61, 19): "Wireless-802.11",
    (64, 7): "IP",
    (64, 8): "MIN-IP",
    (65, 6): "IEEE-802",
    (72, 2): "Zone-Filter-Inclusive",
    (72, 4): "Zone-Filter-Exclusive",
    (101, 201): "Residual-Context-Removed",
    (101, 502): "Proxy-Request-Not-Routable",
    (101, 505): "Proxy-Processing-Error",
    (261, 0): "Don't Care",
    (261, 1): "All Session",
    (268, 4003): "DIAMETER_ELECTION_LOST",
    (295, 31): "Reauthentication Failure",
}
# Kinds that aren't those of the lists: what nobody is to read, and addresses and numbers of other sizes.
OTHER_KINDS = {23: "Octets", 26: "Octets", 74: "Octets", 464: "Hidden", 126: "Text"}


def plain(name):
    return re.sub(r"[^a-z0-9]", "", name.lower())


def rows(file, pattern):
    with open(f"crates/names/src/{file}.rt", encoding="utf-8") as source:
        return re.findall(pattern, source.read())


ours = {int(code): (name, kind) for code, name, kind in rows("avps", r'\((\d+), "([^"]*)", Kind::(\w+)\)')}
values = {(int(code), int(value)): name for code, value, name in rows("values", r'\((\d+), (\d+), "([^"]*)"\)')}

theirs, their_values = {}, {}
for path in glob.glob(f"{radius_folder}/dictionary.rfc*"):
    with open(path, encoding="utf-8", errors="replace") as dictionary:
        vendor = False
        for line in dictionary:
            words = line.split()
            if words[:1] == ["BEGIN-VENDOR"]:
                vendor = True
            elif words[:1] == ["END-VENDOR"]:
                vendor = False
            elif words[:1] == ["ATTRIBUTE"] and not vendor and words[2].isdigit() and int(words[2]) < 256:
                hidden = any("encrypt" in word for word in words[4:])
                kind = "Hidden" if hidden else RADIUS_KINDS.get(words[3], "Octets")
                theirs.setdefault(int(words[2]), []).append((words[1], kind))
            elif words[:1] == ["VALUE"]:
                their_values.setdefault((words[1], int(words[3], 0)), []).append(words[2])
for file in ("dictionary", "nasreq", "eap"):
    with open(f"{wireshark_folder}/diameter/{file}.xml", encoding="utf-8", errors="replace") as source:
        text = re.sub(r"<!DOCTYPE.*?\]>|<!--.*?-->|&\w+;", "", source.read(), flags=re.S)
    for avp in re.findall(r"<avp\s.*?</avp>", text, flags=re.S):
        node = tree.fromstring(avp)
        code = int(node.get("code"))
        if node.get("vendor-id") not in (None, "None") or code < 256:
            continue
        kind = "Grouped" if node.find("grouped") is not None else node.find("type").get("type-name")
        theirs.setdefault(code, []).append((node.get("name"), DIAMETER_KINDS.get(kind, kind)))
        for value in node.findall("enum"):
            their_values.setdefault((node.get("name"), int(value.get("code"))), []).append(value.get("name"))

failed = 0


def differs(what):
    global failed
    failed += 1
    print(what)


compared = 0
for code, (name, kind) in ours.items():
    known = theirs.get(code)
    if known is None:
        differs(f"{code} {name}: in neither list")
        continue
    compared += 1
    if name not in [other for other, _ in known]:
        differs(f"{code} {name}: they have {known}")
    if OTHER_KINDS.get(code, kind) != kind or (code not in OTHER_KINDS and kind not in [other for _, other in known]):
        differs(f"{code} {name} {kind}: they have {known}")
names_of = {code: [name] + [other for other, _ in theirs.get(code, [])] for code, (name, _) in ours.items()}
for (code, value), name in values.items():
    known = [other for attribute in names_of[code] for other in their_values.get((attribute, value), [])]
    compared += 1
    if (code, value) in SAME_VALUES:
        if SAME_VALUES[code, value] not in known:
            differs(f"{code} {value} {name}: they have {known}")
    elif plain(name) not in [plain(other) for other in known]:
        differs(f"{code} {value} {name}: they have {known}")
print(f"{compared} names compared, {failed} differ")
sys.exit(failed > 0)
