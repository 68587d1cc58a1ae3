"""Accounting records that were acknowledged, beside those that the home server saw: records.py SEEN SESSIONS ACKNOWLEDGED..

SEEN has the home server's lines, SESSIONS `CLIENT SESSION`, ACKNOWLEDGED `CLIENT NUMBER BEGUN ENDED`, in milliseconds. Prints how many
there are, how many of them the home server doesn't have (`lost`), how many it has twice or more (`repeated`), and how long each
client waited at most for one.
"""

import collections
import sys

seen, sessions, *files = (open(name, encoding="utf-8").read().splitlines() for name in sys.argv[1:])
client_of = {session: client for client, session in (line.split() for line in sessions)}
at_home = collections.Counter()
for line in seen:
    words = line.split()
    if words[0] == "271":
        at_home[client_of.get(words[4]), int(words[6].removeprefix("number="))] += 1
acknowledged, longest = set(), collections.Counter()
for line in (line for file in files for line in file):
    client, number, begun, ended = line.split()
    acknowledged.add((client, int(number)))
    longest[client] = max(longest[client], int(ended) - int(begun))
print("acknowledged", len(acknowledged))
print("lost", len(acknowledged - set(at_home)))
print("repeated", sum(count > 1 for count in at_home.values()))
for client in sorted(longest):
    print("client", client, "waited", longest[client])
