"""Whether the system's shares are those of spread.py, for 400 addresses: shares.py FOLDER, in a network with director.nft."""

import json
import socket
import subprocess
import sys

sys.dont_write_bytecode = True
sys.path.insert(0, sys.argv[1])
import spread  # noqa: E402

# What the rule of director.nft works out, of whom.
LOOK = """
table ip look {
    set shares { type ipv4_addr . mark; flags dynamic; size 65536; }
    chain look {
        type filter hook prerouting priority -301;
        meta mark set jhash ip saddr mod 256 seed 0x52414449 add @shares { ip saddr . meta mark }
    }
}
"""
subprocess.run(["nft", "-f", "-"], input=LOOK, text=True, check=True)
assert LOOK.split("jhash")[1].split(" add")[0] in open(f"{sys.argv[1]}/director.nft", encoding="utf-8").read()
for number in range(400):
    with socket.socket(socket.AF_INET, socket.SOCK_DGRAM) as way:
        way.bind((f"127.{number * 7 % 256}.{number * 37 % 256}.{number % 254 + 1}", 0))
        way.sendto(b"", ("192.0.2.1", 1812))
told = json.loads(subprocess.run(["nft", "-j", "list", "set", "ip", "look", "shares"], capture_output=True, check=True).stdout)
found = [entry.get("elem", {}).get("val", entry) if "elem" in entry else entry for entry in told["nftables"][1]["set"]["elem"]]
found = dict(entry["concat"] for entry in found)
wrong = [address for address, share in found.items() if spread.share_of(address) != share]
print(len(found), "addresses,", len(wrong), "of which have another share", *wrong)
sys.exit(len(found) < 390 or bool(wrong))
