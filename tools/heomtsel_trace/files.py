"""What the settings file and the topology file of a node may hold (docs/FILES.md), in words."""

from __future__ import annotations

INTERVAL = "1 to 86,400,000 (milliseconds)"

SETTINGS = {
    "own": 'the node\'s own address as a text, as "127.0.0.1:3001" or "[fd00:0:0:0:0:0:0:7]:3001"; it must be there',
    "magic": "0 to 4,294,967,295",
    "initiatoronly": "0 or 1",
    "sharing": "0 or 1",
    "hard": "1 to 10,000",
    "soft": "0 to the value of hard",
    "delay": INTERVAL,
    "idle": INTERVAL,
    "timewait": INTERVAL,
    "handshake": INTERVAL,
    "reply": INTERVAL,
    "backoff": INTERVAL,
    "sharegap": INTERVAL,
    "shares": "0 to 8",
    "root": "0 to the value of known (10 where it isn't there)",
    "known": "0 to 10,000",
    "established": "0 to the value of known, at most 1,000 (10 where it isn't there)",
    "active": "0 to the value of established, at most 100 (5 where it isn't there)",
    "rootttl": INTERVAL,
    "tick": INTERVAL,
    "seed": "0 to 9,223,372,036,854,775,807",
    "announce": "true or false",
}

VALENCY = r"0|[1-9]\d{0,3}|10000"
PORT = r"0|[1-9]\d{0,3}|[1-5]\d{4}|6[0-4]\d{3}|65[0-4]\d{2}|655[0-2]\d|6553[0-5]"

# of each member of a topology: what is due, and how a right value looks
MEMBERS = {
    "localRoots": ("an array of groups, each an object with its accessPoints", r"\["),
    "publicRoots": ("an array of objects, each with its accessPoints", r"\["),
    "accessPoints": ("an array of objects, each with an address and a port", r"\["),
    "address": ('a text: an IPv4 or IPv6 address, or a name, as "10.0.0.2"', r'"[^"]*"'),
    "port": ("a whole number from 0 to 65,535", PORT),
    "advertise": ("true or false", "true|false"),
    "hotValency": ("a whole number from 0 to 10,000", VALENCY),
    "valency": ("a whole number from 0 to 10,000", VALENCY),
    "warmValency": ("a whole number from 0 to 10,000", VALENCY),
}
