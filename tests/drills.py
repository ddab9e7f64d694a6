"""Drills: what each prints, sends, logs and ends with, as another program gave it (docs/CONTRIBUTING.md).

A drill has no input, and of what it sends and logs a digest is kept: of the datagrams each after its length, of the file
of MIDI messages, and of the log. The log is read back.
"""
import hashlib

import sessions
from bundles import read_back
from program import OTHER, as_wanted

# The number, how many lines, the end line, and the digests of the log, the datagrams and the messages.
DRILLS = [
    ("1", "4", "end 73/960 entries 5 osc 0 midi 0",
     "f837a7d23d1516686c83976071b9f36ac417e972a4700a1619d2adfd5e33ce18",
     "e3b0c44298fc1c149afbf4c8996fb92427ae41e4649b934ca495991b7852b855",
     "e3b0c44298fc1c149afbf4c8996fb92427ae41e4649b934ca495991b7852b855"),
    ("7", "200", "end 146257/46080 entries 201 osc 33 midi 6",
     "10f9276aa7b7f0b0b1fb9ef6ef083dd24f23f7a0e0a6d0c6815b18d034957f52",
     "513985c18b46071689f62e133d07c64d90cfa314b706af3ed0156564c1f27079",
     "5e61268b7f481f909e76e63a4fcb6b088574a990bc0bf60e6f45b593fca332cd"),
    ("20261128", "2000", "end 1417313/46080 entries 2001 osc 288 midi 40",
     "0052f27b6af5e308ff9bf4eb8cc17bd53d5beb11bc68047c3df94748071a12c9",
     "c8999fa333762f68f17125d6b3d5e12dbf41e621013d4a39452334585a22d450",
     "e2cf057a7ea93fb9d4c8dde1c44af15737d8e8b4686fab075f80f32062ea99ce"),
    ("1", "16384", "end 3629171/15360 entries 16385 osc 2239 midi 450",
     "b305b2d244ec718eb8263edbd3798d995b0b0981eb9274c0c9f44976cccb09ba",
     "6dc1fe3b862d6f2191303e9ed9510ba30a184b403a1ef15fd9f38521c61e99dc",
     "4ea8fdae3d38e3ca8911070e635d5c6baa5827cfa388dc2c39759130ed197c1c"),
    ("2147483647", "16384", "end 2157403/9216 entries 16385 osc 2266 midi 534",
     "61ab4c76f3fa1d46653a976152d1c641059f6a303d60adbb1960a5ac7ca2abae",
     "d134c003a2d24b0993541d475884969b54052aca943cb73f5515a5b00dd4fc03",
     "9c32ba7b8e366571142c9a2ffbfadbefd225d1aa60ed837ff2209039f8b65512"),
]

LOGGED = """tidal-log 1
cps 9/16
origin 2208988800
0 3 0 swap 0 unsolo 1
1 3 0 swap 0 unsolo 1
2 3 0 swap 0 solo 1
3 0 0 tick 73/960
4 1 73/960 swap 1 d1 $ s "bd*3 sn"
5 2 73/960 swap 6 jumpMod 2 6 $ note "0 9" # s "midi"
6 0 73/960 finish
port 0 finish
end 7
"""


def digest(data):
    return hashlib.sha256(data or b"").hexdigest()


def drill(receiver, start, lines, end, log, packets, midi):
    """The input is not read: what stands there is no script."""
    found = sessions.run(receiver, b"p1 d1 $ s \"bd\"\n", [start, lines], mode="drill")
    told = {key: found[key] for key in ("standard output", "standard error", "status")}
    told |= {"log": digest(found["log"]), "packets": sessions.digest(found["packets"]), "midi": digest(found["midi"])}
    given = {"standard output": f"{end}\n".encode(), "standard error": b"", "status": 0}
    if not OTHER:
        told["read back"] = read_back("logs", [found["log"]])
        given["read back"] = [f"entries {end.split()[3]} ports 1"]
    return as_wanted(f"drill {start} {lines}", told, {**given, "log": log, "packets": packets, "midi": midi})


def logged(receiver):
    """The log of a short drill."""
    found = sessions.run(receiver, b"", ["1", "6"], mode="drill")
    return as_wanted("log of a drill", {"log": found["log"]}, {"log": LOGGED.encode()})


def without_output(receiver, to):
    """The end line is not put, and the log is."""
    found = sessions.run(receiver, b"", ["1", "6"], redirections=to, mode="drill")
    told = {"status": found["status"], "log": found["log"]}
    return as_wanted(f"drill {to}", told, {"status": 4, "log": LOGGED.encode()})


def checks():
    """Each check, with what it is given beside the receiver."""
    return [(logged,), *((without_output, to) for to in (">&-", ">/dev/full")), *((drill, *it) for it in DRILLS)]


def passes_each():
    """Whether each check passes. The port is free before and after."""
    return sessions.passes_each(checks())
