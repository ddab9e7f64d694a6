"""The names of lines: tools/line_names.py has those that the program reads, each takes there what the program takes, and
docs/GUIDE.md has each."""
import os
import re
import subprocess
import sys

from program import PROGRAM, SECONDS, TOP, as_wanted

sys.path.append(os.path.join(TOP, "tools"))

from line_names import FLAGS, FUNCTIONS, KEYS, LISTS, ORDERS, OTHERS, RANDOM, WEIGHED  # noqa: E402

NAMES = [*KEYS, *FUNCTIONS, *LISTS, *WEIGHED, *ORDERS, *FLAGS, *OTHERS, *RANDOM]
# What a function takes, by its kind.
TAKEN = {"ratio": '"1%2"', "count": "2", "bools": '"t f"', "bounds": "(0, 0.5)", "function": "rev", "operand": 'n "1"'}
# A text of each kind of key, and one that only another kind has.
TEXTS = {"sound": ("bd:3", "1.5"), "note": ("e5", "bd"), "int": ("3", "e5"), "word": ("a", "a:3")}


def read_names():
    """The names that the program reads, by the table that it is proved to read by."""
    with open(f"{TOP}/crates/tdl_line_texts/specs/Names.antt", encoding="utf-8") as file:
        return re.findall(r'meaning \(codes "([^"]*)"\)', file.read())


def told_names():
    """What stands between backquotes in docs/GUIDE.md, in words."""
    with open(f"{TOP}/docs/GUIDE.md", encoding="utf-8") as file:
        return set(re.findall(r"[A-Za-z][A-Za-z']*", " ".join(re.findall(r"`[^`]*`", file.read()))))


def status(pattern):
    """How a query of the pattern ends: 0 where it is read, and 2 where it is refused."""
    words = [PROGRAM, "query", "--", pattern, "0", "1"]
    return subprocess.run(words, capture_output=True, timeout=SECONDS, check=False).returncode


def statuses_of(name):
    """How patterns end where a function has all that it takes, and where it lacks the last."""
    takes = [TAKEN[it] for it in FUNCTIONS[name]]
    lacking = [status(" ".join([name, *takes[:-1], '$ s "bd"']))] if takes else []
    return [status(" ".join([name, *takes, '$ s "bd"'])), *lacking]


def passes_each():
    """Whether each check passes."""
    yield as_wanted("tools/line_names.py has the names of lines", {"names": sorted(NAMES)}, {"names": sorted(read_names())})
    yield as_wanted("the guide has each name", {"missing": [it for it in NAMES if it not in told_names()]}, {"missing": []})
    for name, takes in FUNCTIONS.items():
        yield as_wanted(f"what {name} takes", {"statuses": statuses_of(name)}, {"statuses": [0, 2] if takes else [0]})
    for key, kind in KEYS.items():
        ends = [status(f'{key} "{text}"') for text in TEXTS[kind]]
        yield as_wanted(f"the kind of {key}", {"statuses": ends}, {"statuses": [0, 2]})
