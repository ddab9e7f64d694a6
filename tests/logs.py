"""Logs that are read back: the program tdl_read_back, on changed logs.

tests/logs.json has logs, and texts that are such a log with some bytes replaced, each with what the other program makes
of it (tools/compare/logs).
"""
import json
import os

from bundles import read_back
from program import OTHER, TOP, as_wanted

# The log of a bass drum and a tick, as it is and with a line replaced, and what is said of it.
WORKED = "tidal-log 1\ncps 9/16\norigin 2208988800\n0 1 0 swap 0 d1 $ s \"bd*4\"\n1 0 0 tick 1\nport 0 stopped\nend 2\n"
WORKED_ROWS = [("end 2", "end 2", "entries 2 ports 1"), ("end 2", "end 3", "refused Count 94"), ("tidal-log 1", "tidal-log 9", "refused Head 0")]


def text_of(logs, row):
    """The text of a row: a log, with some bytes from a place on replaced."""
    log = logs[row["log"]].encode()
    return log[:row["from"]] + bytes.fromhex(row["by"]) + log[row["to"]:]


def row_of(number, log, text, answer):
    """The row of a text, by the log that it was."""
    same = next((at for at, (one, other) in enumerate(zip(log, text)) if one != other), min(len(log), len(text)))
    back = 0
    while back < min(len(log), len(text)) - same and log[-1 - back] == text[-1 - back]:
        back += 1
    return {"log": number, "from": same, "to": len(log) - back, "by": text[same:len(text) - back].hex(), "answer": answer}


def verdict(line):
    """What a line of the program says: the fault and its place, or that the text is a log."""
    return line if line.startswith("refused ") else "read" if line.startswith("entries ") else line


def passes_each():
    """Whether each check passes. There is none where another program than the built one is tried."""
    if OTHER or not os.path.exists(f"{TOP}/crates/tdl_read_back"):
        return
    for (old, new, said), line in zip(WORKED_ROWS, read_back("logs", [WORKED.replace(it[0], it[1]).encode() for it in WORKED_ROWS])):
        yield as_wanted(f"log with {new} for {old}", {"read": line}, {"read": said})
    with open(f"{TOP}/tests/logs.json", encoding="utf-8") as file:
        kept = json.load(file)
    found = read_back("logs", [text_of(kept["logs"], it) for it in kept["rows"]])
    yield as_wanted("each changed log has a line", {"lines": len(found)}, {"lines": len(kept["rows"])})
    for row, line in zip(kept["rows"], found):
        yield as_wanted(f"log {row}", {"read": verdict(line)}, {"read": row["answer"]})
