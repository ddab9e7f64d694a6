"""Eight performers and a ticker who share a core on threads: the program tdl_crowd, beside `tdl play` of the same calls in their order.

Each run is another one, as the threads come. Nobody else may have the port of the receiver meanwhile.
"""
import contextlib
import os
import re
import subprocess
import sys
import tempfile
from fractions import Fraction

import play
import sessions
from program import OTHER, SECONDS, TOP, as_wanted

CROWD = f"{TOP}/crates/tdl_crowd/out/tdl_crowd"
PERFORMERS = 8
LINES, TICKS = 1000, 400
STEP = sessions.UNITS // 8
RUNS = 3
TEMPO = ["--cps", "9/16", "--origin", "7"]
CALL = re.compile(r"(\d+) (?:p([1-8]) (.*)|tick (\d+)|(finish))")
SENT = re.compile(r"(osc|midi) ((?:[0-9a-f]{2})+)")


class Show:
    """What a run put: its first line, its calls by place, in the order in which they were put, and what is to be sent."""

    def __init__(self, text):
        self.first, *rest = text.splitlines() or [""]
        calls = [it for it in map(CALL.fullmatch, rest) if it]
        sent = [it for it in map(SENT.fullmatch, rest) if it]
        self.others = len(rest) - len(calls) - len(sent)
        self.calls = [(int(it[1]), int(it[2] or 0), line_of(it)) for it in calls]
        self.packets = [bytes.fromhex(it[2]) for it in sent if it[1] == "osc"]
        self.messages = b"".join(bytes.fromhex(it[2]) for it in sent if it[1] == "midi")

    def of(self, who):
        """The calls of a number in the order of their places, and whether they were put so."""
        mine = [(place, line) for place, by, line in self.calls if by == who]
        return [line for _, line in sorted(mine)], mine == sorted(mine)

    def script(self):
        """The lines in the order of their places, up to the finish."""
        lines = [line for _, _, line in sorted(self.calls)]
        return lines[:lines.index("finish") + 1] if "finish" in lines else lines


def line_of(call):
    """The line of a script that makes the same call."""
    if call[4]:
        return f"tick {Fraction(int(call[4]), sessions.UNITS)}"
    return call[5] or f"p{call[2]} {call[3]}"


def said(texts, who):
    """What a performer says, by the table that stands in the program's code."""
    return [f"p{who} {texts[(who * 3 + it * 7) % len(texts)]}" for it in range(LINES)]


def texts_of_code():
    """The table of texts, as the program's code has it."""
    with open(f"{TOP}/crates/tdl_crowd/src/texts.rt", encoding="utf-8") as file:
        found = re.findall(r'^    (?:r#"(.*)"#|"(.*)"),$', file.read(), re.MULTILINE)
    return [raw or plain for raw, plain in found]


def ended(ran, show, _receiver):
    """The run ends well, and puts nothing else."""
    found = {"status": ran.returncode, "standard error": ran.stderr, "other lines": show.others}
    return found, {"status": 0, "standard error": b"", "other lines": 0}


def places(_ran, show, _receiver):
    """Each place of the history has one call: none is lost, and none is there twice."""
    count = PERFORMERS * LINES + TICKS + 1
    found = {"first line": show.first, "places": sorted(place for place, _, _ in show.calls)}
    return found, {"first line": f"entries {count}", "places": list(range(count))}


def callers(_ran, show, _receiver):
    """The calls of each caller stand in its order: a performer's lines, and the ticks, with the finish behind them."""
    texts = texts_of_code()
    ticks = [f"tick {Fraction(it * STEP, sessions.UNITS)}" for it in range(1, TICKS + 1)]
    expected = {0: [*ticks, "finish"], **{it: said(texts, it) for it in range(1, PERFORMERS + 1)}}
    found = {f"caller {it}": show.of(it) for it in expected}
    return found, {f"caller {it}": (lines, True) for it, lines in expected.items()}


def sends(_ran, show, receiver):
    """`tdl play` of the same calls one after another sends the same packets and messages. What comes after the finish sends nothing."""
    played = sessions.run(receiver, sessions.text_of(show.script()), TEMPO)
    found = {"status": 0, "standard error": b"", "packets": show.packets, "midi": show.messages}
    return found, {it: played[it] for it in found}


CHECKS = (ended, places, callers, sends)


def passes_run(receiver, number):
    """Whether each check of a run passes."""
    with tempfile.TemporaryDirectory(prefix="tdl-crowd-") as room:
        ran = subprocess.run([CROWD, str(LINES), str(TICKS)], cwd=room, stdin=subprocess.DEVNULL, capture_output=True, timeout=SECONDS)
    show = Show(ran.stdout.decode())
    for check in CHECKS:
        yield as_wanted(f"crowd {number}, {check.__name__}", *check(ran, show, receiver))


def none_passes(runs, fault):
    """The checks of runs that could not be made."""
    return [as_wanted(f"crowd {run}, {check.__name__}", {"run": fault}, {}) for run in runs for check in CHECKS]


def passes_each():
    """Whether each check of each run passes. Where another program is tried there may be none of this one."""
    if not os.path.isfile(CROWD):
        if OTHER:
            print("left out: crowd, which no run of this checkout has built")
            return []
        return none_passes(range(RUNS), f"there is no program {CROWD}; `rt run` in its crate builds it")
    try:
        receiver = play.Receiver()
    except OSError as fault:
        return none_passes(range(RUNS), f"{play.ADDRESS}: {fault}")
    passed = []
    with contextlib.closing(receiver):
        for run in range(RUNS):
            try:
                passed += list(passes_run(receiver, run))
            except (OSError, subprocess.TimeoutExpired) as fault:
                passed += none_passes([run], fault)
    return passed


if __name__ == "__main__":
    sys.exit(not all(passes_each()))
