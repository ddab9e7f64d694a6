"""Scripts by which `tdl play` is measured, a drill, and a run of one."""
import os
import random
import re
import statistics
import subprocess
import sys
import time
from fractions import Fraction
from typing import NamedTuple

from random_lines import good_line

STEP = Fraction(1, 20)
PATTERNS = [
    's "bd*4"',
    's "[~ sn]*2"',
    's "hh*8"',
    's "cp(3,8)"',
    'every 4 (fast 2) $ s "bd*2 [~ sn]"',
    'n "0 .. 7" # s "arpy"',
    'jux rev $ s "hh*4 oh"',
    'off 0.25 (# n 12) $ n "<0 2 5>*2" # s "bass"',
    's "{bd sn cp}%4"',
    'palindrome $ n "0 2 4 7" # s "pluck"',
    'whenmod 4 2 (# pan 1) $ s "hh27*4"',
    'struct "t(5,8)" $ s "rim"',
    'ply 2 $ s "lt mt ht ~"',
    'iter 4 $ s "bd hh sn hh"',
    'superimpose (fast 3) $ s "click*2"',
    'within 0 0.5 (fast 2) $ s "bd sn hh cp"',
]

NOTES = [
    'note "0 [4 7]*2" # s "midi"',
    'note "[0,4,7]*4" # s "midi" # midichan 1',
    'slow 3 $ note "0 5 7" # s "midi" # midichan 2',
    'n "0 .. 7" # s "midi" # velocity "100 40"',
    'every 4 (fast 2) $ note "0*4" # s "midi" # midichan 3',
    'off 0.25 (|+ note 12) $ note "<0 2 5>*2" # s "midi"',
    'ply 2 $ note "0 3" # s "midi" # midichan "<4 5>"',
    'struct "t(5,8)" $ note "-24" # s "midi" # midichan 9',
]


class Script(NamedTuple):
    """A script, what of it is counted, which is its ticks or its lines, and the words by which it is played."""

    text: bytes
    count: int
    what: str
    words: tuple = ("play",)


def ticks(count):
    return [f"tick {it * STEP}" for it in range(1, count + 1)]


def script(lines, count, what):
    return Script("".join(f"{line}\n" for line in lines).encode(), count, what)


def ensemble(patterns, *end):
    swaps = [f"p{1 + orbit % 8} d{orbit + 1} $ {pattern}" for orbit, pattern in enumerate(patterns)]
    return script([*swaps, *ticks(2000), *end], 2000, "ticks")


def random_swaps(accepted, count=4000, seed=41):
    """Random lines that set patterns, as many as are counted, and are accepted."""
    source = random.Random(seed)
    lines = []
    while len(lines) < 2 * count:
        line = good_line(source)
        if re.match(r"(d\d+|jumpMod) ", line) and len(line) < 2000:
            lines.append(f"p{1 + len(lines) % 8} {line}")
    return script(accepted(lines)[:count], count, "lines")


def many_swaps():
    swaps = [f'p1 d{1 + it % 16} $ s "bd sn"' for it in range(12_000)]
    return script(swaps + ticks(1000), 13_000, "lines")


SCRIPTS = {
    "16 orbits": lambda _: ensemble(PATTERNS),
    "16 orbits, MIDI": lambda _: ensemble([it for pair in zip(PATTERNS[::2], NOTES) for it in pair], "finish"),
    "4,000 lines": random_swaps,
    "12,000 swaps": lambda _: many_swaps(),
    "drill": lambda _: Script(b"", 16_384, "lines", ("drill", "1", "16384")),
}


def environment(room):
    """The other program writes its messages where this one does."""
    return {**os.environ, "TDL_MIDI": os.path.join(room, "midi.out")}


def run(command, text, room, words=("play",)):
    """One run of a program on these words; what it prints and the messages of its notes go to files."""
    source = os.path.join(room, "script")
    with open(source, "wb") as file:
        file.write(text)
    with open(source, "rb") as given, open(os.path.join(room, "replies"), "wb") as out:
        begin = time.perf_counter()
        status = subprocess.run([*command, *words], cwd=room, stdin=given, stdout=out, check=False, env=environment(room)).returncode
        seconds = time.perf_counter() - begin
    if status:
        sys.exit(f"{command}: status {status}")
    with open(os.path.join(room, "replies"), "rb") as out:
        return seconds, out.read()


def memory(command, text, room, words):
    """The KiB that a run holds at most, as GNU time tells it, whose own start is small."""
    told = os.path.join(room, "memory")
    given = ["/usr/bin/time", "-f", "%M", "-o", told, *command, *words]
    subprocess.run(given, cwd=room, input=text, stdout=subprocess.DEVNULL, check=True, env=environment(room))
    with open(told, encoding="ascii") as file:
        return int(file.read())


def by_turns(found, made, room, runs):
    """The times of each program's runs, which begin in turn, and what each printed."""
    times = {name: [] for name in found}
    printed = {}
    for turn in range(runs):
        for name in list(found)[:: 1 if turn % 2 else -1]:
            seconds, printed[name] = run(found[name], made.text, room, made.words)
            times[name].append(seconds)
    return times, printed


def pairs_told(times):
    """Of two programs, the middle ratio of the times of a turn, and how many turns the first one won."""
    if len(times) != 2:
        return ""
    ratios = [one / other for one, other in zip(*times.values())]
    return f"{statistics.median(ratios):>10.3f}{sum(it < 1 for it in ratios):>6} of {len(ratios)}"


def print_play(found, room, runs=50):
    """The best of some runs by turns, for each script; of two programs, how their times of each turn compare, too."""
    print(f"\nplay, best of {runs} runs by turns, and the most memory that one held; of two programs, the middle ratio of their times")
    print(f"{'':16}{'':8}" + "".join(f"{name + ' /s':>16}{'peak KiB':>10}" for name in found))
    first = next(iter(found.values()))

    def accepted(lines):
        """Those of the lines that are accepted."""
        _, replies = run(first, script(lines, 0, "").text, room)
        return [line for line, reply in zip(lines, replies.split(b"\n")) if reply.startswith(b"at ")]

    for what, make in SCRIPTS.items():
        made = make(accepted)
        times, printed = by_turns(found, made, room, runs)
        if len(set(printed.values())) > 1:
            sys.exit(f"{what}: the programs answer otherwise")
        line = "".join(f"{made.count / min(it):>16.0f}{memory(found[name], made.text, room, made.words):>10}" for name, it in times.items())
        print(f"{what:16}{made.what:8}{line}{pairs_told(times)}", flush=True)


def print_read(command, reader, room, copies=50, runs=10):
    """The best of some runs that each read the log of a drill back so many times."""
    drill = SCRIPTS["drill"](None)
    run(command, drill.text, room, drill.words)
    with open(os.path.join(room, "tdl.log"), "rb") as file:
        log = file.read()
    texts = (len(log).to_bytes(4, "big") + log) * copies
    best = min(run([reader], texts, room, ("logs",))[0] for _ in range(runs))
    print(f"{'read_log':16}{'entries':8}{copies * (drill.count + 1) / best:>16.0f}{memory([reader], texts, room, ('logs',)):>10}", flush=True)
