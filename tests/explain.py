"""What is shown of refusals: each kind has its sentence in docs/GUIDE.md, and tools/explain shows it with the slip."""
import os
import re
import subprocess
import sys
import tempfile

from program import PROGRAM, SECONDS, TOP, as_wanted

sys.path.append(os.path.join(TOP, "tools"))

from refusals import sentences  # noqa: E402

# Where the kinds of refusals are told in code.
ENUMS = [
    ("tdl_mini_tree/src/faults.rt", "MiniKind"), ("tdl_line_machine/src/faults.rt", "LineKind"),
    ("tdl_prepare/src/faults.rt", "PrepareFault"), ("tdl_core/src/replies.rt", "Refusal"),
]
# Kinds that have no word of their own in a reply.
WORDLESS = {"Mini", "NoMemory"}
# A script, its replies, and what is shown of them.
SCRIPT = """p1 d1 $ s "bd?"
p2 d17 $ silence
p3 jumpMod 1 0 $ silence
d1 $ s "bd"
p9 look
tick 0.5
tick 1/7
tick 1/2
tick 1/2
tick 2
tick 1048577
"""
REPLIES = """refused Random 10
refused BadOrbit 0
refused BadEvery 10
refused Unexpected 0
refused Unexpected 0
refused BadFraction 5
refused OffGrid 5
tick 1/2 osc 0 midi 0
refused Backward 1/2
refused TooLong 1/2
refused PastLast 1/2
end 1/2 entries 1 osc 0 midi 0
"""
# Lines that are shown: by the script's line where there is a number, with the mark below the byte.
SHOWN = [
    'p1 d1 $ s "bd?"\n             ^\nline 1: Random: ', "p2 d17 $ silence\n   ^\nline 2: BadOrbit: an orbit is 1 to 16. Take another one.\n",
    "p3 jumpMod 1 0 $ silence\n             ^\nline 3: BadEvery: ",
    'd1 $ s "bd"\n^\nline 4: Unexpected: a line of a script begins with p1 to p8 and a blank, or is tick TIME or finish. ',
    "tick 0.5\n     ^\nline 6: BadFraction: ", "tick 1/7\n     ^\nline 7: OffGrid: ", "tick 1/2\nline 9: Backward: ",
    "tick 2\nline 10: TooLong: ", "tick 1048577\nline 11: PastLast: ",
]
QUERIES = [
    (["bd [sn", "0", "1"], "bd [sn\n      ^\nUnexpected: "), (["bd é sn", "0", "1"], "bd é sn\n   ^\nNotAscii: a letter such as é. "),
    (["--", "-x", "0", "1"], "-x\n^\nUnknownSign: "), (["bd*512*256", "0", "1"], "bd*512*256\nTooDense: "),
    (["p1 [bd", "0", "1"], "p1 [bd\n      ^\nUnexpected: "), (['p1 look "', "0", "1"], 'p1 look "\n        ^\nUnclosed: '),
    (["bd", "0", "1/7"], "bd\nTickGrid: "), (["bd", "1", "1"], "bd\nOrder: "), (["bd", "0", "1"], ""),
]


def kinds():
    """The kinds of refusals that the code has."""
    for path, name in ENUMS:
        with open(f"{TOP}/crates/{path}", encoding="utf-8") as file:
            body = re.search(rf"pub enum {name} \{{\n(.*?)\n\}}", file.read(), re.DOTALL)[1]
        yield from (it for it in re.findall(r"^    (\w+)", body, re.MULTILINE) if it not in WORDLESS)


def shown(words, script=""):
    """What a run puts through tools/explain, and what that shows."""
    with tempfile.TemporaryDirectory(prefix="tdl-refusals-") as room:
        path = os.path.join(room, "script")
        with open(path, "w", encoding="utf-8") as file:
            file.write(script)
        line = 'exec 3<"$1"; shift; program=$1; shift; explain=$1; shift; "$program" "$@" <&3 3<&- | "$explain" "$@"'
        command = ["/bin/sh", "-c", line, "sh", path, PROGRAM, f"{TOP}/tools/explain", *words]
        return subprocess.run(command, cwd=room, capture_output=True, text=True, timeout=SECONDS, check=False)


def passes_each():
    """Whether each check passes."""
    told = sentences()
    for kind in [*kinds(), "no memory", "BadFraction", "OffGrid", "Fraction", "Order", "Last", "TickGrid"]:
        yield as_wanted(f"the guide has a sentence for {kind}", {"told": all(told.get(kind, [""]))}, {"told": True})
    listed = subprocess.run([f"{TOP}/tools/explain", "kinds"], capture_output=True, text=True, timeout=SECONDS, check=False).stdout
    missing = {*kinds(), "no memory"} - {it.split("\t")[0] for it in listed.splitlines() if it.endswith(".")}
    yield as_wanted("editors are told of each kind", {"missing": missing}, {"missing": set()})
    for words, begin in QUERIES:
        ran = shown(["query", *words])
        yield as_wanted(f"what is shown of {words}", {"shown": ran.stderr[:len(begin)], "any": bool(ran.stderr)}, {"shown": begin, "any": bool(begin)})
    ran = shown(["play"], SCRIPT)
    yield as_wanted("a script's replies pass through", {"out": ran.stdout}, {"out": REPLIES})
    missing = [it for it in SHOWN if it not in ran.stderr]
    yield as_wanted("a script's refusals are shown", {"missing": missing}, {"missing": []})
