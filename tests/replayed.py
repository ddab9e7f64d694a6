"""A log that is played again by tools/replay: that of a run just made, and one that says otherwise."""
import os
import pathlib
import subprocess
import tempfile

import play
import sessions
from program import PROGRAM, TOP, as_wanted

SCRIPT = b"""p1 d1 $ s "bd*4"
tick 1/2
p2 look
p2 jumpMod 2 4 $ note "0 7" # s "midi"
p3 solo 2
tick 1
tick 2
p3 unsolo 2
tick 3
tick 4
tick 5
finish
"""
WORDS = ["--cps", "1/2", "--origin", "5"]

def replayed(room, log, *others):
    """What tools/replay prints of a log, and its status."""
    path = pathlib.Path(room, "log")
    path.write_bytes(log)
    environment = {**os.environ, "TDL_PROGRAM": PROGRAM}
    ran = subprocess.run([f"{TOP}/tools/replay", str(path), *others], capture_output=True, text=True, env=environment, check=False)
    return {"lines": ran.stdout.splitlines(), "error": ran.stderr, "status": ran.returncode}


def passes_each():
    """Whether each check passes."""
    receiver = play.Receiver()
    run = sessions.run(receiver, SCRIPT, WORDS)
    receiver.close()
    with tempfile.TemporaryDirectory(prefix="tdl-replay-") as room:
        captures = {"osc": b"".join(len(it).to_bytes(4, "big") + it for it in run["packets"]), "midi": run["midi"], "replies": run["standard output"]}
        given = []
        for name, text in captures.items():
            pathlib.Path(room, name).write_bytes(text)
            given += [f"--{name}", str(pathlib.Path(room, name))]
        whole = f"12 entries: {len(run['packets'])} packets, {len(run['midi']) // 3} messages; 0 differ"
        yield as_wanted("a log is played again", replayed(room, run["log"], *given), {"lines": [whole], "error": "", "status": 0})
        found = replayed(room, run["log"].replace(b"swap 4 jumpMod", b"swap 0 jumpMod"))
        yield as_wanted("another boundary", {"first": found["lines"][0], "status": found["status"]},
                        {"first": 'entry 3 2 1/2 swap 0 jumpMod 2 4 $ note "0 7" # s "midi"', "status": 1})
        found = replayed(room, run["log"].replace(b"cps 1/2", b"cps 1/3"), *given)
        yield as_wanted("another tempo", {"lines": found["lines"][:1], "status": found["status"]}, {"lines": ["the packets are others"], "status": 1})
