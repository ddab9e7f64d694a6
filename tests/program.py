"""The program under test, and what a run of it is compared with."""
import os
import subprocess
import sys

TOP = os.path.dirname(os.path.dirname(os.path.realpath(__file__)))
OTHER = os.environ.get("TDL_PROGRAM")
PROGRAM = os.path.abspath(OTHER or f"{TOP}/crates/tdl/out/tdl")
SECONDS = 60


def command(words, redirections=""):
    """The command that runs the program on these words, texts or bytes, by the shell where it redirects."""
    given = [it if isinstance(it, bytes) else it.encode() for it in words]
    if redirections:
        return ["/bin/sh", "-c", f'exec "$@" {redirections}', "sh", PROGRAM, *given]
    return [PROGRAM, *given]


def stopped(child):
    """Ends a run that takes too long, and says so."""
    child.kill()
    child.wait()
    return subprocess.TimeoutExpired(PROGRAM, SECONDS)


def as_wanted(name, found, wanted):
    """Whether a run is as wanted. What is not goes to standard error."""
    if found == wanted:
        return True
    print(f"FAILED {name[:200]}", file=sys.stderr)
    for what, value in found.items():
        if value != wanted.get(what):
            print(f"  {what}: {difference(value, wanted.get(what))}", file=sys.stderr)
    return False


def difference(found, wanted):
    """Both values, long ones from a little before the first place where they differ."""
    begin = 0
    if isinstance(found, (bytes, list)) and isinstance(wanted, type(found)):
        pairs = enumerate(zip(found, wanted))
        same = next((at for at, (left, right) in pairs if left != right), min(len(found), len(wanted)))
        begin = max(0, same - (60 if isinstance(found, bytes) else 1))
        found, wanted = found[begin:begin + 300], wanted[begin:begin + 300]
    place = f"from {begin} on " if begin else ""
    return f"{place}{str(found)[:300]}, and not {str(wanted)[:300]}"
