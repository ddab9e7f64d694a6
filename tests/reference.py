"""The other program, which TDL_REFERENCE names by its whole path: what its `play` makes of a script (docs/CONTRIBUTING.md)."""
import os
import subprocess
import tempfile


def frames(text):
    """The packets of a file that has each after its length."""
    found, at = [], 0
    while at < len(text):
        count = int.from_bytes(text[at:at + 4], "big")
        found.append(text[at + 4:at + 4 + count])
        at += 4 + count
    return found


def content(path):
    """What a file has; nothing where there is none."""
    if not os.path.exists(path):
        return b""
    with open(path, "rb") as file:
        return file.read()


def played(given, words=(), stage="9"):
    """What it puts, sends, logs and ends with. TDL_STAGE is this stage where it is not set."""
    with tempfile.TemporaryDirectory(prefix="tdl-reference-") as folder:
        paths = {it: os.path.join(folder, it) for it in ("TDL_OSC", "TDL_LOG", "TDL_MIDI")}
        environment = {"TDL_STAGE": stage, **os.environ, **paths}
        ran = subprocess.run([os.environ["TDL_REFERENCE"], "play", *words], input=given, capture_output=True, env=environment, check=False)
        log, osc, notes = (content(paths[it]) for it in ("TDL_LOG", "TDL_OSC", "TDL_MIDI"))
    found = {"standard output": ran.stdout, "standard error": ran.stderr, "status": ran.returncode}
    return {**found, "packets": frames(osc), "log": log, "midi": notes}
