"""The edits that the prover has to refuse, those of the gate and those of tools/edits: whether each can still be made."""
import subprocess
import sys
from pathlib import Path

from program import TOP

CRATES = Path(TOP) / "crates"
OTHERS = Path(TOP) / "tools" / "edits"


def edits():
    """Each edit with the folder of its crate."""
    for crate in sorted(it for it in CRATES.iterdir() if it.is_dir()):
        for folder in (crate / "must-fail", OTHERS / crate.name):
            yield from ((crate, edit) for edit in sorted(folder.glob("*.edit")))


def fault_of(crate, edit):
    """Why the edit cannot be made, if it cannot: each old text stands once in its file, in what the earlier ones made."""
    texts, path, old, pairs = {}, None, None, 0
    for line in edit.read_text().splitlines():
        word, _, rest = line.partition(": ")
        if word == "file":
            path = crate / rest.strip()
            if not path.is_file():
                return f"there is no file {rest.strip()}"
            texts.setdefault(path, path.read_text())
        elif word == "old":
            old = rest
        elif word in ("new", "new:"):
            if path is None or not old:
                return "a new text without an old one"
            if texts[path].count(old) != 1:
                return f"a text stands {texts[path].count(old)} times in {path.relative_to(crate)}: {old[:80]}"
            texts[path] = texts[path].replace(old, rest)
            old, pairs = None, pairs + 1
    return None if pairs else "it changes nothing"


def passes_each():
    """Whether each edit can be made, and whether crates.txt names no library in vain."""
    for crate, edit in edits():
        fault = fault_of(crate, edit)
        if fault:
            print(f"FAILED edit {crate.name}/{edit.name}: {fault}", file=sys.stderr)
        yield not fault
    ran = subprocess.run([f"{TOP}/tools/edges"], capture_output=True, text=True)
    if ran.returncode:
        print(f"FAILED crates.txt names libraries in vain: {ran.stdout.split()}", file=sys.stderr)
    yield not ran.returncode
