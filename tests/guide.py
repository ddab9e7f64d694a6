"""The examples of docs/GUIDE.md: commands, and what they print.

Between two lines of three backquotes, a line that begins with `$ ` is a command. The lines below it, up to the
next command or the end, are all that it prints. What stands there before any command is prose.
"""
import shlex

from program import TOP

FENCE = "```"


def examples(lines):
    """The commands between fences, each with the lines below it."""
    found, block = [], None
    for line in lines:
        if line == FENCE:
            block = [] if block is None else None
        elif block is not None and line.startswith("$ "):
            block.append((line[2:], []))
            found.append(block[-1])
        elif block:
            block[-1][1].append(line)
    return found


def status_of(out):
    """The status that goes with the first line printed."""
    return 2 if out.startswith("refused ") else 1 if out.startswith("usage: ") else 0


def case_of(command, below):
    """The words after the program's name, what comes on standard output, and the status."""
    name, *words = shlex.split(command)
    if name != "tdl":
        raise ValueError(f"docs/GUIDE.md has a command of another program: {command}")
    out = "".join(f"{line}\n" for line in below)
    return words, out, status_of(out)


with open(f"{TOP}/docs/GUIDE.md", encoding="utf-8") as file:
    CASES = [case_of(*it) for it in examples(file.read().splitlines())]
