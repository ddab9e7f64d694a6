"""What docs/GUIDE.md says of each refusal, and a refused line with a mark at its slip, for people."""
import functools
import os
import re

GUIDE = os.path.join(os.path.dirname(os.path.dirname(os.path.realpath(__file__))), "docs", "GUIDE.md")
# A refusal that has an offset into a text; all others carry other numbers, or none.
AT = re.compile(r"refused (\w+) (\d+)")
# Kinds whose number is not that of a byte.
COUNTED = {"TooLarge", "TooDense", "TooFine", "TooFar", "Full", "Backward", "TooLong", "PastLast"}
PERFORMER = re.compile(rb"p[1-8] ")


def plain(cell):
    """A cell of a table without its marks."""
    return cell.replace("`", "").replace("\\|", "|").strip()


def cells(row):
    """The cells of a row of a table."""
    return [it.strip() for it in re.split(r"(?<!\\)\|", row)[1:-1]]


def kinds_of(cell):
    """The kinds that the first cell of a row is about; of a script's reply also the whole of it."""
    codes = re.findall(r"`([^`]*)`", cell)
    kinds = [it.removeprefix("refused ").split(" ")[0] if it != "no memory" else it for it in codes]
    return kinds + [it for it in codes if it.startswith("refused ")]


@functools.cache
def sentences():
    """For each kind why it comes, and what to do. A row that is about scripts has a kind's example before these."""
    with open(GUIDE, encoding="utf-8") as file:
        _, text = file.read().split("\n## Refusals\n")
    found = {}
    for row in text.splitlines():
        row = cells(row)
        if len(row) >= 3 and row[0].startswith("`"):
            for kind in kinds_of(row[0]):
                found.setdefault(kind, (plain(row[-2]), plain(row[-1])))
    return found


def kind_of(line):
    """The kind of a line that refuses, or nothing."""
    if line == "no memory":
        return line
    return line.split(" ")[1] if re.match(r"refused \w", line) else None


def sentence(why, what):
    """What people read of a kind: why it comes, and what to do."""
    if what == "see below":
        return f'{why}. See docs/GUIDE.md, "Refusals".'
    return f"{why}. {what[:1].upper()}{what[1:]}."


def column(text, line, in_script=False):
    """Before which character of a text the byte stands that a refusal names, where it names one. `text` has bytes."""
    match = AT.fullmatch(line)
    front = PERFORMER.match(text) if in_script else None
    if match is None or match[1] in COUNTED:
        return None
    at = int(match[2]) + (len(front[0]) if front and match[1] != "BadFraction" and match[1] != "OffGrid" else 0)
    return len(text[:at].decode(errors="replace"))


def marked(text, line, in_script):
    """The text with a mark below the byte that a refusal names, where it names one. `text` has bytes."""
    at, shown = column(text, line, in_script), text.decode(errors="replace")
    if at is None:
        return [shown]
    return [shown, " " * at + "^"] if len(shown) <= 300 else []


def explained(line, text, place="", in_script=False):
    """What people are shown of a line that refuses a text: lines, or none where it refuses nothing. `place` tells where
    the text stands; one in a script has its performer's number before it."""
    kind = kind_of(line)
    if kind is None:
        return []
    told = sentences()
    is_whole = in_script and text is not None and PERFORMER.match(text) is None
    why, what = told[line] if is_whole and line in told else told.get(kind, ("", ""))
    said = f"{place}{kind}: {sentence(why, what)}" if why else f"{place}{line}"
    return [*(marked(text, line, in_script) if text is not None else []), said]
