"""What plays on each orbit, worked out from what the run has replied.

The log would say it, but a run puts its log when it has ended. A reply `at CYCLE place PLACE` says from which cycle its
line holds and where it stands in the one history, so what holds in a cycle are the changes whose CYCLE is not above it,
in the order of their places: docs/COMMANDS.md, "play". Replies of several performers may be seen in another order.
"""
import re
from typing import NamedTuple

ORBITS = range(1, 17)
AT = re.compile(rb"at (\d+) place (\d+)\r?\n?")
SET = re.compile(r"(?:d(\d+)|jumpMod +(\d+) +\d+) *(?:\$ *)?(.*)")
FLAG = re.compile(r"(mute|unmute|solo|unsolo) +(\d+)")
ALL = {"hush": ("text", None), "unmuteAll": ("muted", False), "unsoloAll": ("soloed", False)}
# A quoted text, or a comment up to the end.
QUOTED = re.compile(r'"[^"]*"|--.*')


class Change(NamedTuple):
    """What one accepted line sets: from which cycle on, at which place in the history, to what, and who said it."""

    cycle: int
    place: int
    value: object
    who: int


def without_comment(line):
    """A line without the comment behind it, and without the blanks round it."""
    return QUOTED.sub(lambda it: "" if it[0].startswith("--") else it[0], line).strip(" ")


def sets(line):
    """What an accepted line sets: pairs of what, as ("text", 1) or ("muted", 1), and its value."""
    line = without_comment(line)
    if line in ALL:
        what, value = ALL[line]
        return [((what, orbit), value) for orbit in ORBITS]
    if found := FLAG.fullmatch(line):
        return [(("muted" if "mute" in found[1] else "soloed", int(found[2])), not found[1].startswith("un"))]
    if found := SET.fullmatch(line):
        return [(("text", int(found[1] or found[2])), found[3])]
    return []


class Desk:
    """The changes that were accepted, and what they come to in a cycle."""

    def __init__(self):
        self.changes = {(what, orbit): [] for what in ("text", "muted", "soloed") for orbit in ORBITS}

    def take(self, who, line, reply):
        """Takes a line and its reply in. Whether that changes anything."""
        found = AT.fullmatch(reply)
        pairs = sets(re.sub(r"\r?\n?$", "", line.decode(errors="replace"))) if found else []
        for what, value in pairs:
            if what in self.changes:
                self.add(what, Change(int(found[1]), int(found[2]), value, who))
        return bool(pairs)

    def add(self, what, change):
        """Adds a change. One that never holds, since a later one holds from its cycle on or before, is left out."""
        kept = []
        for it in sorted([change, *self.changes[what]], key=lambda it: it.place):
            kept = [other for other in kept if other.cycle < it.cycle] + [it]
        self.changes[what] = kept

    def at(self, what, cycle):
        """The change that holds in a cycle, or None."""
        return next((it for it in reversed(self.changes[what]) if it.cycle <= cycle), None)

    def value(self, what, cycle):
        change = self.at(what, cycle)
        return change.value if change else None

    def heard(self, cycle):
        """The orbits that are heard: those that are soloed, or where none is all that are not muted."""
        soloed = {it for it in ORBITS if self.value(("soloed", it), cycle)}
        return soloed or {it for it in ORBITS if not self.value(("muted", it), cycle)}

    def waits(self, orbit, cycle):
        """What comes later, in the order of cycles: from which cycle on, what, to which value, and who said it."""
        found = [(it.cycle, what, it.value, it.who) for what in ("text", "muted", "soloed") for it in self.changes[(what, orbit)] if it.cycle > cycle]
        return [dict(zip(("cycle", "what", "value", "who"), it)) for it in sorted(found, key=lambda it: it[:2])]

    def shown(self, cycle):
        """What a page shows of each orbit in a cycle."""
        heard = self.heard(cycle)
        for orbit in ORBITS:
            text = self.at(("text", orbit), cycle)
            yield {
                "orbit": orbit, "text": text.value if text else None, "who": text.who if text and text.value is not None else None,
                "muted": bool(self.value(("muted", orbit), cycle)), "soloed": bool(self.value(("soloed", orbit), cycle)),
                "heard": orbit in heard, "waits": self.waits(orbit, cycle),
            }

    def texts(self, cycle):
        """The texts that are heard in a cycle, by orbit."""
        found = {orbit: self.value(("text", orbit), cycle) for orbit in sorted(self.heard(cycle))}
        return {orbit: text for orbit, text in found.items() if text is not None}
