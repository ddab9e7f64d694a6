"""What `tdl play` answers, sends and logs for a script: a plain model, for comparison alone.

It knows the patterns that are flat texts (names and rests that share each cycle evenly), and every other line that a
performer may say; of the lines that are refused for their text it knows those of REFUSED. A step `midi` is a note.

A text is bytes. A time is a Fraction, in cycles. A packet is its time tag and its messages; notes are bytes of MIDI.
"""
import math
import re
from fractions import Fraction
from typing import NamedTuple

UNIT = Fraction(1, 46080)
LAST_CYCLE = 2**20
MOST_INPUT = 2**24
MOST_SWAPS = 16384
MOST_PIECES = 1024
LONGEST = 2048
ORBITS = range(1, 17)
CYCLES_A_SECOND = Fraction(9, 16)
ORIGIN = 2208988800
MIDI = "midi"
# middle C on the first channel, struck and let go
NOTE_ON, NOTE_OFF = bytes([0x90, 60, 64]), bytes([0x80, 60, 64])

FRACTION = re.compile(rb"(-?[0-9]{1,25})(?:/([0-9]{1,14}))?")
NAME = re.compile(rb"[A-Za-z0-9][A-Za-z0-9_]{0,31}|_[A-Za-z0-9_]{1,31}")
NUMBER = re.compile(rb"[0-9]+")
BEFORE_TIME = b"tick "
PERFORMED = re.compile(rb"p([1-8]) (.*)", re.DOTALL)
# A comment, and the blanks before it.
COMMENT = rb"(?: *--.*)?"
NOTHING = re.compile(rb" *" + COMMENT, re.DOTALL)
BARE = re.compile(rb" *(look|hush|unmuteAll|unsoloAll) *" + COMMENT)
FLAG = re.compile(rb" *(mute|unmute|solo|unsolo) +([0-9]+) *" + COMMENT)
SET = re.compile(rb' *(?:d([0-9]+)|jumpMod +([0-9]+) +([0-9]+)) *(?:[$] *s(?:ound)? *"([^"]*)"|(?:[$] *)?silence) *' + COMMENT)

# Lines of a performer that are refused for their text.
REFUSED = {
    b"d1": "Unexpected 2",
    b'd1 $ s "bd': "Unclosed 7",
    b'd1 $ s bd"': "Unclosed 9",
    b'd1 $ s "': "Unclosed 7",
    b"d1 $ s bd": "UnknownName 7",
    b"d1 $ s 'bd'": "UnknownSign 7",
    b'd1 $ s "bd""': "Unclosed 11",
    b'd1 $ s ""bd"': "Unclosed 11",
    b'd1 $ s "bd" sn"': "Unclosed 14",
    b'd1 $ s "bd?"': "Random 10",
    b'd1 $ s "bd\tsn"': "UnknownSign 10",
    b'd1 $ s "_"': "Unexpected 8",
    b'd1 $ s "1_2"': "UnknownSign 8",
    b'd1 $ s "-"': "UnknownSign 8",
    b'd1 $ s "bd."': "UnknownSign 10",
    'd1 $ s "é"'.encode(): "NotAscii 8",
    'd1 $ s "bd ü"'.encode(): "NotAscii 11",
    b'd1 $ s "\xc3"': "NotAscii 8",
    b'd1 $ s "bd\0"': "UnknownSign 10",
    b'd1 $ s "bd\xff"': "NotAscii 10",
    b'd1 $ s "bd"\0': "UnknownSign 11",
    b'd1 $ s "b\rd"': "UnknownSign 9",
    b'd1 $ s "bd"\r': "UnknownSign 11",
    b"d0 $ silence": "BadOrbit 0",
    b"d17 $ silence": "BadOrbit 0",
    b"mute 17": "BadOrbit 5",
    b"jumpMod 1 0 $ silence": "BadEvery 10",
    b"jumpMod 1 4097 $ silence": "BadEvery 10",
    b'd1 $ s "bd*512*256"': "TooDense 131329",
    b"d1 $ degradeBy 0.5 $ silence": "Random 5",
    b"foo": "UnknownName 0",
    b"mute": "Unexpected 4",
    b"look 1": "Unexpected 5",
    b"finish": "UnknownName 0",
    b'd1 $ s "%s"' % (b"x" * 33): "WordTooLong 8",
    b'd1 $ s "bd %s"' % (b"x" * 33): "WordTooLong 11",
    b'd1 $ s "%s"' % (b"0" * 33): "Unexpected 8",
}


class Answer(NamedTuple):
    """The reply to a line, and the packets and notes sent before it."""

    reply: str
    packets: list
    notes: list


class Played(NamedTuple):
    """What a script gives: an answer for each line that is looked at, the last line, the status, and the log."""

    answers: list
    end: str
    status: int
    log: bytes

    def output(self):
        return "".join(f"{it}\n" for it in [*(it.reply for it in self.answers), self.end]).encode()

    def packets(self):
        return [packet for answer in self.answers for packet in answer.packets]

    def midi(self):
        return b"".join(note for answer in self.answers for note in answer.notes)


def play(script):
    """The run of a script whose input, output, wires and log do not fail."""
    player = Player()
    answers = []
    for line in lines(script):
        answers.append(player.answer(line))
        if player.is_finished:
            break
    packets, notes = sum(len(it.packets) for it in answers), sum(len(it.notes) for it in answers)
    entries = len(player.entries)
    end = f"end {player.frontier} entries {entries} osc {packets} midi {notes}"
    is_over = player.is_finished or len(script) <= MOST_INPUT
    port = "finish" if player.is_finished else "eof" if is_over else "spent"
    log = [f"{at} {it}" for at, it in enumerate(player.entries)]
    log = ["tidal-log 1", "cps 9/16", f"origin {ORIGIN}", *log, f"port 0 {port}", f"end {entries}"]
    return Played(answers, end, 0 if is_over else 6, "".join(f"{it}\n" for it in log).encode())


def lines(script):
    """The lines of a script, without line feeds and without one carriage return before each.

    A last piece without its line feed is a line only where the whole script was taken.
    """
    *found, last = script[:MOST_INPUT].split(b"\n")
    if last and len(script) <= MOST_INPUT:
        found.append(last)
    return [it.removesuffix(b"\r") for it in found]


def fraction(text):
    """The number that a text writes, or None."""
    form = FRACTION.fullmatch(text)
    if not form or int(form[2] or 1) == 0:
        return None
    value = Fraction(int(form[1]), int(form[2] or 1))
    return value if value.denominator <= 2**44 and abs(value) <= 2**36 else None


def steps(text):
    """The steps of a flat text, None for a rest. Another text is not modelled."""
    pieces = [it for it in text.split(b" ") if it]
    is_flat = len(pieces) <= MOST_PIECES and all(it == b"~" or NAME.fullmatch(it) for it in pieces)
    # digits with an underscore and no letter are no name
    if not is_flat or any(b"_" in it and not re.search(rb"[A-Za-z]", it) for it in pieces):
        raise NotImplementedError(f"no flat text: {text[:100]}")
    return [None if it == b"~" else it.decode() for it in pieces]


def orbit_of(text):
    if int(text) not in ORBITS:
        raise NotImplementedError(f"no orbit: {text}")
    return int(text)


def packet(orbit, onset, length, name):
    """The packet of a step: its onset as a time tag, and its length in microseconds."""
    timetag = (ORIGIN * 2**32 + math.floor(onset * 2**32 / CYCLES_A_SECOND)) % 2**64
    delta = min(2**31 - 1, math.floor(10**6 * length / CYCLES_A_SECOND))
    return timetag, [("/dirt/play", ["cycle", math.floor(onset), "delta", delta, "orbit", orbit - 1, "s", name])]


class Desk:
    """What plays on the orbits, and which of them are muted or soloed."""

    def __init__(self):
        self.patterns, self.muted, self.soloed = {}, set(), set()

    def change(self, word, orbit, pattern):
        if word == b"set":
            self.patterns[orbit] = pattern
        elif word == b"hush":
            self.patterns = {}
        elif word in (b"mute", b"solo"):
            (self.muted if word == b"mute" else self.soloed).add(orbit)
        elif word in (b"unmute", b"unsolo"):
            (self.muted if word == b"unmute" else self.soloed).discard(orbit)
        else:
            (self.muted if word == b"unmuteAll" else self.soloed).clear()

    def playing(self):
        """The orbits that are heard and have a pattern."""
        return [it for it in sorted(self.patterns) if (it in self.soloed if self.soloed else it not in self.muted)]


class Player:
    """The state of a run: the frontier, the entries as the log has them, each change with its boundary, and the ends of
    the notes that sound."""

    def __init__(self):
        self.frontier = Fraction(0)
        self.entries = []
        self.said = 0
        self.changes = []
        self.ends = []
        self.is_finished = False

    def answer(self, line):
        """The answer to a line."""
        if len(line) > LONGEST:
            return Answer(f"refused LineTooLong {LONGEST}", [], [])
        if line.startswith(BEFORE_TIME):
            return self.tick(line.removeprefix(BEFORE_TIME))
        performed = PERFORMED.fullmatch(line)
        if performed:
            return Answer(self.performed(int(performed[1]), performed[2]), [], [])
        return self.finish() if line == b"finish" else Answer("refused Unexpected 0", [], [])

    def performed(self, who, line):
        """The reply to what a performer says."""
        if line in REFUSED:
            return f"refused {REFUSED[line]}"
        if NOTHING.fullmatch(line):
            return "skip"
        bare, flag, found = BARE.fullmatch(line), FLAG.fullmatch(line), SET.fullmatch(line)
        if bare and bare[1] == b"look":
            return self.look(who)
        if bare:
            return self.swap(who, line, 1, (bare[1], None, None))
        if flag:
            return self.swap(who, line, 1, (flag[1], orbit_of(flag[2]), None))
        if not found:
            raise NotImplementedError(f"line: {line[:100]}")
        pattern = steps(found[4]) if found[4] is not None else []
        return self.swap(who, line, int(found[3] or 1), (b"set", orbit_of(found[1] or found[2]), pattern))

    def accept(self, who, deed):
        """Takes an entry, and answers its place."""
        self.entries.append(f"{who} {self.frontier} {deed}")
        return len(self.entries) - 1

    def is_full(self):
        return self.said == MOST_SWAPS

    def swap(self, who, line, every, change):
        if self.is_full():
            return f"refused Full {MOST_SWAPS}"
        boundary = math.ceil(self.frontier / every) * every
        self.changes.append((boundary, change))
        self.said += 1
        return f"at {boundary} place {self.accept(who, f'swap {boundary} ' + line.strip(b' ').decode())}"

    def look(self, who):
        if self.is_full():
            return f"refused Full {MOST_SWAPS}"
        self.said += 1
        desk = self.desk(math.floor(self.frontier))
        playing, muted, soloed = (",".join(map(str, sorted(it))) or "-" for it in (desk.playing(), desk.muted, desk.soloed))
        return f"desk {self.frontier} playing {playing} muted {muted} soloed {soloed} place {self.accept(who, 'look')}"

    def tick(self, text):
        to = fraction(text)
        refusal = self.refusal(to)
        if refusal:
            return Answer(f"refused {refusal}", [], [])
        onsets = self.onsets(to)
        packets = [packet(orbit, onset, length, name) for onset, orbit, length, name in onsets if name != MIDI]
        notes = self.notes([(onset, onset + length) for onset, _, length, name in onsets if name == MIDI], to)
        self.accept(0, f"tick {to}")
        self.frontier = to
        return Answer(f"tick {to} osc {len(packets)} midi {len(notes)}", packets, notes)

    def finish(self):
        """All notes that sound end at once."""
        notes = [NOTE_OFF] * len(self.ends)
        self.accept(0, "finish")
        self.is_finished = True
        return Answer(f"finish {self.frontier} midi {len(notes)}", [], notes)

    def notes(self, begun, to):
        """The notes of the steps that begin from the frontier on and before a time: at one time what ends comes first."""
        self.ends += [stop for _, stop in begun]
        marks = [(onset, 1) for onset, _ in begun] + [(it, 0) for it in self.ends if it < to]
        self.ends = [it for it in self.ends if it >= to]
        return [NOTE_ON if is_on else NOTE_OFF for _, is_on in sorted(marks)]

    def refusal(self, to):
        """Why there is no tick to this time, or None."""
        if to is None or to < 0:
            return "BadFraction 5"
        if to % UNIT != 0:
            return "OffGrid 5"
        if to > LAST_CYCLE:
            return f"PastLast {self.frontier}"
        if to <= self.frontier:
            return f"Backward {self.frontier}"
        return f"TooLong {self.frontier}" if to > self.frontier + 1 else None

    def onsets(self, to):
        """The steps that begin from the frontier on and before a time, each with its orbit and length: by time, then by orbit."""
        found = []
        for cycle in range(math.floor(self.frontier), math.ceil(to)):
            desk = self.desk(cycle)
            for orbit in desk.playing():
                names = desk.patterns[orbit]
                found += [(cycle + Fraction(at, len(names)), orbit, Fraction(1, len(names)), it) for at, it in enumerate(names) if it]
        return sorted((it for it in found if self.frontier <= it[0] < to), key=lambda it: it[:2])

    def desk(self, cycle):
        """The desk of a cycle: each change whose boundary is at most the cycle, in the order in which they were said."""
        desk = Desk()
        for boundary, change in self.changes:
            if boundary <= cycle:
                desk.change(*change)
        return desk
