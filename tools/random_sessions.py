"""Random scripts of `tdl play`: eight performers on sixteen orbits, with ticks, and a few lines that are refused.

The same seed gives the same script. So many of the patterns as are asked for are of MIDI notes.
"""
import random
import re
from fractions import Fraction

from line_names import FLAGS
from random_expressions import broken, expression, fun, quoted, value

UNITS = 46080
# lengths of ticks, in units
STEPS = [1, 7, 720, 2304, 5760, 11520, 15360, 23040, 23040, 30720, 46079, 46080]
# times that are refused at any frontier below the last cycle
BAD_TIMES = ["1/7", "", "x", "1.5", "-1", " 1", "1 ", "1048577", "0", "1/0"]
# lines that are refused, or that do nothing
ODD_LINES = [
    "", "look", "p1", "p1 ", "p3  ", "p0 look", "p9 look", "p01 look", "P1 look", "p1 looks", "tick", "Tick 1", " tick 1", "p1 d17 $ silence",
    "p2 d0 silence", "p4 d1 $ s \"bd?\"", "p5 d2 $ n \"1.5\"", "p6 jumpMod 1 0 $ silence", "p7 jumpMod 3 4097 $ silence", "p8 mute 17",
    "p2 d3 $ s \"bd", "p1 d1 $ foo", "p3 -- a note of a performer", "p4 d1 $ s \"bd*512*256\"", "p5 d1 $ s \"é\"", "hush", "d1 $ s \"bd\"",
]
# a number that is not whole after a key of words, where the two programs are known to differ (docs/DECISIONS.md)
KNOWN = re.compile(r"\b(s|sound|vowel|unit) \(?-?\d+[.%]")
# texts of notes: chords, notes longer than their cycles, equal ones, and a few that are out of range
CHORDS = ["0,4,7", "[0,4,7]*2", "<[0,3,7] [-5,0,4]>", "c e g4, c6", "0 [4,7] ~ [4,4]", "[0,0] [12,12,0]", "[0 . 7 ~ 3, 5]*<1 2>"]
LONG = ["0/3", "<0 4>/2", "[0 7]/4", "0 4/5 7", "0 _ _ 4/3", "{0 4 7}%2", "0/2, 7/3", "[-12,0]/3 5*3", "12/8"]
ODD_NOTES = ["-61 -60 67 68", "127 0", "0 100", "-100 ~ 67", "2147483647 0"]
CHANNELS = ["0", "1 2", "<3 9>", "15 0*3", "-1 0 15 16", "0(3,8)"]
VELOCITIES = ["64", "1 127", "<100 40 90>", "0 1 127 128", "80*4 -3"]
# what makes of notes more of them, or longer ones
OVER = [
    "slow 2", "slow 3", "slow 5", "slow \"<1 4>\"", "slow 1.5", "superimpose id", "superimpose (slow 3)", "off 0.125 (|+ note 12)",
    "off 0.25 (# s \"midi\")", "ply 2", "ply \"<1 3>\"", "every 2 (slow 4)", "superimpose (0.25 ~>)", "jux rev", "rev", "iter 4",
    "segment 3", "fast 2", "within (0, 0.5) (slow 2)", "struct \"t(3,8)\"", "rotR 0.5", "palindrome",
]
# patterns that seldom sound, and the cycles that changes wait for
SELDOM = ["s \"bd/4\"", "n \"0 3/8\" # s \"midi\"", "s \"bd(3,8)/8\"", "silence", "every 3 (fast 2) $ s \"sn/8\""]
AHEAD = [1, 2, 3, 8, 64, 100, 1000, 4095, 4096]


class Session:
    """Makes lines, one after another. It keeps the place that ticks have come to, in units."""

    def __init__(self, seed, midi=0.0):
        self.source = random.Random(seed)
        self.frontier = 0
        self.midi = midi

    def line(self):
        choice = self.source.random()
        if choice < 0.42:
            return self.tick()
        if choice < 0.46:
            return "tick " + self.refused_time()
        if choice < 0.5:
            return self.source.choice(ODD_LINES)
        return f"p{self.source.randint(1, 8)} {self.performed()}"

    def tick(self):
        step = self.source.choice([*STEPS, self.source.randint(1, UNITS)])
        if self.source.random() < 0.2:
            step = UNITS - self.frontier % UNITS
        self.frontier += step
        return f"tick {Fraction(self.frontier, UNITS)}"

    def refused_time(self):
        frontier = Fraction(self.frontier, UNITS)
        return self.source.choice([*BAD_TIMES, str(frontier), str(frontier + 1 + Fraction(1, UNITS)), str(frontier / 2)])

    def performed(self):
        """What a performer says."""
        source = self.source
        choice, orbit = source.random(), source.randint(1, 16)
        if choice < 0.1:
            return "look"
        if choice < 0.28:
            return f"{source.choice(['mute', 'mute', 'unmute', 'unmute', 'solo', 'unsolo', 'unsolo'])} {orbit}"
        if choice < 0.35:
            return source.choice(["hush", "unmuteAll", "unsoloAll", "unsoloAll"])
        if choice < 0.4:
            return f"d{orbit} {source.choice(['silence', '$ silence'])}"
        pattern = self.pattern()
        if choice < 0.55:
            return f"jumpMod {orbit} {source.choice([1, 2, 2, 3, 4, 8])} $ {pattern}"
        text = f"d{orbit} $ {pattern}"
        if source.random() < 0.08:
            damaged = broken(source, text)
            return text if KNOWN.search(damaged) else damaged
        return text

    def pattern(self):
        """Any expression, and as often one of a sound that a function or two may change."""
        source = self.source
        if self.midi and source.random() < self.midi:
            return self.notes()
        if source.random() < 0.4:
            return expression(source, source.choice([0, 0, 1, 1, 2]))
        front = "".join(fun(source, source.choice([0, 1])) + " $ " for _ in range(source.choice([0, 1, 1, 2])))
        key = source.choice(["n", "note", "pan", "speed", "gain", "cut", "room", "vowel"])
        back = source.choice(["", f" # {key} {value(source, key)}", f" |+ n {value(source, 'n')}"])
        return f"{front}s {quoted(source, 'sound')}{back}"


    def notes(self):
        """A pattern of MIDI notes: mostly chords and long ones, sometimes with channels and velocities, or beside a sound."""
        source = self.source
        choice = source.random()
        if choice < 0.06:
            return source.choice(["s \"midi\"", "s \"midi bd\"", "sound \"<midi sn>*4\" # n \"0 .. 3\"", "s \"midi:7 midi/3\""])
        texts = source.choice([CHORDS, CHORDS, LONG, LONG, LONG, ODD_NOTES])
        found = f"{source.choice(['note', 'note', 'n'])} \"{source.choice(texts)}\" # s \"midi\""
        if source.random() < 0.4:
            found += f" # midichan \"{source.choice(CHANNELS)}\""
        if source.random() < 0.4:
            found += f" # velocity \"{source.choice(VELOCITIES)}\""
        if choice < 0.16:
            found = f"stack [{found}, {found}]"
        elif choice < 0.24:
            found = f"stack [s {quoted(source, 'sound')}, {found}]"
        elif choice < 0.3:
            found = f"cat [{found}, note {quoted(source, 'note')} # s \"midi\"]"
        front = "".join(f"{source.choice([*OVER, fun(source, 0)])} $ " for _ in range(source.choice([0, 1, 1, 2])))
        return front + found


def session(seed, count, midi=0.0, finish=False):
    """A script of so many lines, without line feeds, and perhaps the finish with a few lines after it. A few lines end with
    a carriage return."""
    found = Session(seed, midi)
    lines = [found.line() + ("\r" if found.source.random() < 0.02 else "") for _ in range(count)]
    return [*lines, "finish", *(found.line() for _ in range(found.source.randint(0, 3)))] if finish else lines


def waiting(seed, changes=16_000, cycles=4_300):
    """A script of so many changes and looks, most of which wait for a multiple of up to 4,096 cycles, with some ticks
    between them and so many cycles after; each second script ends with the finish."""
    source, frontier, lines = random.Random(seed), UNITS // 3, ["tick 1/3"]
    for _ in range(changes):
        orbit, choice = source.randint(1, 16), source.random()
        ahead = f"jumpMod {orbit} {source.choice([*AHEAD, source.randint(1, 4096)])} $ {source.choice(SELDOM)}"
        others = [f"d{orbit} $ s \"hh/16\"", f"{source.choice(FLAGS)} {orbit}", "look"]
        lines.append(f"p{source.randint(1, 8)} {ahead if choice < 0.8 else source.choice(others) if choice < 0.999 else 'hush'}")
        if source.random() < 0.1:
            frontier += source.choice([UNITS // 2, UNITS])
            lines.append(f"tick {Fraction(frontier, UNITS)}")
    lines += [f"tick {Fraction(frontier + UNITS * it, UNITS)}" for it in range(1, cycles + 1)]
    return lines + ["finish"] * (seed % 2)
