"""Scripts of `tdl play`: worked ones with what they give, and ones that the model of tests/model.py answers."""
import math
from fractions import Fraction

from model import LONGEST, MOST_INPUT, MOST_SWAPS, REFUSED, UNIT, Player


def script(*given):
    """A script of these lines, texts or bytes, each with its line feed."""
    return b"".join((it if isinstance(it, bytes) else it.encode()) + b"\n" for it in given)


def swap(pattern):
    return f'p1 d1 $ s "{pattern}"'


def ticks(places):
    return [f"tick {it}" for it in places]


def steady(count, step, begin=0):
    """The places of ticks of one length."""
    return [begin + it * step for it in range(1, count + 1)]


def sounds(*given):
    """Packets of cycles, time tags in seconds and their parts from 1970 on, microseconds and names."""
    return [
        ((0x83AA7E80 + seconds) << 32 | part, [("/dirt/play", ["cycle", cycle, "delta", delta, "orbit", 0, "s", name])])
        for cycle, seconds, part, delta, name in given
    ]


# The script, the lines of its output, and its packets.
WORKED = {
    "a swap in the second cycle": (
        script("tick 1/2", "tick 1", swap("bd"), "tick 2"),
        ["tick 1/2 osc 0 midi 0", "tick 1 osc 0 midi 0", "at 1 place 2", "tick 2 osc 1 midi 0"]
        + ["end 2 entries 4 osc 1 midi 0"],
        sounds((1, 1, 0xC71C71C7, 1777777, "bd")),
    ),
    "twenty ticks before it": (
        script(*ticks(steady(20, Fraction(1, 20))), swap("bd"), "tick 2"),
        [f"tick {Fraction(it, 20)} osc 0 midi 0" for it in range(1, 21)]
        + ["at 1 place 20", "tick 2 osc 1 midi 0", "end 2 entries 22 osc 1 midi 0"],
        sounds((1, 1, 0xC71C71C7, 1777777, "bd")),
    ),
    "two steps": (
        script(swap("bd sn"), "tick 1"),
        ["at 0 place 0", "tick 1 osc 2 midi 0", "end 1 entries 2 osc 2 midi 0"],
        sounds((0, 0, 0, 888888, "bd"), (0, 0, 0xE38E38E3, 888888, "sn")),
    ),
    "refused ticks": (
        script(*ticks(["1/2", "1/2", "2", "1048577", "1/7", "3/2"])),
        ["tick 1/2 osc 0 midi 0", "refused Backward 1/2", "refused TooLong 1/2", "refused PastLast 1/2"]
        + ["refused OffGrid 5", "tick 3/2 osc 0 midi 0", "end 3/2 entries 2 osc 0 midi 0"],
        [],
    ),
    "an empty script": (b"", ["end 0 entries 0 osc 0 midi 0"], []),
    "a last line without a line feed": (
        swap("bd").encode() + b"\ntick 1",
        ["at 0 place 0", "tick 1 osc 1 midi 0", "end 1 entries 2 osc 1 midi 0"],
        sounds((0, 0, 0, 1777777, "bd")),
    ),
    "carriage returns": (
        swap("bd").encode() + b"\r\ntick 1/2\r\r\n\r\n\rtick 1\ntick 1\r",
        ["at 0 place 0", "refused BadFraction 5", "refused Unexpected 0", "refused Unexpected 0", "tick 1 osc 1 midi 0"]
        + ["end 1 entries 2 osc 1 midi 0"],
        sounds((0, 0, 0, 1777777, "bd")),
    ),
    "a last piece of one carriage return": (b"\r", ["refused Unexpected 0", "end 0 entries 0 osc 0 midi 0"], []),
    "a blank line": (b"\n", ["refused Unexpected 0", "end 0 entries 0 osc 0 midi 0"], []),
    "swaps that wait for their cycle": (
        script(swap("bd bd"), "tick 1/4", swap("sn sn"), "tick 3/4", swap("cp"), "tick 1", swap("hh hh"), "tick 3/2"),
        ["at 0 place 0", "tick 1/4 osc 1 midi 0", "at 1 place 2", "tick 3/4 osc 1 midi 0", "at 1 place 4"]
        + ["tick 1 osc 0 midi 0", "at 1 place 6", "tick 3/2 osc 1 midi 0", "end 3/2 entries 8 osc 3 midi 0"],
        sounds((0, 0, 0, 888888, "bd"), (0, 0, 0xE38E38E3, 888888, "bd"), (1, 1, 0xC71C71C7, 888888, "hh")),
    ),
}

# Words of a tick, after its blank.
TIMES = [
    *("", " 1", "1 ", "1  ", "-", "x", "1/", "/2", "1/0", "0/0", "1.5", "1e0", "+1", "1%2", "0x1", "1/2/2", "1/-2", "--1"),
    *("-0", "-0/5", "0", "0/7", "-1", "-1/46080", "1/7", "1/46081", "1/46079", "3/92160", "1048577", "68719476736"),
    *("68719476737", "-68719476737", "9" * 25, "9" * 26, "1".zfill(26), "1/" + "1".zfill(15)),
    *("1/17592186044416", "1/17592186044417", "2/35184372088832", "2/35184372088834", "1/99999999999999"),
    *("1048576", "9437185/9", "48318382080/46080", "48318382081/46080", "46081/46080", "3/2", "2"),
    *("1/46080", "2/92160", "1/23040", "1".zfill(25) + "/" + "2".zfill(14), "1/2", "46080/46080", "92159/46080", "2"),
]

# Lines that are no lines of a script, and a few that look like these.
ODD_LINES = [
    *("", "tick", "tick\t1", " tick 1", "Tick 1", "ticktick 1", "t", "look", "Finish", "finish ", "hush", "play", "skip"),
    *("p1", "p12", "p", "p 1", 'd1 $ s "bd"', "# tick 1", "-- tick 1", 'p0 d1 $ s "bd"', 'p01 d1 $ s "bd"', "p9 look", 'P1 d1 $ s "bd"'),
    *("finish 1", " finish", "finish\r\r", "p9 finish", "finishfinish"),
    *('p1\td1 $ s "bd"', "p1-- a comment", ' p1 d1 $ s "bd"', "ü", "tick 1 -- a comment"),
    *(b"\0", b"tick 1\0", b"tick\0 1", b"tick \xff", b"\xff\xfe", b"\x80", b"\xef\xbb\xbftick 1", b"tick 1\r\r", b"p1\xa0look"),
    *(b"tick 1\x0b", b"tick \xc2\xb2", b"tick 1\x0c", b"tick\xc2\xa01", b"\x1a", b"\x04"),
]

# What a performer says that is not refused.
SAID = [
    *("", "  ", "-- a comment", "  -- tick 1", "look", " look ", "look -- at all", "hush", "unmuteAll", "unsoloAll -- all"),
    *("mute 1", "mute  16", "unmute 01", "solo 2", "unsolo 002", "d1 silence", "d1 $ silence", "d1   silence", "d16 silence -- rest"),
    *('d2 $ s "bd"', 'd01 $ s "bd"', ' d1 $ s "bd"', 'd1  $ s "bd"', 'd1 $  s "bd"', 'd1 $ s  "bd"', 'd1 $ s"bd"', 'd1 $s "bd"'),
    *('d1$ s "bd"', 'd1$s"bd"', 'd1 $ s "bd" ', 'd1 $ sound "bd"', 'd3 $ s ""', 'd4 $ s "808 01"', 'd5 $ s "bd sn" -- a "text"'),
    *('jumpMod 1 8 $ s "bd"', "jumpMod 02 4096 $ silence", 'jumpMod  3  1  $  s  "hh ~"'),
]


def said(lines, performers="12345678"):
    """The lines, each of the next performer."""
    lines = [it if isinstance(it, bytes) else it.encode() for it in lines]
    return [f"p{performers[at % len(performers)]} ".encode() + it for at, it in enumerate(lines)]


# Patterns that are played for a cycle each.
PATTERNS = [
    *("", " ", "~", "~ ~", "bd", " bd", "bd ", "  bd   sn ", "bd ~ sn", "~ bd ~ ~", "a_1 _b 1C 0x", "bd " * 16),
    *("x" * 32, "0" * 31 + "x", "0" * 32, "_" * 31 + "Z", "AZaz09_".ljust(32, "9"), "808", "00 1"),
    " ".join("n" * it for it in range(1, 33)),
    " ".join(("A" + "0" * it)[:32] for it in range(40)),
    " ".join(str(it) + "x" for it in range(7)),
]


def long_lines():
    """Lines of as many bytes as are read, and of one and more beyond."""
    fronts = [swap("bd ~ sn"), "p2 look", "p1 -- ", "p3", "tick", "tick 1 ", "p4 jumpMod 2 2 $ silence"]
    found = [it.ljust(count, " ") for it in fronts for count in (LONGEST - 1, LONGEST, LONGEST + 1, 3000, 100000)]
    found += [swap(" ".join(["a~"[it % 3 == 1] for it in range(count)])) for count in (1017, 1018, 1019)]
    return [*found, swap("bd".ljust(LONGEST - 12)), swap("bd".ljust(LONGEST - 11)), "é" * (LONGEST // 2), "é" * (LONGEST // 2 + 1)]


def each_in_its_cycle(patterns):
    """Swaps with a tick of a cycle after each."""
    return [it for at, pattern in enumerate(patterns, 1) for it in (swap(pattern), f"tick {at}")]


def one_sound(pieces):
    """So many pieces, all but one of them rests."""
    return " ".join("bd" if it == pieces * 7 // 10 else "~" for it in range(pieces))


def cuts():
    """Scripts with the same swaps at the same places and other ticks between them."""
    places = [Fraction(1, 3), Fraction(1, 2), Fraction(1), Fraction(9, 4), Fraction(4)]
    patterns = ["bd sn cp", "hh ~ hh hh hh", "bd " * 16, "~ lt", "a b c d e f g"]
    for longest in (Fraction(1), Fraction(1, 2), Fraction(1, 7) // UNIT * UNIT, Fraction(1, 20), Fraction(1, 90)):
        given, begin = [], Fraction(0)
        for place, pattern in zip(places, patterns):
            parts = math.ceil((place - begin) / longest)
            inner = steady(parts - 1, longest, begin)
            given += [*ticks([*inner, place]), swap(pattern)]
            begin = place
        yield script(*given, *ticks([Fraction(9, 2), 5]))


def exactly_full():
    """A script of as many bytes as are read, whose last line has no line feed."""
    front, back = script(swap("bd"), "tick 1"), b"\ntick 2"
    return front + b"x" * (MOST_INPUT - len(front) - len(back)) + back


def full_lines():
    """A script of as many bytes as are read, that ends with a line feed."""
    return exactly_full().replace(b"x\ntick 2", b"\ntick 2\n")


class Random:
    """A fixed generator of pseudo-random numbers."""

    def __init__(self, seed):
        self.state = seed

    def below(self, count):
        self.state = (self.state * 6364136223846793005 + 1442695040888963407) % 2**64
        return (self.state >> 33) % count

    def one_of(self, items):
        return items[self.below(len(items))]


def mixed(seed, count):
    """A script of so many lines, good and bad, whose ticks follow the model's frontier."""
    random, player, given = Random(seed), Player(), b""
    for _ in range(count):
        line = mixed_line(random, player)
        player.answer(line)
        given += line + random.one_of([b"\n", b"\n", b"\n", b"\r\n"])
    return given


def mixed_line(random, player):
    kind = random.below(10)
    if kind < 4:
        return f"p{1 + random.below(8)} ".encode() + mixed_saying(random)
    if kind < 7:
        step = random.one_of([1, 7, 720, 2304, 15360, 46079, 46080])
        return b"tick " + mixed_fraction(random, player.frontier + step * UNIT)
    if kind == 7:
        return b"tick " + str(player.frontier + random.below(7) - 3 + Fraction(1, 1 + random.below(8))).encode()
    if kind == 8:
        line = random.one_of(ODD_LINES)
        return line if isinstance(line, bytes) else line.encode()
    return damaged(random, f"tick {player.frontier + UNIT}".encode())


def mixed_saying(random):
    """What a performer says: mostly a pattern for an orbit."""
    kind, orbit = random.below(12), 1 + random.below(16)
    if kind == 0:
        return random.one_of(list(REFUSED))
    if kind == 1:
        return random.one_of(SAID).encode()
    if kind < 5:
        return f"{random.one_of(['mute', 'unmute', 'solo', 'unsolo', 'unsolo'])} {orbit}".encode()
    if kind == 5:
        return random.one_of([b"look", b"look", b"hush", b"unmuteAll", b"unsoloAll"])
    where = random.one_of([f"d{orbit}", f"d{orbit}", f"jumpMod {orbit} {random.one_of([1, 2, 3, 4, 8])}"])
    return f'{where} $ s "{mixed_pattern(random)}"'.encode()


def mixed_pattern(random):
    """A flat text, sometimes with blanks more than needed."""
    names = ["bd", "sn", "hh", "~", "~", "midi", "midi", "cp2", "_x", "superpiano", "9lives", "A" * 32]
    blanks = [" ", " ", " ", "  ", "   "]
    pieces = [random.one_of(names) + random.one_of(blanks) for _ in range(random.below(12))]
    return random.one_of(["", "", " "]) + "".join(pieces).removesuffix(" ")


def mixed_fraction(random, value):
    """A text of a time, not always in lowest terms."""
    times = random.one_of([1, 1, 2, 10])
    front = "0" * random.below(3)
    return f"{front}{value.numerator * times}/{value.denominator * times}".encode()


def damaged(random, line):
    """A line with one byte taken out, put in or changed. None becomes a line feed."""
    at, byte = random.below(len(line) + 1), bytes([random.below(256)]).replace(b"\n", b"?")
    return random.one_of([line[:at] + line[at + 1:], line[:at] + byte + line[at:], line[:at] + byte + line[at + 1:]])


# Scripts whose answers the model gives.
MODELLED = {
    "odd ticks": lambda: script(swap("bd"), *ticks(TIMES)),
    "odd ticks within a cycle": lambda: script(swap("bd sn"), "tick 1/2", *ticks(TIMES), swap("hh"), "tick 5/2"),
    "odd lines": lambda: script(*ODD_LINES, swap("bd"), "tick 1"),
    "what performers say": lambda: script(*(it for at, line in enumerate(said(SAID), 1) for it in (line, f"tick {at}/2"))),
    "what is refused of it": lambda: script(swap("bd"), *said(REFUSED), "tick 1", *said(REFUSED, "81"), "p8 look"),
    "each orbit by each performer": lambda: script(
        *(f'p{who} d{orbit} $ s "a{who}x{orbit} b"' for who in range(1, 9) for orbit in range(1, 17)), "tick 1", "p8 look"
    ),
    "patterns": lambda: script(*each_in_its_cycle(PATTERNS)),
    "long lines": lambda: script(*(line for at, it in enumerate(long_lines(), 1) for line in (it, f"tick {at}"))),
    "1 to 1,017 pieces": lambda: script(*each_in_its_cycle(map(one_sound, range(1, 1018)))),
    "1,018 sounds": lambda: script(swap("a " * 1018), "tick 1/4"),
    "a swap in each unit of a cycle's end": lambda: script(
        *(it for n in range(46070, 46091) for it in (swap(f"u{n} u{n}"), f"tick {n}/46080")), "tick 3/2", "tick 2"
    ),
    "more swaps than there is room for": lambda: script(
        *(swap(f"bd{it}") for it in range(MOST_SWAPS)), swap("sn"), "tick 1", "p2 look", "tick 3/2", "p3 hush", "tick 2"
    ),
    "cycles beyond 2^16": lambda: script(
        *ticks(range(1, 2**16 - 3)), swap("bd ~ sn"), *ticks(range(2**16 - 3, 2**16 + 5))
    ),
    "a mixed script of 400 lines": lambda: mixed(1, 400),
    "a mixed script of 1,000 lines": lambda: mixed(2, 1000),
    "notes": lambda: script(*each_in_its_cycle(["midi", "midi midi ~ bd", "bd midi midi", "midi " * 16, "", "midi ~ ~"]), "finish"),
    "notes of each orbit": lambda: script(
        *(f'p1 d{orbit} $ s "midi{" ~" * (orbit % 5)} bd"' for orbit in range(1, 17)), *ticks(["1/4", "1/2"]), "p2 hush", *ticks([1, "3/2"])
    ),
    "a finish alone": lambda: script("finish"),
    "a finish among lines": lambda: script(*ODD_LINES, swap("bd midi"), "tick 1", "finish", swap("sn"), "tick 2", "finish"),
    "a mixed script with a finish within": lambda: mixed(4, 300) + script("finish") + mixed(5, 100),
    "a finish, and 2^24 bytes after it": lambda: script(swap("bd midi"), "tick 1", "finish") + exactly_full(),
    "an input of 2^24 bytes": exactly_full,
    "an input of 2^24 bytes with a last line feed": full_lines,
    "an input of 2^24 + 1 bytes, whose last line is not whole before the last": lambda: exactly_full() + b"\n",
    "lines past 2^24 bytes": lambda: full_lines() + script("tick 3", swap("sn")),
}
