"""Queries: patterns and arcs, and the events or the line that refuses them."""
import json
from fractions import Fraction

from program import TOP


def lines(*events):
    return "".join(f"{it}\n" for it in events)


def halves(cycles):
    names = ["bd", "sn"] * cycles
    ends = [str(n // 2) if n % 2 == 0 else f"{n}/2" for n in range(2 * cycles + 1)]
    return lines(*(f"{a} {b} {a} {b} s={name}" for a, b, name in zip(ends, ends[1:], names)))


# The pattern and the two ends of the arc, and the events.
EVENTS = [
    (["bd sn", "0", "1"], lines("0 1/2 0 1/2 s=bd", "1/2 1 1/2 1 s=sn")),
    # no event
    (["", "0", "1"], ""),
    ([" " * 2048, "0", "1"], ""),
    (["~~", "0", "1"], ""),
    (["~", "0", "1"], ""),
    (["~ ~", "0", "3"], ""),
    (["~ bd", "0", "1/2"], ""),
    # pieces
    (["bd", "0", "1"], lines("0 1 0 1 s=bd")),
    (["  bd   sn ", "0", "1"], halves(1)),
    (["bd ~ sn", "0", "1"], lines("0 1/3 0 1/3 s=bd", "2/3 1 2/3 1 s=sn")),
    (["~ bd ~ ~", "0", "1"], lines("1/4 1/2 1/4 1/2 s=bd")),
    (["a_1 _b 1C", "0", "1"], lines("0 1/3 0 1/3 s=a_1", "1/3 2/3 1/3 2/3 s=_b", "2/3 1 2/3 1 s=1C")),
    (["AZaz09_".ljust(32, "x"), "0", "1"], lines("0 1 0 1 s=" + "AZaz09_".ljust(32, "x"))),
    (["0" * 31 + "x", "0", "1"], lines("0 1 0 1 s=" + "0" * 31 + "x")),
    (["~ " * 1023 + "bd", "0", "1"], lines("1023/1024 1 1023/1024 1 s=bd")),
    (["bd" + " ~" * 1023, "1", "2"], lines("1 1025/1024 1 1025/1024 s=bd")),
    # several cycles, and parts that the arc cuts
    (["bd", "0", "2"], lines("0 1 0 1 s=bd", "1 2 1 2 s=bd")),
    (["bd sn", "0", "2048"], halves(2048)),
    (["bd", "1/2", "5/2"], lines("0 1 1/2 1 s=bd", "1 2 1 2 s=bd", "2 3 2 5/2 s=bd")),
    (["bd sn", "1/4", "5/4"], lines("0 1/2 1/4 1/2 s=bd", "1/2 1 1/2 1 s=sn", "1 3/2 1 5/4 s=bd")),
    (["bd sn hh", "1/2", "3/4"], lines("1/3 2/3 1/2 2/3 s=sn", "2/3 1 2/3 3/4 s=hh")),
    (["bd sn", "1/2", "1"], lines("1/2 1 1/2 1 s=sn")),
    (["bd sn", "0", "1/46080"], lines("0 1/2 0 1/46080 s=bd")),
    (["bd sn", "46079/46080", "1"], lines("1/2 1 46079/46080 1 s=sn")),
    (["bd", "1048575", "1048576"], lines("1048575 1048576 1048575 1048576 s=bd")),
    (["~ sn", "48318382079/46080", "1048576"], lines("2097151/2 1048576 48318382079/46080 1048576 s=sn")),
    # ends that are not in lowest terms, and the longest that are read
    (["bd", "0/5", "46080/46080"], lines("0 1 0 1 s=bd")),
    (["bd", "2/2", "04/02"], lines("1 2 1 2 s=bd")),
    (["bd", "0", "1".zfill(25) + "/" + "1".zfill(14)], lines("0 1 0 1 s=bd")),
    # rates, turns, euclids and brackets
    (["bd*3", "0", "1/2"], lines("0 1/3 0 1/3 s=bd", "1/3 2/3 1/3 1/2 s=bd")),
    (["<bd sn>", "1", "2"], lines("1 2 1 2 s=sn")),
    (["bd*4", "1/4", "1/2"], lines("1/4 1/2 1/4 1/2 s=bd")),
    (["bd/3 sn", "1", "2"], lines("1/2 2 1 3/2 s=bd", "3/2 2 3/2 2 s=sn")),
    (["bd/3 sn", "1", "5/4"], lines("1/2 2 1 5/4 s=bd")),
    (["bd(3,8,2)", "0", "1"], lines("1/8 1/4 1/8 1/4 s=bd", "1/2 5/8 1/2 5/8 s=bd", "3/4 7/8 3/4 7/8 s=bd")),
    (["bd(-3,8)", "0", "1"], lines(*(f"{it} s=bd" for it in ["1/8 1/4 1/8 1/4", "1/4 3/8 1/4 3/8", "1/2 5/8 1/2 5/8", "5/8 3/4 5/8 3/4", "7/8 1 7/8 1"]))),
    (
        ["{bd bd bd, sn cp}", "0", "1"],
        lines(
            *("0 1/3 0 1/3 s=bd", "1/3 2/3 1/3 2/3 s=bd", "2/3 1 2/3 1 s=bd"),
            *("0 1/3 0 1/3 s=sn", "1/3 2/3 1/3 2/3 s=cp", "2/3 1 2/3 1 s=sn"),
        ),
    ),
    (["bd*<2 3>", "1", "2"], lines("1 4/3 1 4/3 s=bd", "4/3 5/3 4/3 5/3 s=bd", "5/3 2 5/3 2 s=bd")),
    (["bd@1.5 sn", "0", "1"], lines("0 3/5 0 3/5 s=bd", "3/5 1 3/5 1 s=sn")),
    (["bd*2", "0", "1"], lines("0 1/2 0 1/2 s=bd", "1/2 1 1/2 1 s=bd")),
    (["<bd sn>*<2 3>", "3/4", "3/2"], lines("1/2 1 3/4 1 s=sn", "1 4/3 1 4/3 s=sn", "4/3 5/3 4/3 3/2 s=bd")),
    # expressions
    (
        ['s "bd*2 sn" # n "<1 2>"', "0", "2"],
        lines(
            *("0 1/4 0 1/4 n=1 s=bd", "1/4 1/2 1/4 1/2 n=1 s=bd", "1/2 1 1/2 1 n=1 s=sn"),
            *("1 5/4 1 5/4 n=2 s=bd", "5/4 3/2 5/4 3/2 n=2 s=bd", "3/2 2 3/2 2 n=2 s=sn"),
        ),
    ),
    (
        ['every 2 rev $ s "bd sn cp"', "0", "2"],
        lines(
            *("2/3 1 2/3 1 s=bd", "1/3 2/3 1/3 2/3 s=sn", "0 1/3 0 1/3 s=cp"),
            *("1 4/3 1 4/3 s=bd", "4/3 5/3 4/3 5/3 s=sn", "5/3 2 5/3 2 s=cp"),
        ),
    ),
    (['0.25 ~> (s "bd" # pan 1)', "0", "1"], lines("-3/4 1/4 0 1/4 pan=1 s=bd", "1/4 5/4 1/4 1 pan=1 s=bd")),
    (['stack [s "bd", s "hh*2" |+| n 1]', "0", "1"], lines("0 1 0 1 s=bd", "0 1/2 0 1/2 n=1 s=hh", "1/2 1 1/2 1 n=1 s=hh")),
    (['off 0.125 (# speed 2) $ s "bd"', "0", "1"], lines("0 1 0 1 s=bd", "-7/8 1/8 0 1/8 s=bd speed=2", "1/8 9/8 1/8 1 s=bd speed=2")),
    # weights above the cycles to which the pattern reaches
    (["~@0.0001 bd@16383.9999", "0", "1"], lines("1/163840000 1 1/163840000 1 s=bd")),
    (['fast 60 $ s "~@0.0001 bd@16383.9999"', "0", "1/60"], lines("1/9830400000 1/60 1/9830400000 1/60 s=bd")),
    # wholes far outside the arc
    (["bd/65535", "7", "8"], lines("0 65535 7 8 s=bd")),
    (["bd/65535/1024", "1048575", "1048576"], lines("0 67107840 1048575 1048576 s=bd")),
]


def refused(*words):
    return f"refused {' '.join(words)}\n"


# The pattern and the two ends of an arc, and the line that refuses them, by the first reason.
REFUSED = [
    # too long
    *(([it, "0", "1"], refused("LineTooLong", "2048")) for it in [" " * 2049, "x" * 100000, "bd " * 683]),
    (["?" * 2049, "x", "1/7"], refused("LineTooLong", "2048")),
    # no text of the mini-notation
    (["bd?", "0", "1"], refused("Random", "2")),
    (["bd [sn", "0", "1"], refused("Unexpected", "6")),
    (["  bd  [sn hh!", "0", "1"], refused("Unexpected", "13")),
    (["bd(9,8)", "0", "1"], refused("BadEuclid", "6")),
    (["bd!1024 bd", "0", "1"], refused("TooManySteps", "8")),
    (["x" * 33, "0", "1"], refused("WordTooLong", "0")),
    (["bd " + "x" * 33, "0", "1"], refused("WordTooLong", "3")),
    (["_", "0", "1"], refused("Unexpected", "0")),
    *(([it, "0", "1"], refused("UnknownSign", "2")) for it in ["bd\tsn", "bd\n"]),
    *((["bd " + it, "0", "1"], refused("UnknownSign", "3")) for it in ["-", "1_2"]),
    (["é", "0", "1"], refused("NotAscii", "0")),
    (["bd snü 1", "0", "1"], refused("NotAscii", "5")),
    (["é*", "1", "0"], refused("NotAscii", "0")),
    # a pattern that is not read comes before the arc
    (["bd?", "1", "0"], refused("Random", "2")),
    (['foo $ s "bd"', "x", "1"], refused("UnknownName", "0")),
    (['s "bd*2?"', "1", "0"], refused("Random", "7")),
    # no arc of a query
    *((["bd", it, "1"], refused("Fraction", "from")) for it in ["", "-", "x", "0/0", "0.5", "+0", " 0", " -1"]),
    *((["bd", "0", it], refused("Fraction", "to")) for it in ["68719476737", "1".zfill(26), "1/" + "1".zfill(15), "", "-", "x"]),
    *((["bd", "0", it], refused("Fraction", "to")) for it in ["1/", "/2", "1/0", "1.5", "0x1", "+1", " 1", "1 ", "1/2/2", "1/-2"]),
    *((["bd", "0", it], refused("Fraction", "to")) for it in ["1e0", "1%2", "²"]),
    (["bd", "x", "y"], refused("Fraction", "from")),
    (["bd", "x", "0"], refused("Fraction", "from")),
    (["bd*2", "x", "1/7"], refused("Fraction", "from")),
    *((["bd", *it], refused("Order")) for it in [("1", "1"), ("1/2", "2/4"), ("1", "0"), ("1048577", "1048577"), ("1/7", "0")]),
    (["", "1", "0"], refused("Order")),
    *((["bd", *it], refused("Last")) for it in [("1048576", "1048577"), ("1/7", "1048577"), ("0", "48318382081/46080")]),
    *((["bd", *it], refused("TickGrid")) for it in [("0", "1/7"), ("1/7", "1"), ("0", "1/46081")]),
    # bounds
    (["bd*512*256", "0", "1"], refused("TooDense", "131329")),
    (['ply 256 $ ply 256 $ s "bd*4"', "0", "1"], refused("TooDense", "263175")),
    (["bd*16385%16384*16385%16384*16385%16384", "0", "1"], refused("TooFine", "40539818802816000")),
    (["bd*256*300", "0", "1"], refused("TooFar", "80530636800")),
    (["bd*512*256", "0", "1/7"], refused("TickGrid")),
]


def found_elsewhere(name):
    """What another program answers, refusals too: a line of JSON for each query."""
    with open(f"{TOP}/tests/{name}.json", encoding="utf-8") as file:
        rows = [json.loads(line) for line in file]
    return [(row["query"], row["out"], row["status"]) for row in rows]


def last_shares():
    """The events of `[bd*-1]*65535` in the last cycle: their times reach almost as far as a fraction does."""
    ends = [Fraction(65535 * 1048575 + i, 65535) for i in range(65536)]
    return lines(*(f"{a} {b} {a} {b} s=bd" for a, b in zip(ends, ends[1:])))


# The words after `query`, what comes on standard output, and the status.
CASES = [
    *((words, out, 0) for words, out in EVENTS),
    *((words, out, 2) for words, out in REFUSED),
    (["[bd*-1]*65535", "1048575", "1048576"], last_shares(), 0),
    # expressions: each function, operator and way to write a number, each fault, and which refusal comes first
    *found_elsewhere("expressions"),
    # random queries, the arcs of these in pieces, and such as have times near the limits of fractions
    *found_elsewhere("queries"),
    *found_elsewhere("pieces"),
    *found_elsewhere("edges"),
]
