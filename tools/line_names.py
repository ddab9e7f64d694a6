"""The names of performers' lines and expressions, and what is written after each.

Random texts are made of them. tests/names.py compares them with the names that the program reads and with
docs/GUIDE.md. A new name goes to the end of its list: random texts of a seed go by the order.
"""
# The kind of each key's texts.
KEYS = {
    **dict.fromkeys(["accelerate", "attack", "bandf", "begin", "channel", "crush", "cut", "cutoff", "delay", "end", "gain", "hold"], "int"),
    **dict.fromkeys(["legato", "midichan"], "int"), **dict.fromkeys(["n", "note"], "note"),
    **dict.fromkeys(["pan", "release", "room"], "int"), **dict.fromkeys(["s", "sound"], "sound"),
    "speed": "int", "unit": "word", "velocity": "int", "vowel": "word",
}
# What each function takes before the pattern, in order.
FUNCTIONS = {
    **dict.fromkeys(["rev", "palindrome", "brak", "id"], ()),
    **dict.fromkeys(["fast", "slow", "rotL", "rotR"], ("ratio",)),
    "every": ("count", "function"),
    **dict.fromkeys(["every'", "whenmod"], ("count", "count", "function")),
    "off": ("ratio", "function"),
    **dict.fromkeys(["superimpose", "jux"], ("function",)),
    **dict.fromkeys(["ply", "segment"], ("count",)),
    **dict.fromkeys(["struct", "mask"], ("bools",)),
    "within": ("bounds", "function"),
    "iter": ("count",),
    "euclid": ("count", "count"),
    "euclidOff": ("count", "count", "count"),
    "const": ("operand",),
}
# Functions that may stand as arguments without brackets.
BARE = [name for name, takes in FUNCTIONS.items() if not takes]
# Of patterns in square brackets; those of `timecat` have weights.
LISTS = ["stack", "cat", "fastcat"]
WEIGHED = ["timecat"]
# Lines that are one name, and those of a name and an orbit.
ORDERS = ["look", "hush", "unmuteAll", "unsoloAll"]
FLAGS = ["mute", "unmute", "solo", "unsolo"]
OTHERS = ["jumpMod", "silence"]
# Names of TidalCycles that choose by chance, which are refused.
RANDOM = [
    "rand", "irand", "choose", "wchoose", "randcat", "wrandcat", "degrade", "degradeBy", "unDegradeBy", "sometimes", "sometimesBy",
    "often", "rarely", "almostNever", "almostAlways", "somecycles", "somecyclesBy", "shuffle", "scramble",
]
OPERATORS = ["#", "|+|", "|+", "+|", "|-|", "|-", "-|", "|*|", "|*", "*|"]
