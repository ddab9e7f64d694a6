"""Random performers' lines, good and broken ones."""
import random

from line_names import BARE, FLAGS, FUNCTIONS, KEYS, LISTS, OPERATORS, ORDERS, OTHERS, RANDOM, WEIGHED
from random_texts import VALUES, nest

# Names of the grammar, and words that nearly are.
NAMES = [
    *ORDERS, *FLAGS, *OTHERS, *LISTS, *WEIGHED, *(it for it in FUNCTIONS if it not in BARE),
    "d1", "d2", "d16", "d17", "d0", "d01", "d", "foo", "rev'", "fastcat'", "d1x", "sound", "s", "n", "setcps", "once", "d99999999999",
    *BARE, *RANDOM,
]
STRAY = [
    "$", "(", ")", "[", "]", ",", ".", "/", "-", "--", "<~", "~>", "1", "0", "2.5", "1%2", "1%0", "70000", "65536", "2147483648",
    "0.12345", "3x", "3#", "\"", "\"1\"", "\"bd\"", "\"<1 2>\"", "\"bd?\"", "\"[\"", "\"é\"", "\"\"", "~", "<", ">", "|", "+", "*",
    "!", "é", "\t", "X", "'", "_", "..", "1.", "16384", "4097", "17", ":",
] + OPERATORS


def number(source):
    return source.choice(["0", "1", "2", "3", "4", "8", "0.25", "0.5", "1.5", "1%3", "3%8", "12", "65535"])


def whole(source):
    return source.choice(["1", "2", "3", "4", "5", "8", "16", "0"])


def text(source, kind):
    body = nest(source, kind, 2) if source.random() < 0.5 else source.choice(VALUES[kind] + [""])
    return f'"{body}"'


def plain(source):
    choice = source.random()
    if choice < 0.6:
        return number(source)
    sign = source.choice(["", "-", "- "])
    if choice < 0.8:
        return f"({sign}{number(source)})"
    return f"({sign}{whole(source)}{source.choice(['/', ' / '])}{source.choice(['1', '2', '3', '8'])})"


def ratio(source):
    return text(source, "ratio") if source.random() < 0.2 else plain(source)


def count(source):
    return text(source, "count") if source.random() < 0.2 else whole(source)


def argument(source, depth):
    return source.choice(BARE) if depth > 4 or source.random() < 0.5 else paren(source, depth + 1)


def paren(source, depth):
    choice = source.random()
    if choice < 0.6:
        return f"({fun(source, depth)})"
    if choice < 0.8:
        return f"({source.choice(OPERATORS)} {joined(source, depth + 1)})"
    return f"({ratio(source)} {source.choice(['<~', '~>'])})"


def taken(source, depth, kind):
    """What a function takes, by its kind."""
    if kind == "ratio":
        return ratio(source)
    if kind == "count":
        return count(source)
    if kind == "bools":
        return text(source, "bool")
    if kind == "bounds":
        return f"({plain(source)}, {plain(source)})"
    return argument(source, depth) if kind == "function" else operand(source, depth + 1)


def named(source, depth):
    name = source.choice(list(FUNCTIONS))
    return " ".join([name, *(taken(source, depth, kind) for kind in FUNCTIONS[name])])


def single(source, depth):
    return named(source, depth) if depth > 4 or source.random() < 0.7 else paren(source, depth + 1)


def fun(source, depth):
    return " . ".join(single(source, depth) for _ in range(source.choice([1, 1, 1, 2, 3])))


def value(source, key):
    kind = KEYS[key]
    if kind in ("sound", "word") or source.random() < 0.5:
        return text(source, kind)
    return whole(source) if source.random() < 0.7 else f"(-{whole(source)})"


def operand(source, depth):
    choice = source.random()
    if depth > 4 or choice < 0.5:
        key = source.choice(list(KEYS))
        return "silence" if choice < 0.05 else f"{key} {value(source, key)}"
    if choice < 0.6:
        return f"({expr(source, depth + 1)})"
    if choice < 0.7:
        return f"{ratio(source)} {source.choice(['<~', '~>'])} {operand(source, depth + 1)}"
    if choice < 0.8:
        parts = ", ".join(expr(source, depth + 1) for _ in range(source.choice([0, 1, 2, 3])))
        return f"{source.choice(LISTS)} [{parts}]"
    if choice < 0.88:
        parts = ", ".join(
            f"({source.choice(['1', '2', '1.5', '0.25'])}, {expr(source, depth + 1)})" for _ in range(source.choice([0, 1, 2]))
        )
        return f"timecat [{parts}]"
    return f"{named(source, depth)} {operand(source, depth + 1)}"


def joined(source, depth):
    parts = [operand(source, depth)]
    while source.random() < 0.3:
        parts += [source.choice(OPERATORS), operand(source, depth)]
    return " ".join(parts)


def expr(source, depth):
    if depth < 5 and source.random() < 0.35:
        return f"{fun(source, depth)} $ {expr(source, depth + 1)}"
    return joined(source, depth)


def good_line(source):
    choice = source.random()
    orbit = source.randint(1, 16)
    if choice < 0.02:
        return source.choice(["", *ORDERS])
    if choice < 0.06:
        return f"{source.choice(FLAGS)} {orbit}"
    if choice < 0.08:
        return f"d{orbit} silence"
    if choice < 0.15:
        return f"jumpMod {orbit} {source.choice([1, 2, 8, 4096])} $ {expr(source, 0)}"
    return f"d{orbit} $ {expr(source, 0)}"


def pieces(line):
    """The line in pieces that are nearly its tokens."""
    found, at = [], 0
    while at < len(line):
        end = at + 1
        if line[at] == '"':
            end = line.find('"', at + 1) + 1 or len(line)
        elif line[at].isalnum():
            while end < len(line) and (line[end].isalnum() or line[end] in "'_"):
                end += 1
        elif line[at] == " ":
            while end < len(line) and line[end] == " ":
                end += 1
        found.append(line[at:end])
        at = end
    return found


def out_of_range(source, part):
    """A number or a bracket where a rule may fail."""
    if part.isdigit() and source.random() < 0.8:
        return source.choice(["70000", "1.5", "1%0", "0", "17", "4097", "65536", "3%2"])
    if part == "(" and source.random() < 0.5:
        return "(" * source.randint(2, 17)
    return part


def broken_line(source):
    parts = pieces(good_line(source))
    if source.random() < 0.4:
        at = source.randint(0, len(parts))
        return "".join(out_of_range(source, part) if at <= i < at + 6 else part for i, part in enumerate(parts))
    for _ in range(source.choice([1, 1, 1, 2, 3])):
        at = source.randint(0, len(parts))
        choice = source.random()
        if choice < 0.3 and parts:
            del parts[min(at, len(parts) - 1)]
        elif choice < 0.5:
            parts = parts[:at]
        elif choice < 0.8:
            parts.insert(at, " " + source.choice(STRAY) + source.choice(["", " "]))
        else:
            parts.insert(at, " " + source.choice(NAMES) + " ")
    return "".join(parts)


def stray_line(source):
    front = source.choice(["", "d1 $ ", "d1 $ n 1 # ", "d1 $ (", "d1 $ every 2 (", "d1 $ stack [", "d1 $ rev . "])
    return front + " ".join(source.choice(STRAY + NAMES + BARE * 5) for _ in range(source.randint(1, 8)))


def lines_of(count, seed):
    source = random.Random(seed)
    made = []
    while len(made) < count:
        line = source.choice([good_line, broken_line, broken_line, stray_line])(source)
        if source.random() < 0.03:
            line += source.choice([" -- rest", "--\"", " -- é ( x", "   "])
        if "\n" not in line and "\r" not in line and 0 <= len(line.encode()) <= 2100:
            made.append(line)
    return made
