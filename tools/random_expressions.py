"""Random expressions and lines of performers, good and broken ones."""
from line_names import BARE, FLAGS, FUNCTIONS, KEYS, LISTS, OPERATORS, ORDERS, RANDOM
from random_texts import nest, random_text

SOUND, NOTE, WORD, INT = ([key for key, kind in KEYS.items() if kind == it] for it in ("sound", "note", "word", "int"))
# short texts of a kind, of which most read
SHORT = {
    "sound": ["bd sn", "bd*2 [~ sn]", "<bd sn>", "bd(3,8)", "bd/3 sn", "bd . sn hh", "bd, sn*3", "bd:3 ~ sn@1.5", "{bd sn hh}%4", ""],
    "note": ["0 4 7", "c e5 gs", "<0 2>", "0 .. 3", "-3 ~", "0*2 5", "12"],
    "int": ["0 1", "<1 2 3>", "3", "-1 0 1", "1*2 5", "0 .. 2"],
    "word": ["a e", "<i o>", "c", "vowel*2 x_1"],
    "bool": ["t f", "t(3,8)", "<t f>", "1 0 1 1", "true*2 false", "t ~ f"],
    "count": ["2", "<2 3>", "3 4", "0 2", "1!2", "-1 2", "2(3,8)"],
    "ratio": ["2", "<1 2>", "0.5 2", "1%3", "-1 0", "1.5*2 3", "0.25"],
}
# Numbers of a Euclid: hits and steps that mostly have a rhythm.
HITS = ("0", "3", "5")
EUCLIDS = {
    "euclid": [(0.1, HITS), (0.05, ("8", "7", "5"))],
    "euclidOff": [(0.1, HITS), (0.1, ("8", "7")), (0.2, ("0", "1", "2", "3", "4", "8"))],
}
# pieces that break a line, or nearly
STRAY = [
    "$", "(", ")", "[", "]", ",", ".", "/", "-", "#", "|+|", "|", "<", ">", "<~", "~>", "~", '"', "--", "-- a", "é", "\t",
    "foo", "fast'", "every'", "dd", "d1", "d17", "silence", "1.5", "-1", "1%2", "1%0", "70000", "2147483648", "0.12345",
    "3#", "2x", "_", "'", "Rev", "rev", '"bd"', '"bd?"', '"é"', '"1.5"', '"bd [sn"', '""', "(1/0)", "(1.5/2)", "(-1)",
    "look", "hush", "mute", *RANDOM[:4],
]


def quoted(source, kind):
    choice = source.random()
    text = source.choice(SHORT[kind]) if choice < 0.8 else nest(source, kind, 0 if choice < 0.93 else 1)
    return f'"{text}"'


def ratio(source, chosen=0.25):
    if source.random() < chosen:
        return quoted(source, "ratio")
    return source.choice(["1", "2", "3", "0.5", "1.25", "1%4", "0", "(1/4)", "(-1/3)", "(-2)", "(3%2)", "(0.25)", "(5/2)"])


def count(source, chosen=0.25, numbers=("0", "1", "2", "3", "4", "8")):
    if source.random() < chosen:
        return quoted(source, "count")
    return source.choice(numbers)


def value(source, key):
    if key in SOUND:
        return quoted(source, "sound")
    if key in WORD:
        return quoted(source, "word")
    kind = KEYS[key]
    return source.choice([quoted(source, kind), quoted(source, kind), source.choice(["0", "1", "7", "(-3)", "(- 12)"])])


def argument(source, depth):
    choice = source.random()
    if depth and choice < 0.5:
        return "(" + fun(source, depth - 1) + ")"
    if choice < 0.65:
        return f"({source.choice(OPERATORS)} {joined(source, 0)})"
    if choice < 0.75:
        return f"({ratio(source, 0.1)} {source.choice(['<~', '~>'])})"
    return source.choice(BARE)


def taken(source, depth, kind):
    """What a function takes, by its kind."""
    if kind == "ratio":
        return ratio(source)
    if kind == "count":
        return count(source)
    if kind == "bools":
        return quoted(source, "bool")
    if kind == "bounds":
        ends = [source.choice(["0", "0.25", "(1/3)", "0.5", "1", "(-1/4)"]) for _ in range(2)]
        return f"({ends[0]}, {ends[1]})"
    return argument(source, depth) if kind == "function" else operand(source, depth)


def named(source, depth):
    name = source.choice(list(FUNCTIONS))
    if name in EUCLIDS:
        return " ".join([name, *(count(source, *how) for how in EUCLIDS[name])])
    return " ".join([name, *(taken(source, depth, kind) for kind in FUNCTIONS[name])])


def single(source, depth):
    choice = source.random()
    if depth and choice < 0.1:
        return "(" + fun(source, depth - 1) + ")"
    if choice < 0.2:
        return f"({source.choice(OPERATORS)} {joined(source, 0)})"
    return named(source, depth)


def fun(source, depth):
    return " . ".join(single(source, depth) for _ in range(source.choice([1, 1, 1, 1, 2, 3])))


def joined_list(source, depth):
    return ", ".join(expression(source, depth) for _ in range(source.choice([0, 1, 2, 2, 3])))


def operand(source, depth):
    choice = source.random()
    if depth and choice < 0.15:
        return f"({expression(source, depth - 1)})"
    if depth and choice < 0.25:
        return f"{source.choice(LISTS)} [{joined_list(source, depth - 1)}]"
    if depth and choice < 0.3:
        weights = [source.choice(["1", "2", "1.5", "0.25", "3"]) for _ in range(source.choice([1, 2, 3]))]
        return "timecat [" + ", ".join(f"({it}, {expression(source, depth - 1)})" for it in weights) + "]"
    if depth and choice < 0.36:
        return f"{ratio(source, 0.2)} {source.choice(['<~', '~>'])} {operand(source, depth - 1)}"
    if depth and choice < 0.42:
        return f"{named(source, depth - 1)} {operand(source, depth - 1)}"
    if choice < 0.44:
        return "silence"
    key = source.choice(SOUND * 5 + NOTE * 3 + WORD + INT)
    return f"{key} {value(source, key)}"


def joined(source, depth):
    parts = [operand(source, depth)]
    for _ in range(source.choice([0, 0, 0, 1, 1, 2])):
        parts += [source.choice(OPERATORS), operand(source, depth)]
    return " ".join(parts)


def expression(source, depth):
    front = "".join(fun(source, depth) + " $ " for _ in range(source.choice([0, 0, 0, 1, 1, 2])))
    return front + joined(source, depth)


def line(source, depth=2):
    choice = source.random()
    orbit = source.choice(["1", "2", "16", "01", "0", "17", "1.5"])
    if choice < 0.05:
        return source.choice([*ORDERS, "", "-- a comment", "  look  "])
    if choice < 0.12:
        return f"{source.choice(FLAGS)} {orbit}"
    if choice < 0.2:
        return f"jumpMod {orbit} {source.choice(['1', '4', '4096', '4097', '0', '2.5'])} $ {expression(source, depth)}"
    if choice < 0.23:
        return f"d{source.choice(['1', '16', '01', '0', '17', '99999999999'])} silence"
    return f"d{source.choice(['1', '2', '3', '16', '8', '0', '17'])} $ {expression(source, depth)}"


def broken(source, text):
    """The text with a piece put in, taken out, doubled or put elsewhere."""
    words = text.split(" ")
    at = source.randrange(len(words) + 1)
    choice = source.random()
    if choice < 0.4:
        return " ".join(words[:at] + [source.choice(STRAY)] + words[at:])
    if choice < 0.6 and words:
        return " ".join(words[: max(at - 1, 0)] + words[at:])
    if choice < 0.7:
        return text[: source.randrange(len(text) + 1)]
    if choice < 0.85:
        place = source.randrange(len(text) + 1)
        return text[:place] + source.choice(STRAY) + text[place:]
    return " ".join(words[:at] + words[max(at - 2, 0) : at] + words[at:])


def random_line(source):
    text = line(source)
    while source.random() < 0.35:
        text = broken(source, text)
    return text


def random_expression(source):
    text = expression(source, source.choice([0, 1, 2, 2, 3]))
    while source.random() < 0.2:
        text = broken(source, text)
    if source.random() < 0.03:
        text = f's "{random_text(source, "sound")}"'
    return text
