"""Random texts of the mini-notation, good and broken ones, of every kind."""
import random

KINDS = ["sound", "note", "int", "word", "bool", "count", "ratio"]

# what a text of a kind may play
VALUES = {
    "sound": ["bd", "sn", "bd:3", "808", "808:2", "a_1", "x"],
    "note": ["0", "-3", "c", "ds", "ef4", "g#10", "12", "b"],
    "int": ["0", "-3", "7", "12"],
    "word": ["a", "e", "cps", "x1"],
    "bool": ["t", "f", "true", "false", "1", "0"],
    "count": ["1", "2", "3", "-1", "8", "0"],
    "ratio": ["1", "2", "-1", "0.5", "1.25", "3%2", "0", "-1%3", "2.0", "4%2"],
}
# tokens that break a text, or nearly
STRAY = [
    "?", "|", "^", "~", "[", "]", "<", ">", "{", "}", "(", ")", ",", "!", "*", "/", "@", ":", "%", "_", ".", "..",
    "1.5", "-1.5", "1%0", "70000", "65536", "2147483648", "0.12345", "3#", "#", "a#", "é", "\t", "-", "--", "&", "12a",
    "1%2%3", "1.2.3", "16384", "16383.9999", "!3", "!0", "!1025", "!1.5", "! 3", "!!", "@0", "@1%2", "@-1", "@1.5",
    "a" * 33, "1" * 33, ". .", " _", " !", "c5s", "01", "-0", "(3,8)", "(9,8)", "(3,8,1)", "(,8)", "(3,129)", "(3,0)",
    "1 .. 3", "3 .. -1", "1 .. 1025", "1.5 .. 3", "1 .. 2.5", "b!1024 b", "b@16000 b@600",
    "b!1024 !", "b!1023 b!3a", "b!1023 b!", "b!1024!2", "b@16383 _!2", "b@16383 b!", "3a", "a!3a",
]


def nest(source, kind, depth):
    """Layers in a bracket or at the top."""
    count = source.choice([1, 1, 1, 1, 2, 3])
    return source.choice([",", " , ", ", "]).join(sequence(source, kind, depth) for _ in range(count))


def sequence(source, kind, depth):
    count = source.choice([1, 1, 1, 1, 1, 2, 3])
    return " . ".join(group(source, kind, depth) for _ in range(count))


def group(source, kind, depth):
    parts = []
    for _ in range(source.choice([0, 1, 1, 1, 2, 2, 3, 4])):
        choice = source.random()
        if parts and choice < 0.06:
            parts.append("_")
        elif parts and choice < 0.12:
            parts.append("!")
        elif kind in ("note", "int", "count", "ratio") and choice < 0.2:
            parts.append(f"{source.randint(-4, 6)}{source.choice(['..', ' .. '])}{source.randint(-4, 6)}")
        else:
            parts.append(step(source, kind, depth))
    return " ".join(parts)


def step(source, kind, depth):
    text = term(source, kind, depth)
    for _ in range(source.choice([0, 0, 0, 0, 1, 1, 2])):
        choice = source.random()
        if choice < 0.4:
            text += "*" + factor(source, depth)
        elif choice < 0.7:
            text += "/" + factor(source, depth)
        else:
            count = source.choice([2, 2, 3])
            text += "(" + ",".join(argument(source, depth, which) for which in range(count)) + ")"
    if source.random() < 0.1:
        text += "@" + source.choice(["2", "1.5", "0.25", "3", "16383", "1.0"])
    if source.random() < 0.1:
        text += "!" + source.choice(["2", "3", "1", "4"])
    return text


def argument(source, depth, which):
    if depth and source.random() < 0.2:
        return sequence(source, "count", depth - 1)
    return source.choice([["3", "5", "1", "-3", "0"], ["8", "7", "16", "5"], ["0", "2", "-1"]][which])


def brackets(source, kind, depth):
    choice = source.random()
    if choice < 0.35:
        return "[" + nest(source, kind, depth - 1) + "]"
    if choice < 0.65:
        return "<" + nest(source, kind, depth - 1) + ">"
    text = "{" + nest(source, kind, depth - 1) + "}"
    return text + "%" + factor(source, depth) if source.random() < 0.5 else text


def factor(source, depth):
    if depth and source.random() < 0.3:
        return brackets(source, "ratio", depth)
    return source.choice(VALUES["ratio"])


def term(source, kind, depth):
    if source.random() < 0.1:
        return "~"
    if depth and source.random() < 0.3:
        return brackets(source, kind, depth)
    return source.choice(VALUES[kind])


def broken(source, text):
    """The text with some places changed."""
    for _ in range(source.choice([1, 1, 1, 2, 3])):
        at = source.randint(0, len(text))
        choice = source.random()
        if choice < 0.5:
            text = text[:at] + source.choice(STRAY) + text[at:]
        elif choice < 0.8:
            text = text[:at] + text[at + source.randint(1, 3):]
        else:
            text = text[:at] + source.choice("?|^~[]<>{}(),!*/@:%_. 01a-") + text[at + 1:]
    return text


def deep(source):
    """Many brackets in one another."""
    opened = "".join(source.choice("[<{") for _ in range(source.randint(14, 18)))
    closed = "".join({"[": "]", "<": ">", "{": "}"}[bracket] for bracket in reversed(opened))
    return opened + source.choice(["1", "1*[2]", "1(3,8)", "1*", "~", ""]) + closed


def random_text(source, kind):
    text = deep(source) if source.random() < 0.03 else nest(source, kind, source.choice([0, 1, 2, 3]))
    return broken(source, text) if source.random() < 0.5 else text


def texts_of(count, seed):
    source = random.Random(seed)
    texts = []
    while len(texts) < count:
        kind = source.choice(KINDS + ["sound"] * 6)
        text = random_text(source, kind)
        if len(text.encode()) < 1900 and '"' not in text and "\n" not in text:
            texts.append((kind, text))
    return texts
