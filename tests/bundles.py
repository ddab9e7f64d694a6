"""Bundles that are read back: the program tdl_read_back beside a reading of OSC 1.0 that is written here, by bytes.

A bundle is made by the rules of OSC 1.0, and then changed in a few of its bytes, cut, or made longer. What is read of it
is told in a line: the time tag and the messages, or the first fault and its place.
"""
import os
import random
import subprocess
import sys

from program import OTHER, SECONDS, TOP, as_wanted

READ_BACK = f"{TOP}/crates/tdl_read_back/out/tdl_read_back"
HEAD = b"#bundle\0"
COUNT, SEED = 300, 1


class Fault(Exception):
    """The kind of the first fault, and its place."""


class Bytes:
    """What is left of some bytes, from a place on."""

    def __init__(self, text, place):
        self.text, self.place = text, place

    def byte(self, short):
        """The next byte. Where there is none, what stands at `short` ends too early."""
        if not self.text:
            raise Fault("Short", short)
        first, self.text = self.text[0], self.text[1:]
        self.place += 1
        return first

    def number(self, size, signed):
        """The next bytes as a number, the highest first."""
        begin = self.place
        if len(self.text) < size:
            raise Fault("Short", begin)
        value, self.text = int.from_bytes(self.text[:size], "big", signed=signed), self.text[size:]
        self.place += size
        return value

    def string(self, wrong=lambda at, byte: None):
        """The next string: bytes from 1 to 127, one zero, and zeros up to a multiple of four. `wrong` is the kind of a
        byte that has another fault before that it is no letter."""
        begin, found = self.place, []
        while True:
            place = self.place
            byte = self.byte(begin)
            kind = wrong(len(found), byte)
            if kind:
                raise Fault(kind, place)
            if byte == 0:
                break
            if byte > 127:
                raise Fault("NotAscii", place)
            found.append(byte)
        while (self.place - begin) % 4:
            place = self.place
            if self.byte(begin):
                raise Fault("BadPad", place)
        return bytes(found)


def no_address(at, byte):
    """An address begins with a slash."""
    return "BadAddress" if at == 0 and byte != ord("/") else None


def no_tag(at, byte):
    """Type tags begin with a comma, and are i and s."""
    return "BadTag" if byte != ord(",") and (at == 0 or byte not in b"is\0") else None


def tag_fault(at, byte):
    """A comma is a tag only at the start."""
    return "BadTag" if at > 0 and byte == ord(",") else no_tag(at, byte)


def message_of(text, place):
    """What a message says, in a few letters."""
    left = Bytes(text, place)
    said = [f"/{len(left.string(no_address))}"]
    for tag in left.string(tag_fault)[1:]:
        said.append(f"i{left.number(4, True)}" if tag == ord("i") else f"s{len(left.string())}")
    if left.text:
        raise Fault("BadSize", place)
    return said


def bundle_of(text):
    """What a bundle says."""
    if text[:8] != HEAD:
        raise Fault("BadHead", 0)
    left = Bytes(text[8:], 8)
    said = [str(left.number(8, False))]
    while left.text:
        begin = left.place
        size = left.number(4, True)
        if size <= 0 or size % 4:
            raise Fault("BadSize", begin)
        if len(left.text) < size:
            raise Fault("Short", left.place)
        said += message_of(left.text[:size], left.place)
        left = Bytes(left.text[size:], left.place + size)
    return said


def line_of(text):
    """The line that tells what is read of some bytes."""
    try:
        return " ".join(bundle_of(text))
    except Fault as fault:
        kind, place = fault.args
        return f"refused {kind} {place}"


def padded(text):
    """A string of OSC."""
    return text + bytes(4 - len(text) % 4)


def random_message(chance):
    """A message."""
    tags = [chance.choice("is") for _ in range(chance.randrange(6))]
    words = [b"", b"s", b"bd", b"cycle", b"a" * chance.randrange(9)]
    arguments = [chance.randbytes(4) if tag == "i" else padded(chance.choice(words)) for tag in tags]
    address = b"/" + bytes(chance.choice(b"abcdirtplay/") for _ in range(chance.randrange(12)))
    return padded(address) + padded(("," + "".join(tags)).encode()) + b"".join(arguments)


def random_bundle(chance):
    """A bundle of up to three messages."""
    messages = [random_message(chance) for _ in range(chance.choice([0, 1, 1, 1, 2, 3]))]
    return HEAD + chance.randbytes(8) + b"".join(len(it).to_bytes(4, "big") + it for it in messages)


def changed(chance, text):
    """A bundle with a few changes, or none."""
    text = bytearray(text)
    for _ in range(chance.choice([0, 1, 1, 1, 2, 3])):
        place = chance.randrange(min(8, len(text)) if chance.randrange(10) else 0, len(text) + 1)
        how = chance.randrange(6)
        if how == 0:
            del text[place:]
        elif how == 1:
            text[place:place] = chance.choice([bytes(4), b"\0", b"ab\0\0", chance.randbytes(3)])
        elif how == 2:
            del text[place:place + chance.choice([1, 4])]
        elif place < len(text):
            text[place] = chance.choice([0, 1, 4, 8, ord(","), ord("f"), ord("i"), ord("s"), ord("/"), 128, 255, chance.randrange(256)])
    return bytes(text)


def read_back(what, texts):
    """The lines that tdl_read_back puts of some texts."""
    given = b"".join(len(it).to_bytes(4, "big") + it for it in texts)
    ran = subprocess.run([READ_BACK, what], input=given, capture_output=True, timeout=SECONDS * 10, check=False)
    return ran.stdout.decode().splitlines()


def compared(count, seed):
    """So many changed bundles, each with both lines: those of the program, and of this reading."""
    chance = random.Random(seed)
    texts = [changed(chance, random_bundle(chance)) for _ in range(count)]
    return texts, read_back("bundles", texts), [line_of(it) for it in texts]


def passes_each():
    """Whether each check passes. There is none where another program than the built one is tried."""
    if OTHER or not os.path.exists(f"{TOP}/crates/tdl_read_back"):
        return
    texts, found, wanted = compared(COUNT, SEED)
    yield as_wanted("each changed bundle has a line", {"lines": len(found)}, {"lines": COUNT})
    for text, one, other in zip(texts, found, wanted):
        yield as_wanted(f"bundle {text.hex()}", {"read": one}, {"read": other})


if __name__ == "__main__":
    sys.exit("tests/end-to-end runs these checks")
