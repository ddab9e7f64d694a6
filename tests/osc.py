"""A reader of OSC 1.0: bundles without bundles in them, whose arguments are int32 and strings."""


class Fault(Exception):
    """What keeps a datagram from being such a bundle."""


class Reader:
    """Reads a text from its front."""

    def __init__(self, text):
        self.text = text
        self.at = 0

    def has_more(self):
        return self.at < len(self.text)

    def take(self, count):
        """The next bytes."""
        if self.at + count > len(self.text):
            raise Fault(f"ends within {count} bytes at {self.at}")
        self.at += count
        return self.text[self.at - count:self.at]

    def number(self, count, signed):
        return int.from_bytes(self.take(count), "big", signed=signed)

    def string(self):
        """Bytes of ASCII up to a zero byte, and zeros up to a multiple of four bytes."""
        begin = self.at
        stop = self.text.find(b"\0", begin)
        if stop < 0:
            raise Fault(f"string at {begin} without an end")
        count = stop - begin
        padded = self.take(count // 4 * 4 + 4)
        if any(padded[count:]):
            raise Fault(f"padding of the string at {begin} is not zero")
        if not padded[:count].isascii():
            raise Fault(f"string at {begin} is not ASCII")
        return padded[:count].decode()


def bundle(text):
    """The time tag of a bundle and its messages."""
    reader = Reader(text)
    if reader.take(8) != b"#bundle\0":
        raise Fault("no head of a bundle")
    timetag = reader.number(8, signed=False)
    messages = []
    while reader.has_more():
        size = reader.number(4, signed=True)
        if size <= 0 or size % 4:
            raise Fault(f"size {size} of a message")
        messages.append(message(reader.take(size)))
    return timetag, messages


def message(text):
    """The address of a message and its arguments, texts and numbers by their tags."""
    reader = Reader(text)
    address = reader.string()
    if not address.startswith("/"):
        raise Fault(f"address {address}")
    tags = reader.string()
    if not tags.startswith(","):
        raise Fault(f"type tags {tags}")
    arguments = [argument(reader, tag) for tag in tags[1:]]
    if reader.has_more():
        raise Fault("a message goes on past its arguments")
    return address, arguments


def argument(reader, tag):
    if tag == "i":
        return reader.number(4, signed=True)
    if tag == "s":
        return reader.string()
    raise Fault(f"type tag {tag}")
