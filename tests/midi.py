"""A reader of MIDI 1.0: messages that begin and end notes, each with its status byte."""
from collections import Counter
from typing import NamedTuple

try:
    import mido
except ImportError:
    mido = None

SIZE = 3  # bytes of a message
OFF, ON = 0x8, 0x9  # the upper half of a status byte; the lower one is the channel
MOST = 127


class Fault(Exception):
    """What keeps a text from being such messages."""


class Message(NamedTuple):
    """A note begins or ends."""

    is_on: bool
    channel: int
    key: int
    velocity: int


def messages(text):
    """The messages of a stream."""
    return [message(text[at:at + SIZE]) for at in range(0, len(text), SIZE)]


def message(text):
    if len(text) < SIZE:
        raise Fault(f"a message of {text.hex()} alone")
    status, key, velocity = text
    kind, channel = divmod(status, 16)
    if kind not in (OFF, ON):
        raise Fault(f"status {status:02x}")
    if key > MOST or velocity > MOST:
        raise Fault(f"data bytes of {text.hex()}")
    if kind == ON and velocity == 0:
        raise Fault("a note that begins with velocity 0, which would end one")
    return Message(kind == ON, channel, key, velocity)


def left_open(given):
    """How many notes of a channel and a key began and did not end, where there are any."""
    found = Counter()
    for it in given:
        place = (it.channel, it.key)
        found[place] += 1 if it.is_on else -1
        if found[place] < 0:
            raise Fault(f"key {it.key} of channel {it.channel} ends before it begins")
    return dict(+found)


def by_mido(text):
    """The messages of a stream as Python's mido reads them."""
    parser = mido.Parser()
    parser.feed(text)
    return [of_mido(it) for it in parser]


def of_mido(given):
    if given.type not in ("note_on", "note_off"):
        raise Fault(f"mido reads {given}")
    return Message(given.type == "note_on", given.channel, given.note, given.velocity)


def heard(text):
    """How many messages a stream has and which notes it leaves open, or what is wrong with it."""
    try:
        found = messages(text)
        if mido and by_mido(text) != found:
            raise Fault("mido reads other messages")
        return len(found), left_open(found)
    except Fault as fault:
        return str(fault)
