"""Performers for served runs: what each types into its socket, and how it leaves."""
import os
import random
import sys
from typing import Callable, NamedTuple

from program import TOP

sys.path.append(os.path.join(TOP, "tools"))

from random_sessions import Session  # noqa: E402

LINES = 200
TALKS = 2.5  # seconds that a performer's lines take
NOTES = 1 / 3  # the share of patterns that are of notes
LIMIT = 2**24  # bytes that are read of a performer
LONGEST = 2048  # bytes of a line
FLOOD = 2**22
LOOKS = 16_384  # a history has so many swaps and looks
# Lines of a script that are no performer's, and such as do nothing.
ODD = [b"", b"", b"-- a note", b"look -- here", b"  look ", b"p1 look", b"tick 1", b"finish", b"serve", b"look look", b"hush \xe9", b"-- \xff\xfe"]
ODD += [b'  d16 $ s "cp" -- \xff\r any byte may stand here  ']
LOUD = [b"unsoloAll", b"unmuteAll"]
FILLER = b"-- " + b"x" * 1996 + b"\n"


class Role(NamedTuple):
    """What a performer does on its connection, the ends that its port may have, and whether it takes in each reply."""

    act: Callable
    ends: tuple
    hears_all: bool
    room: int | None = None  # bytes for what comes and goes
    is_busy: bool = False  # whether it types good lines for some seconds
    fault: str | None = None  # what it does to its connection (tests/faults.py)


def line(session):
    """A line as one may type it, without its end."""
    choice = session.source.random()
    if choice < 0.05:
        return session.source.choice(ODD)
    if choice < 0.15:
        return session.source.choice(LOUD)
    return session.performed().encode()


def lines(source, count=LINES):
    """So many lines, each with its end: a line feed, and rarely a carriage return before it."""
    session = Session(source.random(), NOTES)
    return [line(session) + (b"\r\n" if source.random() < 0.02 else b"\n") for _ in range(count)]


def pieces(source, text):
    """The text in pieces of any length, most of them short."""
    at = 0
    while at < len(text):
        count = source.choice([1, 2, 5, 20, 40, 40, 80, source.randint(1, 300)])
        yield text[at:at + count]
        at += count


def type_out(talk, source, text, seconds=TALKS):
    """Sends a text in pieces, with a pause after each."""
    cut = list(pieces(source, text))
    for it in cut:
        talk.say(it)
        talk.listen(source.random() * 2 * seconds / len(cut))


def end_well(talk):
    """Sends nothing more, and takes in what comes until the peer ends."""
    talk.stop()
    talk.listen_to_end()


def types(talk, source):
    """Types lines, of which the last has no line feed at times, and then listens."""
    text = b"".join(lines(source))
    type_out(talk, source, text if source.random() < 0.5 else text[:-1], TALKS * source.choice([0.5, 1, 1.5]))
    end_well(talk)


def converses(talk, source):
    """Types lines, each once the one before is answered, and then listens."""
    for number, it in enumerate(lines(source), 1):
        type_out(talk, source, it, TALKS / LINES / 2)
        if not talk.listen_for(number):
            break
    end_well(talk)


def leaves_at_once(talk, _source):
    talk.socket.close()


def resets_at_once(talk, _source):
    talk.reset()


def leaves_in_a_line(talk, source):
    """Goes away in the middle of a line. Where replies are unread then, that is a reset."""
    type_out(talk, source, b"".join(lines(source, 50)), TALKS / 2)
    talk.say(b'd1 $ s "bd*')
    talk.socket.close()


def resets(talk, source):
    """Goes away by a reset, in the middle of a line and while replies are on their way."""
    type_out(talk, source, b"".join(lines(source, 50)), TALKS / 2)
    talk.say(b"look\n" * 20 + b"loo")
    talk.reset()


def stays_deaf(talk, source):
    """Types and never takes in a reply, until the program can put no more and takes in no more. It does not go away."""
    talk.say(b"".join(lines(source, 20)), is_deaf=True)
    talk.say(b"x\n" * (FLOOD // 2), is_deaf=True)


def never_hears(talk, source):
    """The same, but it goes away in the end."""
    stays_deaf(talk, source)
    talk.socket.close()


def fills(talk, source, more=b""):
    """Types as much as is read of a performer, which ends with a line, and then perhaps more."""
    front = b"".join(lines(source, 20))
    count, rest = divmod(LIMIT - len(front), len(FILLER))
    text = front + FILLER * count + (FILLER[:rest - 1] + b"\n" if rest else b"")
    talk.say(text + more)
    end_well(talk)


def says_too_much(talk, source):
    """Types one byte more than is read of a performer."""
    fills(talk, source, b"x")


def holds_a_line(talk, source):
    """Types ten thousand bytes without a line feed, in pieces."""
    type_out(talk, source, bytes(source.choices(b"abcdefg -~$\"", k=10_000)))
    end_well(talk)


def goes_on_after_long_lines(talk, source):
    """Types lines that are just as long as may be, and longer ones, and good ones after them."""
    short, long = (b'd%d $ s "cp"' % source.randint(1, 16) for _ in range(2))
    text = [short.ljust(LONGEST), long.ljust(LONGEST + 1), short.ljust(LONGEST) + b"\r", b"x" * 10_000, b"look"]
    type_out(talk, source, b"".join(it + b"\n" for it in text))
    end_well(talk)


def types_high_bytes(talk, source):
    """Types bytes above 127 alone, and no line feed."""
    type_out(talk, source, bytes(source.randint(128, 255) for _ in range(source.choice([1, 100, 2000, 3000]))))
    end_well(talk)


def types_any_bytes(talk, source):
    """Types any bytes."""
    type_out(talk, source, source.randbytes(5000))
    end_well(talk)


def fills_the_history(talk, source):
    """Looks more often than a history has room for, in large pieces."""
    text = b"look\n" * (LOOKS + source.randint(1, 1000))
    type_out(talk, source, text, 0)
    end_well(talk)


TYPIST = Role(types, ("eof",), True, is_busy=True)
TALKER = Role(converses, ("eof",), True, is_busy=True)
DEAF = Role(stays_deaf, ("fault",), False, room=4096)
ODD_ROLES = {
    "leaves at once": Role(leaves_at_once, ("eof",), False),
    "resets at once": Role(resets_at_once, ("fault",), False),
    "leaves in a line": Role(leaves_in_a_line, ("eof", "fault"), False),
    "resets": Role(resets, ("fault",), False),
    "never hears": Role(never_hears, ("fault",), False, room=4096),
    "says too much": Role(says_too_much, ("spent",), True),
    "fills": Role(fills, ("eof",), True),
    "holds a line": Role(holds_a_line, ("eof",), True),
    "long lines": Role(goes_on_after_long_lines, ("eof",), True),
    "high bytes": Role(types_high_bytes, ("eof",), True),
    "any bytes": Role(types_any_bytes, ("eof",), True),
    "fills the history": Role(fills_the_history, ("eof",), True),
}
FIRST = ["leaves at once", "resets at once", "leaves in a line", "resets", "never hears"]
SECOND = ["says too much", "holds a line", "high bytes", "long lines"]


def cast_of(number):
    """The casts of the gate, by turns: eight who type good lines, or three or four of them beside odd ones."""
    odd = [ODD_ROLES[it] for it in ([], FIRST, SECOND)[number % 3]]
    cast = ([*odd, TALKER] + [TYPIST, TYPIST, TALKER, TYPIST] * 2)[:8]
    random.Random(number).shuffle(cast)
    return cast


def any_cast(source):
    """One to eight performers, of whom the most type good lines."""
    count = source.choice([1, 2, 4, 8, 8, 8])
    return [source.choice(list(ODD_ROLES.values()) if source.random() < 0.4 else [TYPIST, TALKER]) for _ in range(count)]
