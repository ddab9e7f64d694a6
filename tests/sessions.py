"""Sessions of `tdl play`: its replies, its datagrams and MIDI messages byte for byte, its log and its status.

Twenty of them are random scripts of eight performers on sixteen orbits, whose replies, datagrams and logs another
program gave (tests/sessions.json: docs/CONTRIBUTING.md). Each is played as it is, and again with every tick cut
twenty times finer, which sends the same.
"""
import contextlib
import errno
import hashlib
import json
import math
import os
import pathlib
import re
import resource
import signal
import subprocess
import tempfile
from fractions import Fraction

import midi
import play
from program import SECONDS, TOP, as_wanted, command

UNITS = 46080
PARTS = 20
ORIGIN = 2208988800
TEMPO = Fraction(9, 16)
LOG = play.LOG
MIDI = play.MIDI
FULL = "/dev/full"
SHORT = 8  # so many digits of a digest stand for a datagram
LONGEST = 2048
MOST_SWAPS = 16384
MOST_INPUT = 2**24


def text_of(lines):
    return "".join(f"{it}\n" for it in lines).encode()


def accepted(reply):
    """The units of the time of an accepted tick by its reply, or None."""
    words = reply.split(" ")
    return int(Fraction(words[1]) * UNITS) if words[0] == "tick" else None


def cut(lines, replies, parts=PARTS):
    """The lines with each accepted tick in so many parts, as equal as whole units allow."""
    found, frontier = [], 0
    for line, reply in zip(lines, replies):
        to = accepted(reply)
        if to is None:
            found.append(line)
            continue
        places = sorted({frontier + (to - frontier) * it // parts for it in range(1, parts + 1)} - {frontier})
        found += [f"tick {Fraction(it, UNITS)}" for it in places[:-1]]
        found.append(line)
        frontier = to
    return found


def shorts(datagrams):
    """The beginning of each datagram's digest, one after another."""
    return "".join(hashlib.sha256(it).hexdigest()[:SHORT] for it in datagrams)


def digest(datagrams):
    """One digest of all datagrams, each after its length."""
    return hashlib.sha256(b"".join(len(it).to_bytes(4, "big") + it for it in datagrams)).hexdigest()


class Room:
    """A folder for one run."""

    def __enter__(self):
        self.folder = tempfile.TemporaryDirectory(prefix="tdl-session-")
        self.log = pathlib.Path(self.folder.name, LOG)
        self.midi = pathlib.Path(self.folder.name, MIDI)
        return self

    def __exit__(self, *_):
        self.folder.cleanup()

    def logged(self):
        """What the run's log has, or None where there is no such file."""
        return self.log.read_bytes() if self.log.is_file() else None

    def sounded(self):
        """What the run's file of MIDI messages has, or None where there is no such file."""
        return self.midi.read_bytes() if self.midi.is_file() else None


def run(receiver, given, words=(), redirections="", prepare=None, limit=None, front=(), mode="play"):
    """What a run of `play`, or of another mode, puts, sends, logs and ends with. It is made anew where datagrams were dropped."""
    for _ in range(play.TRIES):
        before = receiver.dropped()
        with Room() as room:
            if prepare:
                prepare(room)
            found = run_once(receiver, room, given, [mode, *words], redirections, limit, front)
        if receiver.dropped() == before:
            break
    return found


def run_once(receiver, room, given, words, redirections, limit, front):
    with tempfile.TemporaryFile() as source, tempfile.TemporaryFile() as out, tempfile.TemporaryFile() as error:
        source.write(given)
        source.seek(0)
        receiver.waiting()
        start = [*front, *command(words, redirections)]
        child = subprocess.Popen(start, cwd=room.folder.name, stdin=source, stdout=out, stderr=error, preexec_fn=limit)
        datagrams = receiver.datagrams(child)
        out.seek(0)
        error.seek(0)
        found = {"standard output": out.read(), "standard error": error.read(), "status": child.returncode}
        return {**found, "packets": datagrams, "log": room.logged(), "midi": room.sounded()}


def wanted(replies, packets, log, status=0, error=b"", midi=b""):
    given = {"standard output": text_of(replies), "standard error": error, "status": status}
    return {**given, "packets": packets, "log": None if log is None else text_of(log), "midi": midi}


# What a packet and a log have, written apart from the program.

def string(text):
    return text.encode() + b"\0" * (4 - len(text) % 4)


def packet(onset, length, orbit, tempo=TEMPO, origin=ORIGIN, **controls):
    """The datagram of an event: its time tag, and its message with what SuperDirt is told."""
    fields = [("cycle", math.floor(onset)), ("delta", min(2**31 - 1, math.floor(10**6 * length / tempo))), ("orbit", orbit - 1)]
    fields += sorted(controls.items())
    tags = "," + "".join("si" if isinstance(it, int) else "ss" for _, it in fields)
    parts = [string(name) + (it.to_bytes(4, "big", signed=True) if isinstance(it, int) else string(it)) for name, it in fields]
    message = string("/dirt/play") + string(tags) + b"".join(parts)
    timetag = (origin * 2**32 + math.floor(onset * 2**32 / tempo)) % 2**64
    return b"#bundle\0" + timetag.to_bytes(8, "big") + len(message).to_bytes(4, "big") + message


def log_of(entries, end="eof", cps="9/16", origin=ORIGIN):
    """The lines of a log. An entry is the performer (0 for a tick), the frontier before it, and the deed."""
    lines = [f"{at} {who} {frontier} {deed}" for at, (who, frontier, deed) in enumerate(entries)]
    return ["tidal-log 1", f"cps {cps}", f"origin {origin}", *lines, f"port 0 {end}", f"end {len(entries)}"]


def ticked(places, frontier=0):
    """The entries of ticks to these places."""
    return [(0, before, f"tick {it}") for before, it in zip([frontier, *places], places)]


# Worked scripts: the words after `play`, the lines, the replies, the packets and the log.

ROW_11 = (
    [],
    ["tick 1/2", 'p1 jumpMod 1 8 $ s "bd"', 'p2 d1 $ s "~ sn"', "tick 1", *(f"tick {it}" for it in range(2, 10))],
    ["tick 1/2 osc 0 midi 0", "at 8 place 1", "at 1 place 2", "tick 1 osc 0 midi 0"]
    + [*(f"tick {it} osc 1 midi 0" for it in range(2, 10)), "end 9 entries 12 osc 8 midi 0"],
    [packet(it + Fraction(1, 2), Fraction(1, 2), 1, s="sn") for it in range(1, 9)],
    log_of(
        [(0, 0, "tick 1/2"), (1, "1/2", 'swap 8 jumpMod 1 8 $ s "bd"'), (2, "1/2", 'swap 1 d1 $ s "~ sn"')]
        + ticked(["1", *range(2, 10)], "1/2")
    ),
)
ROW_12 = (
    [],
    ["tick 1/2", "tick 1", 'p1 d1 $ s "bd"', "tick 2"],
    ["tick 1/2 osc 0 midi 0", "tick 1 osc 0 midi 0", "at 1 place 2", "tick 2 osc 1 midi 0", "end 2 entries 4 osc 1 midi 0"],
    [packet(1, 1, 1, s="bd")],
    log_of([*ticked(["1/2", 1]), (1, 1, 'swap 1 d1 $ s "bd"'), *ticked([2], 1)]),
)
TWENTY = [Fraction(it, 20) for it in range(1, 21)]
ROW_12_FINER = (
    [],
    [*(f"tick {it}" for it in TWENTY), 'p1 d1 $ s "bd"', "tick 2"],
    [*(f"tick {it} osc 0 midi 0" for it in TWENTY), "at 1 place 20", "tick 2 osc 1 midi 0", "end 2 entries 22 osc 1 midi 0"],
    [packet(1, 1, 1, s="bd")],
    log_of([*ticked(TWENTY), (1, 1, 'swap 1 d1 $ s "bd"'), *ticked([2], 1)]),
)
ROW_13 = (
    ["--cps", "1/2", "--origin", "2208988800"],
    ['p1 d1 $ s "bd sn"', "tick 1"],
    ["at 0 place 0", "tick 1 osc 2 midi 0", "end 1 entries 2 osc 2 midi 0"],
    [packet(0, Fraction(1, 2), 1, Fraction(1, 2), s="bd"), packet(Fraction(1, 2), Fraction(1, 2), 1, Fraction(1, 2), s="sn")],
    log_of([(1, 0, 'swap 0 d1 $ s "bd sn"'), *ticked([1])], cps="1/2"),
)
ROW_16 = (
    [],
    ["tick 1/2", "tick 1/2", "tick 2", "tick 1048577", "tick 1/7", "tick 3/2"],
    ["tick 1/2 osc 0 midi 0", "refused Backward 1/2", "refused TooLong 1/2", "refused PastLast 1/2", "refused OffGrid 5"]
    + ["tick 3/2 osc 0 midi 0", "end 3/2 entries 2 osc 0 midi 0"],
    [],
    log_of(ticked(["1/2", "3/2"])),
)
ROW_16_FULL = (
    [],
    ["p1 look"] * (MOST_SWAPS + 1) + ["tick 1", 'p2 d1 $ s "bd"', "tick 2"],
    [f"desk 0 playing - muted - soloed - place {it}" for it in range(MOST_SWAPS)]
    + ["refused Full 16384", "tick 1 osc 0 midi 0", "refused Full 16384", "tick 2 osc 0 midi 0", "end 2 entries 16386 osc 0 midi 0"],
    [],
    log_of([(1, 0, "look")] * MOST_SWAPS + ticked([1, 2])),
)
LONG = "x" * (LONGEST + 1 - len("p1 d1 $ "))
ROW_17 = (
    [],
    [f"p1 d1 $ {LONG}", "x" * (LONGEST + 1), 'p1 d1 $ s "bd*4"', f'p1 d1 $ s "bd"'.ljust(LONGEST), f'p1 d1 $ s "bd"'.ljust(LONGEST + 1), "tick 1"],
    ["refused LineTooLong 2048", "refused LineTooLong 2048", "at 0 place 0", "at 0 place 1", "refused LineTooLong 2048"]
    + ["tick 1 osc 1 midi 0", "end 1 entries 3 osc 1 midi 0"],
    [packet(0, 1, 1, s="bd")],
    log_of([(1, 0, 'swap 0 d1 $ s "bd*4"'), (1, 0, 'swap 0 d1 $ s "bd"'), *ticked([1])]),
)
ROW_19 = (
    [],
    ['p1 d1 $ s "bd"', 'p2 d2 $ s "sn"', "p1 mute 2", "p1 solo 2", "tick 1", "p1 look"],
    ["at 0 place 0", "at 0 place 1", "at 0 place 2", "at 0 place 3", "tick 1 osc 1 midi 0"]
    + ["desk 1 playing 2 muted 2 soloed 2 place 5", "end 1 entries 6 osc 1 midi 0"],
    [packet(0, 1, 2, s="sn")],
    log_of(
        [(1, 0, 'swap 0 d1 $ s "bd"'), (2, 0, 'swap 0 d2 $ s "sn"'), (1, 0, "swap 0 mute 2"), (1, 0, "swap 0 solo 2")]
        + [(0, 0, "tick 1"), (1, 1, "look")]
    ),
)
# Late boundaries, mute, solo and hush. A hush is younger than a pattern that waits for a later cycle, so it takes that too.
DESK = (
    [],
    ['p3 d16 $ s "bd*2" # n "<0 3>"', "tick 1/4", "p8 mute 16", 'p3 jumpMod 2 4 $ s "hh"', "tick 1", "p1 look", "p1 unmute 16", "p2 hush"]
    + ["p2 look", "tick 2", "p1 look", 'p3 d16 $ stack [s "a", s "a"]', "p4 solo 3", "tick 5/2", "p4 unsoloAll", "tick 3", "tick 4", "tick 17/4"],
    ["at 0 place 0", "tick 1/4 osc 1 midi 0", "at 1 place 2", "at 4 place 3", "tick 1 osc 1 midi 0", "desk 1 playing - muted 16 soloed - place 5"]
    + ["at 1 place 6", "at 1 place 7", "desk 1 playing - muted - soloed - place 8", "tick 2 osc 0 midi 0"]
    + ["desk 2 playing - muted - soloed - place 10", "at 2 place 11", "at 2 place 12", "tick 5/2 osc 0 midi 0", "at 3 place 14"]
    + ["tick 3 osc 0 midi 0", "tick 4 osc 2 midi 0", "tick 17/4 osc 2 midi 0", "end 17/4 entries 18 osc 6 midi 0"],
    [packet(it, Fraction(1, 2), 16, s="bd", n=0) for it in (0, Fraction(1, 2))] + [packet(it, 1, 16, s="a") for it in (3, 3, 4, 4)],
    log_of(
        [(3, 0, 'swap 0 d16 $ s "bd*2" # n "<0 3>"'), (0, 0, "tick 1/4"), (8, "1/4", "swap 1 mute 16"), (3, "1/4", 'swap 4 jumpMod 2 4 $ s "hh"')]
        + [(0, "1/4", "tick 1"), (1, 1, "look"), (1, 1, "swap 1 unmute 16"), (2, 1, "swap 1 hush"), (2, 1, "look"), (0, 1, "tick 2")]
        + [(1, 2, "look"), (3, 2, 'swap 2 d16 $ stack [s "a", s "a"]'), (4, 2, "swap 2 solo 3"), (0, 2, "tick 5/2")]
        + [(4, "5/2", "swap 3 unsoloAll"), *ticked([3, 4, "17/4"], "5/2")]
    ),
)
# A pattern that waits while another plays: an older one, and a younger one which then keeps the orbit.
WAITS = (
    [],
    ["tick 1/4", 'p1 d2 $ s "bd"', 'p2 jumpMod 2 3 $ s "hh"', 'p3 jumpMod 16 2 $ s "cp"', 'p4 d16 $ s "sn"', "tick 1", "tick 2", "tick 3", "tick 7/2"],
    ["tick 1/4 osc 0 midi 0", "at 1 place 1", "at 3 place 2", "at 2 place 3", "at 1 place 4", "tick 1 osc 0 midi 0", "tick 2 osc 2 midi 0"]
    + ["tick 3 osc 2 midi 0", "tick 7/2 osc 2 midi 0", "end 7/2 entries 9 osc 6 midi 0"],
    [packet(cycle, 1, orbit, s=name) for cycle, first in ((1, "bd"), (2, "bd"), (3, "hh")) for orbit, name in ((2, first), (16, "sn"))],
    log_of(
        [(0, 0, "tick 1/4"), (1, "1/4", 'swap 1 d2 $ s "bd"'), (2, "1/4", 'swap 3 jumpMod 2 3 $ s "hh"')]
        + [(3, "1/4", 'swap 2 jumpMod 16 2 $ s "cp"'), (4, "1/4", 'swap 1 d16 $ s "sn"'), *ticked([1, 2, 3, "7/2"], "1/4")]
    ),
)
# Lines of each form that is refused or does nothing, and blanks that a swap's text loses in the log.
FORMS = (
    [],
    ["Finish", "finish ", "", "p0 look", "p9 look", "p01 look", "p1", "p1 ", "p1  -- listen", 'p2   d1   $ s "bd" -- a beat ', "tick", "look"]
    + ["p1 d17 $ silence", 'p1 d1 $ s "bd?"', 'p1 d1 $ s "bd*512*256"', "p1 jumpMod 1 0 $ silence", "p1 foo", "tick 1\r", "\r"],
    [*["refused Unexpected 0"] * 7, "skip", "skip", "at 0 place 0", *["refused Unexpected 0"] * 2]
    + ["refused BadOrbit 0", "refused Random 10", "refused TooDense 131329", "refused BadEvery 10", "refused UnknownName 0"]
    + ["tick 1 osc 1 midi 0", "refused Unexpected 0", "end 1 entries 2 osc 1 midi 0"],
    [packet(0, 1, 1, s="bd")],
    log_of([(2, 0, 'swap 0 d1   $ s "bd" -- a beat'), *ticked([1])]),
)
# Lines that are not read, each with its first fault.
UNREAD = [
    *(("p1   ", "skip"), ("p1 -- nothing", "skip"), ("p1 d1 $ foo", "refused UnknownName 5"), ('p1 d1 $ s "bd', "refused Unclosed 7")),
    *((line, "refused BadFraction 5") for line in ["tick ", "tick x", "tick -1", "tick 1/0"]),
    ("tick 1/7", "refused OffGrid 5"),
]
NOT_READ = ([], [it[0] for it in UNREAD], [*(it[1] for it in UNREAD), "end 0 entries 0 osc 0 midi 0"], [], log_of([]))


def two_beats(words, bundles, **tempo):
    """Two steps of cycle 0, whose datagrams are written out byte by byte."""
    replies = ["at 0 place 0", "tick 1 osc 2 midi 0", "end 1 entries 2 osc 2 midi 0"]
    return (words, ['p1 d1 $ s "bd sn"', "tick 1"], replies, bundles, log_of([(1, 0, 'swap 0 d1 $ s "bd sn"'), *ticked([1])], **tempo))


def bundle(seconds, fraction, delta, sound):
    """A bundle of the first orbit in cycle 0: its time tag in two halves, and its length in microseconds, as they are sent."""
    message = b"/dirt/play\0\0,sisisiss\0\0\0cycle\0\0\0\0\0\0\0delta\0\0\0" + delta
    return b"#bundle\0" + seconds + fraction + b"\0\0\0\x44" + message + b"orbit\0\0\0\0\0\0\0s\0\0\0" + sound


# A cycle of 16/9 seconds, from the first second of 1970 on, and one of two seconds, from a second later on.
USUAL_TEMPO = two_beats(
    [],
    [
        bundle(b"\x83\xaa\x7e\x80", b"\0\0\0\0", b"\0\x0d\x90\x38", b"bd\0\0"),
        bundle(b"\x83\xaa\x7e\x80", b"\xe3\x8e\x38\xe3", b"\0\x0d\x90\x38", b"sn\0\0"),
    ],
)
SLOWER_TEMPO = two_beats(
    ["--cps", "1/2", "--origin=2208988801"],
    [
        bundle(b"\x83\xaa\x7e\x81", b"\0\0\0\0", b"\0\x0f\x42\x40", b"bd\0\0"),
        bundle(b"\x83\xaa\x7e\x82", b"\0\0\0\0", b"\0\x0f\x42\x40", b"sn\0\0"),
    ],
    cps="1/2",
    origin=2208988801,
)
WORKED = {
    "a boundary at a multiple of eight": ROW_11,
    "a swap in the second cycle": ROW_12,
    "twenty ticks before it": ROW_12_FINER,
    "half a cycle a second": ROW_13,
    "refused ticks": ROW_16,
    "16,384 looks": ROW_16_FULL,
    "lines that are too long": ROW_17,
    "mute and solo": ROW_19,
    "the desk": DESK,
    "patterns that wait": WAITS,
    "forms of lines": FORMS,
    "lines that are not read": NOT_READ,
    "the usual tempo": USUAL_TEMPO,
    "a cycle of two seconds": SLOWER_TEMPO,
    "nothing": ([], [], ["end 0 entries 0 osc 0 midi 0"], [], log_of([])),
}


def worked(receiver, name):
    words, lines, replies, packets, log = WORKED[name]
    return as_wanted(f"session, {name}", run(receiver, text_of(lines), words), wanted(replies, packets, log))


def without_line_feed(receiver):
    """A last line without a line feed is played, and one carriage return before a line feed is left away."""
    found = run(receiver, b'p1 d1 $ s "bd"\r\ntick 1')
    log = log_of([(1, 0, 'swap 0 d1 $ s "bd"'), *ticked([1])])
    replies = ["at 0 place 0", "tick 1 osc 1 midi 0", "end 1 entries 2 osc 1 midi 0"]
    return as_wanted("session, no last line feed", found, wanted(replies, [packet(0, 1, 1, s="bd")], log))


# Two performers with a beat.
BEAT = ['p1 d1 $ s "bd sn"', 'p2 d2 $ s "hh"', "tick 1", "p1 look"]
BEAT_REPLIES = ["at 0 place 0", "at 0 place 1", "tick 1 osc 3 midi 0", "desk 1 playing 1,2 muted - soloed - place 3", "end 1 entries 4 osc 3 midi 0"]
BEAT_PACKETS = [packet(0, Fraction(1, 2), 1, s="bd"), packet(0, 1, 2, s="hh"), packet(Fraction(1, 2), Fraction(1, 2), 1, s="sn")]
BEAT_ENTRIES = [(1, 0, 'swap 0 d1 $ s "bd sn"'), (2, 0, 'swap 0 d2 $ s "hh"'), (0, 0, "tick 1"), (1, 1, "look")]


def without_output(receiver, redirections, lines, entries, packets, end):
    """Standard output that takes nothing: the run stops at its first reply, and its log is whole."""
    found = run(receiver, text_of(lines), redirections=redirections)
    return as_wanted(f"session of {lines} {redirections}", found, wanted([], packets, log_of(entries, end), status=4))


def without_input(receiver, redirections):
    """Standard input that cannot be read: there is no end line, and the log says so."""
    found = run(receiver, b"", redirections=redirections)
    return as_wanted(f"session {redirections}", found, wanted([], [], log_of([], "fault"), status=5))


def full_disk(receiver):
    """No byte of the log can be written: replies and packets are whole."""
    found = run(receiver, text_of(BEAT), prepare=lambda room: os.symlink(FULL, room.log))
    return as_wanted("session, full disk", found, wanted(BEAT_REPLIES, BEAT_PACKETS, None, status=7))


def full_disk_and_output(receiver):
    """Neither the log nor a reply can be written: the output's status comes first."""
    found = run(receiver, text_of(BEAT), redirections=f">{FULL}", prepare=lambda room: os.symlink(FULL, room.log))
    return as_wanted("session, full disk and output", found, wanted([], [], None, status=4))


def no_device(name, number):
    """What stands on standard error where a device cannot be made: its name, and the system's reason."""
    return f"no device\n{name}: {os.strerror(number)} (os error {number})\n".encode()


def log_is_a_folder(receiver):
    """The log cannot be made: nothing is played, and the file of messages keeps what an older run left."""
    def prepare(room):
        room.log.mkdir()
        room.midi.write_bytes(b"older")

    found = run(receiver, text_of(BEAT), prepare=prepare)
    return as_wanted("session, no log", found, wanted([], [], None, status=8, error=no_device(LOG, errno.EISDIR), midi=b"older"))


def log_is_made_anew(receiver):
    """What an older run left in the log is gone."""
    found = run(receiver, text_of(BEAT), prepare=lambda room: room.log.write_text("older\n" * 1000))
    return as_wanted("session, older log", found, wanted(BEAT_REPLIES, BEAT_PACKETS, log_of(BEAT_ENTRIES)))


def bad_words(receiver):
    """Words of another form leave no file."""
    found = run(receiver, text_of(BEAT), ["--cps", "0"])
    return as_wanted("session, bad words", found, wanted(["usage: tdl query|play|serve|drill"], [], None, status=1, midi=None))


def query_leaves_no_file(_receiver):
    with Room() as room:
        ran = subprocess.run(command(["query", "bd", "0", "1"]), cwd=room.folder.name, stdin=subprocess.DEVNULL, capture_output=True, timeout=SECONDS)
        found = {"standard output": ran.stdout, "status": ran.returncode, "files": os.listdir(room.folder.name)}
    return as_wanted("query leaves no file", found, {"standard output": b"0 1 0 1 s=bd\n", "status": 0, "files": []})


# What a file takes of the events of 200 cycles, and the status: all 101,884 bytes, and the front that a full disk leaves.
PIECES = [(200_000, 0), (70_000, 4), (0, 4)]


def query_in_pieces(_receiver, room, status):
    """More events than are written at once, into a file that takes so many bytes."""
    ends = [Fraction(it, 16) for it in range(200 * 16 + 1)]
    text = text_of(f"{a} {b} {a} {b} s=bd" for a, b in zip(ends, ends[1:]))

    def limit():
        signal.signal(signal.SIGXFSZ, signal.SIG_IGN)
        resource.setrlimit(resource.RLIMIT_FSIZE, (room, room))

    with tempfile.TemporaryFile() as out:
        ran = subprocess.run(command(["query", "bd*16", "0", "200"]), stdin=subprocess.DEVNULL, stdout=out, preexec_fn=limit, timeout=SECONDS)
        out.seek(0)
        found = {"standard output": out.read(), "status": ran.returncode}
    return as_wanted(f"query in pieces, {room} bytes", found, {"standard output": text[:room], "status": status})


def too_much_input(receiver):
    """A script of more than 2^24 bytes: the lines before are played."""
    given = text_of(BEAT)
    given += b"x" * (MOST_INPUT - len(given) - 1) + b"\ntick 2\n"
    replies = [*BEAT_REPLIES[:-1], "refused LineTooLong 2048", BEAT_REPLIES[-1]]
    found = run(receiver, given)
    return as_wanted("session, too much input", found, wanted(replies, BEAT_PACKETS, log_of(BEAT_ENTRIES, "spent"), status=6))


def without_network(receiver):
    """No packet can be sent: the tick stands in the log, and its reply is not put."""
    found = run(receiver, text_of(BEAT), front=play.NO_NETWORK)
    return as_wanted("session, no network", found, wanted(BEAT_REPLIES[:2], [], log_of(BEAT_ENTRIES[:3], "stopped"), status=4))


def without_receiver(receiver):
    """Nobody listens: packets are lost, and nothing else is. The receiver is opened again."""
    receiver.close()
    with Room() as room:
        ran = subprocess.run(command(["play"]), cwd=room.folder.name, input=text_of(BEAT), capture_output=True, timeout=SECONDS)
        found = {"standard output": ran.stdout, "standard error": ran.stderr, "status": ran.returncode, "packets": []}
        found |= {"log": room.logged(), "midi": room.sounded()}
    receiver.__init__()
    return as_wanted("session, no receiver", found, wanted(BEAT_REPLIES, [], log_of(BEAT_ENTRIES)))


EXAMPLES = pathlib.Path(TOP, "examples")
ROW = re.compile(r"\| (\w+) \| (\d) \|.*\| (\d+) \| (\d+) \| (\d+) \|")


def example_rows():
    """Each script of examples/: its performers, cycles, packets and messages by the table beside it."""
    return [it.groups() for it in map(ROW.fullmatch, EXAMPLES.joinpath("README.md").read_text().splitlines()) if it]


def examples_have_rows(_receiver):
    found = {"scripts": sorted(it.name for it in EXAMPLES.iterdir() if it.is_file() and it.name != "README.md")}
    return as_wanted("examples", found, {"scripts": sorted(it[0] for it in example_rows())})


def example(receiver, name, performers, cycles, packets, messages):
    """It says first what to listen for, no line of it is refused, and it has what its row says. No note is left open."""
    given = EXAMPLES.joinpath(name).read_bytes()
    ran = run(receiver, given)
    lines, replies = given.decode().splitlines(), ran["standard output"].decode().splitlines()
    found = {
        "first line": lines[0].startswith("p1 -- listen for "),
        "refused": [it for it in replies if it.startswith("refused")],
        "performers": str(len({it[:2] for it in lines if it.startswith("p")})),
        "end": replies[-1],
        "packets": str(len(ran["packets"])),
        "notes": midi.heard(ran["midi"]),
        "status": ran["status"],
    }
    entries = len([it for it in replies[:-1] if not it.startswith("skip")])
    end = f"end {cycles} entries {entries} osc {packets} midi {messages}"
    expected = {"first line": True, "refused": [], "performers": performers, "end": end}
    expected |= {"packets": packets, "notes": (int(messages), {}), "status": 0}
    return as_wanted(f"examples/{name}", found, expected)


def kept_in(name):
    """The sessions of a file of tests/ that another program played. Where nothing is said of MIDI there were no messages."""
    with open(f"{TOP}/tests/{name}", encoding="utf-8") as file:
        return [{"midi": "", **json.loads(line)} for line in file]


def as_kept(found):
    """A run as tests/sessions.json and tests/notes.json keep it."""
    output = found["standard output"]
    return {
        "status": found["status"],
        "replies": output.decode().splitlines(),
        "packets": shorts(found["packets"]),
        "digest": digest(found["packets"]),
        "midi": (found["midi"] or b"").hex(),
        "log": (found["log"] or b"").decode(),
    }


def as_kept_of_finer(found):
    """A run with finer ticks as it is kept: digests of its replies and log."""
    kept = as_kept(found)
    replies = found["standard output"]
    log = found["log"] or b""
    return {
        "status": kept["status"],
        "packets": kept["packets"],
        "digest": kept["digest"],
        "midi": kept["midi"],
        "replies": [replies.count(b"\n"), hashlib.sha256(replies).hexdigest()],
        "log": [log.count(b"\n"), hashlib.sha256(log).hexdigest()],
    }


def session(receiver, row):
    """A session as it is."""
    found = run(receiver, text_of(row["lines"]))
    as_found = {**as_kept(found), "standard error": found["standard error"]}
    expected = {it: row[it] for it in ("status", "replies", "packets", "digest", "midi", "log")}
    return as_wanted(f"session {row['seed']}", as_found, {**expected, "standard error": b""})


def finer_session(receiver, row):
    """A session with every tick cut twenty times finer."""
    found = run(receiver, text_of(cut(row["lines"], row["replies"])))
    expected = {**{it: row[it] for it in ("status", "packets", "digest", "midi")}, **row["finer"]}
    as_found = {**as_kept_of_finer(found), "standard error": found["standard error"]}
    return as_wanted(f"session {row['seed']}, finer", as_found, {**expected, "standard error": b""})


# What is sent and kept where standard output takes nothing.
OUTPUTS = [
    ([], [], [], "eof"),
    ([""], [], [], "stopped"),
    (BEAT, BEAT_ENTRIES[:1], [], "stopped"),
    (['p1 look', *BEAT], [(1, 0, "look")], [], "stopped"),
    (["tick 1", *BEAT], [(0, 0, "tick 1")], [], "stopped"),
]
INPUTS = ["<&-", "</", "<&- >&-", "<&- >&- 2>&-"]


def checks():
    """Each check, with what it is given beside the receiver."""
    found = [(worked, it) for it in WORKED]
    found += [(without_output, to, *it) for to in (">&-", f">{FULL}") for it in OUTPUTS]
    found += [(without_input, it) for it in INPUTS]
    found += [(it,) for it in (without_line_feed, full_disk, full_disk_and_output, log_is_a_folder, log_is_made_anew, bad_words)]
    found += [(it,) for it in (query_leaves_no_file, too_much_input, without_receiver)]
    found += [(query_in_pieces, *it) for it in PIECES]
    if play.can_lose_network():
        found.append((without_network,))
    found += [(examples_have_rows,), *((example, *it) for it in example_rows())]
    found += [(check, row) for row in kept_in("sessions.json") for check in (session, finer_session)]
    return found


def passes(receiver, check, *given):
    try:
        return check(receiver, *given)
    except (OSError, subprocess.TimeoutExpired) as fault:
        return as_wanted(f"{check.__name__} {str(given)[:60]}", {"run": fault}, {})


def passes_each(found=None):
    """Whether each of these checks passes, or of those of this module. The port is free before and after."""
    found = found or checks()
    try:
        receiver = play.Receiver()
    except OSError as fault:
        return [as_wanted("sessions", {"receiver": f"{play.ADDRESS}: {fault}"}, {"receiver": "bound"})] * len(found)
    with contextlib.closing(receiver):
        return [passes(receiver, *it) for it in found]
