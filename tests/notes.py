"""MIDI and the finish of `tdl play`: its messages byte for byte, its replies, its log and its status.

Twenty scripts with many notes are random, and another program gave their replies, datagrams, messages and logs
(tests/notes.json: docs/CONTRIBUTING.md). Each is played as it is, and again with every tick cut twenty times finer,
which sends the same.
"""
import errno
import os
import resource
import signal
import subprocess
from fractions import Fraction
from typing import NamedTuple

import midi
import play
import sessions
from program import SECONDS, as_wanted, command
from sessions import FULL, MOST_INPUT, Room, log_of, packet, run, text_of, ticked, wanted


class Worked(NamedTuple):
    """A script with what it gives: its messages are in hexadecimal, those of each tick and of the finish apart."""

    lines: list
    replies: list
    midi: str
    entries: list
    packets: list = []
    end: str = "finish"
    open: dict = {}
    words: list = []

    def messages(self):
        return bytes.fromhex(self.midi.replace("|", ""))


def swapped(line, boundary=0, frontier=0):
    """The entry of a performer's line."""
    return (int(line[1]), frontier, f"swap {boundary} {line[3:]}")


def finished(places, frontier=0):
    """The entries of ticks to these places, and of the finish."""
    return [*ticked(places, frontier), (0, places[-1] if places else frontier, "finish")]


def alone(line, places, counts, midi_hex, **more):
    """The script of one line, ticks to these places and the finish: how many messages each tick and the finish send."""
    sent = [f"tick {place} osc 0 midi {count}" for place, count in zip(places, counts)]
    end = [f"finish {places[-1]} midi {counts[-1]}", f"end {places[-1]} entries {len(places) + 2} osc 0 midi {sum(counts)}"]
    lines = [line, *(f"tick {it}" for it in places), "finish"]
    return Worked(lines, ["at 0 place 0", *sent, *end], midi_hex, [swapped(line), *finished(places)], **more)


LONG = 'p1 d1 $ slow 2 $ note "0" # s "midi"'
FIFTH = 'p2 d1 $ note "5" # s "midi"'
SEVENTH = 'p2 d2 $ slow 2 $ note "7" # s "midi"'
BOTH = 'p1 d1 $ stack [s "bd", note "0" # s "midi"]'
TWO = 'p1 d1 $ note "0 2" # s "midi"'
HALVES = [Fraction(1, 2), 1]
TICKS = ["tick 1/2", "tick 1"]
TWO_REPLIES = ["at 0 place 0", "tick 1/2 osc 0 midi 1", "tick 1 osc 0 midi 2", "finish 1 midi 1", "end 1 entries 4 osc 0 midi 4"]
TWO_MIDI = bytes.fromhex("903c40 803c40 903e40 803e40")
TWO_ENTRIES = [swapped(TWO), *finished(HALVES)]

WORKED = {
    "two notes": Worked([TWO, *TICKS, "finish"], TWO_REPLIES, "903c40 | 803c40 903e40 | 803e40", TWO_ENTRIES),
    "a note longer than the script": alone('p1 d1 $ slow 3 $ note "0" # s "midi"', [1], [1, 1], "903c40 | 803c40"),
    "a note across cycles": alone(
        'p1 d1 $ slow 4 $ note "0 7" # s "midi"', [1, 2, 3, 4, Fraction(9, 2)], [1, 0, 2, 0, 2, 1],
        "903c40 | | 803c40 904340 | | 804340 903c40 | 803c40"
    ),
    "the same note twice": alone(
        'p1 d1 $ stack [note "0" # s "midi", note "0" # s "midi"]', [1], [2, 2], "903c40 903c40 | 803c40 803c40"
    ),
    "the same key again and again": alone('p1 d1 $ note "0*3" # s "midi"', [1], [5, 1], "903c40 803c40 903c40 803c40 903c40 | 803c40"),
    "chords": alone(
        'p1 d1 $ note "[0,4,7]*2" # s "midi" # velocity 100', HALVES, [3, 6, 3],
        "903c64 904064 904364 | 803c40 804040 804340 903c64 904064 904364 | 803c40 804040 804340"
    ),
    "a note that ends where a tick ends": alone(
        'p1 d1 $ note "0 ~" # s "midi"', [Fraction(1, 2), Fraction(23041, 46080), 1], [1, 1, 0, 0], "903c40 | 803c40"
    ),
    "notes that end together": alone(
        'p1 d1 $ stack [note "~ 7", note "0"] # s "midi"', [1], [2, 2], "903c40 904340 | 803c40 804340"
    ),
    "a finish in the order of the ends": alone(
        'p1 d1 $ stack [slow 3 $ note "0", note "7"] # s "midi"', [1], [2, 2], "903c40 904340 | 804340 803c40"
    ),
    "a finish within a note": alone('p1 d1 $ note "0" # s "midi"', [Fraction(1, 4)], [1, 1], "903c40 | 803c40"),
    "a finish where nothing sounds": alone('p1 d1 $ note "0 ~" # s "midi"', [Fraction(1, 2), 1], [1, 1, 0], "903c40 | 803c40"),
    "keys out of range": alone('p1 d1 $ note "-61 -60 67 68" # s "midi"', [1], [4, 0], "900040 800040 907f40 807f40"),
    "keys far out of range": alone('p1 d1 $ note "2147483647 -2147483647" # s "midi"', [1], [0, 0], ""),
    "channels out of range": alone(
        'p1 d1 $ note "0*4" # midichan "-1 0 15 16" # s "midi"', [1], [4, 0], "903c40 803c40 9f3c40 8f3c40"
    ),
    "velocities out of range": alone(
        'p1 d1 $ note "0*4" # velocity "0 1 127 128" # s "midi"', [1], [4, 0], "903c01 803c40 903c7f 803c40"
    ),
    "ways to name a key": alone(
        'p1 d1 $ fastcat [n "3" # s "midi", note "1" # n "5" # s "midi", s "midi:7", sound "midi"]', [1], [7, 1],
        "903f40 | 803f40 903d40 | 803d40 904340 | 804340 903c40 | 803c40"
    ),
    "note names": alone('p1 d1 $ note "c a4 cs5" # s "midi"', [1], [5, 1], "903c40 803c40 903940 803940 903d40 | 803d40"),
    "a sound and a note": Worked(
        [BOTH, "tick 1"], ["at 0 place 0", "tick 1 osc 1 midi 1", "end 1 entries 2 osc 1 midi 1"], "903c40",
        [swapped(BOTH), *ticked([1])], [packet(0, 1, 1, s="bd")], "eof", {(0, 60): 1}
    ),
    "sounds with other names": Worked(
        ['p1 d1 $ s "midi2 Midi"', "tick 1", "finish"],
        ["at 0 place 0", "tick 1 osc 2 midi 0", "finish 1 midi 0", "end 1 entries 3 osc 2 midi 0"], "",
        [(1, 0, 'swap 0 d1 $ s "midi2 Midi"'), *finished([1])],
        [packet(0, Fraction(1, 2), 1, s="midi2"), packet(Fraction(1, 2), Fraction(1, 2), 1, s="Midi")]
    ),
    "one key on two orbits": Worked(
        [LONG, 'p2 d2 $ note "0" # s "midi"', "tick 1", "tick 3/2", "finish"],
        ["at 0 place 0", "at 0 place 1", "tick 1 osc 0 midi 2", "tick 3/2 osc 0 midi 2", "finish 3/2 midi 2"]
        + ["end 3/2 entries 5 osc 0 midi 6"],
        "903c40 903c40 | 803c40 903c40 | 803c40 803c40",
        [swapped(LONG), (2, 0, 'swap 0 d2 $ note "0" # s "midi"'), *finished([1, "3/2"])]
    ),
    "a swap while a note sounds": Worked(
        [LONG, "tick 1/2", FIFTH, "tick 1", "tick 2", "tick 5/2", "finish"],
        ["at 0 place 0", "tick 1/2 osc 0 midi 1", "at 1 place 2", "tick 1 osc 0 midi 0", "tick 2 osc 0 midi 1", "tick 5/2 osc 0 midi 3"]
        + ["finish 5/2 midi 1", "end 5/2 entries 7 osc 0 midi 6"],
        "903c40 | | 904140 | 803c40 804140 904140 | 804140",
        [swapped(LONG), *ticked(["1/2"]), swapped(FIFTH, 1, "1/2"), *finished([1, 2, "5/2"], "1/2")]
    ),
    "a hush while a note sounds": Worked(
        [LONG, "tick 1/2", "p2 hush", "tick 1", "tick 2", "tick 5/2", "finish"],
        ["at 0 place 0", "tick 1/2 osc 0 midi 1", "at 1 place 2", "tick 1 osc 0 midi 0", "tick 2 osc 0 midi 0", "tick 5/2 osc 0 midi 1"]
        + ["finish 5/2 midi 0", "end 5/2 entries 7 osc 0 midi 2"],
        "903c40 | | | 803c40",
        [swapped(LONG), *ticked(["1/2"]), (2, "1/2", "swap 1 hush"), *finished([1, 2, "5/2"], "1/2")]
    ),
    "a mute and a solo while notes sound": Worked(
        [LONG, SEVENTH, "tick 1/2", "p3 mute 1", "p4 solo 16", "tick 1", "tick 2", "finish"],
        ["at 0 place 0", "at 0 place 1", "tick 1/2 osc 0 midi 2", "at 1 place 3", "at 1 place 4", "tick 1 osc 0 midi 0"]
        + ["tick 2 osc 0 midi 0", "finish 2 midi 2", "end 2 entries 8 osc 0 midi 4"],
        "903c40 904340 | | | 803c40 804340",
        [swapped(LONG), swapped(SEVENTH), *ticked(["1/2"]), (3, "1/2", "swap 1 mute 1"), (4, "1/2", "swap 1 solo 16")]
        + finished([1, 2], "1/2")
    ),
    "a finish alone": Worked(["finish"], ["finish 0 midi 0", "end 0 entries 1 osc 0 midi 0"], "", finished([])),
    "a finish without a tick": Worked(
        [TWO, "finish"], ["at 0 place 0", "finish 0 midi 0", "end 0 entries 2 osc 0 midi 0"], "", [swapped(TWO), *finished([])]
    ),
    "a finish after a look": Worked(
        ["tick 1", "p8 look", "finish\r"],
        ["tick 1 osc 0 midi 0", "desk 1 playing - muted - soloed - place 1", "finish 1 midi 0", "end 1 entries 3 osc 0 midi 0"], "",
        [*ticked([1]), (8, 1, "look"), (0, 1, "finish")]
    ),
    "no finish": Worked(
        [TWO, *TICKS], [*TWO_REPLIES[:3], "end 1 entries 3 osc 0 midi 3"], "903c40 | 803c40 903e40", TWO_ENTRIES[:3], [], "eof", {(0, 62): 1}
    ),
    "what is no finish": Worked(
        [TWO, *TICKS, "finish ", " finish", "Finish", "finish 1", "finish\r\r", "p1 finish", "p0 finish", "finishfinish"],
        [*TWO_REPLIES[:3], *["refused Unexpected 0"] * 5, "refused UnknownName 0", *["refused Unexpected 0"] * 2]
        + ["end 1 entries 3 osc 0 midi 3"],
        "903c40 | 803c40 903e40", TWO_ENTRIES[:3], [], "eof", {(0, 62): 1}
    ),
    "lines after the finish": Worked(
        [TWO, *TICKS, "finish", "finish", "tick 2", TWO, "p1 look", "what is this", "x" * 5000, ""],
        TWO_REPLIES, "903c40 | 803c40 903e40 | 803e40", TWO_ENTRIES
    ),
    "another tempo": Worked(
        [TWO, *TICKS, "finish"], TWO_REPLIES, "903c40 | 803c40 903e40 | 803e40", TWO_ENTRIES, words=["--cps", "7/3", "--origin=1"]
    ),
}


def worked(receiver, name):
    """A script, and its messages as readers of MIDI hear them."""
    row = WORKED[name]
    tempo = {"cps": "7/3", "origin": 1} if row.words else {}
    found = run(receiver, text_of(row.lines), row.words)
    expected = wanted(row.replies, row.packets, log_of(row.entries, row.end, **tempo), midi=row.messages())
    heard = (len(row.messages()) // midi.SIZE, row.open)
    return as_wanted(f"notes, {name}", {**found, "heard": midi.heard(found["midi"])}, {**expected, "heard": heard})


def reads_midi(_receiver):
    """The reader of these checks reads messages that are known, and none that are damaged."""
    known = bytes.fromhex("903c40 9f7f01 803c40")
    damaged = ["90", "903c", "903c40 80", "3c40", "90 ff 40", "903c80", "903c00", "b03c40", "f8", "903c40 3e40 40", "803c40", "a03c40"]
    found = {"known": midi.heard(known), "damaged": [type(midi.heard(bytes.fromhex(it))) for it in damaged]}
    return as_wanted("the MIDI reader", found, {"known": (3, {(15, 127): 1}), "damaged": [str] * len(damaged)})


# ---- the end of the input
TWO_SCRIPT = text_of([TWO, *TICKS])
FINISH = b"finish\n"


def padded(text, back, count):
    """A text of so many bytes that ends like this, filled by a line that is too long."""
    return text + b"x" * (count - len(text) - len(back)) + back


GARBAGE = bytes(range(256)) * (MOST_INPUT // 256)
FINISHED_INPUTS = {
    "2^24 bytes after it": TWO_SCRIPT + FINISH + GARBAGE,
    "a line of 2^24 bytes after it": TWO_SCRIPT + FINISH + b"x" * MOST_INPUT,
    "2^25 bytes after it": TWO_SCRIPT + FINISH + GARBAGE * 2,
    "no line feed": TWO_SCRIPT + b"finish",
    "bytes without a line feed after it": TWO_SCRIPT + FINISH + b"\xff\xfe\0",
}
FULL_INPUTS = {
    "at the end of 2^24 bytes": padded(TWO_SCRIPT, b"\nfinish\n", MOST_INPUT),
    "at the end of 2^24 bytes, and more after it": padded(TWO_SCRIPT, b"\nfinish\n", MOST_INPUT) + b"tick 2\n",
    "at the end of 2^24 bytes, without a line feed": padded(TWO_SCRIPT, b"\nfinish", MOST_INPUT),
}


def after_finish(receiver, name):
    """Nothing after the finish is looked at, and the input may be longer than what counts."""
    found = run(receiver, FINISHED_INPUTS[name])
    return as_wanted(f"finish, {name}", found, wanted(TWO_REPLIES, [], log_of(TWO_ENTRIES, "finish"), midi=TWO_MIDI))


def finish_in_time(receiver, name):
    """A finish that is within the bytes that count."""
    found = run(receiver, FULL_INPUTS[name])
    replies = [*TWO_REPLIES[:3], "refused LineTooLong 2048", *TWO_REPLIES[3:]]
    return as_wanted(f"finish, {name}", found, wanted(replies, [], log_of(TWO_ENTRIES, "finish"), midi=TWO_MIDI))


def finish_too_late(receiver):
    """A finish whose line feed does not count."""
    found = run(receiver, padded(TWO_SCRIPT, b"\nfinish", MOST_INPUT) + b"\n")
    replies = [*TWO_REPLIES[:3], "refused LineTooLong 2048", "end 1 entries 3 osc 0 midi 3"]
    expected = wanted(replies, [], log_of(TWO_ENTRIES[:3], "spent"), status=6, midi=TWO_MIDI[:9])
    return as_wanted("finish, too late", found, expected)


def conversation(room):
    """A run whose lines are given one by one."""
    pipes = {"stdin": subprocess.PIPE, "stdout": subprocess.PIPE, "stderr": subprocess.PIPE}
    return subprocess.Popen(command(["play"]), cwd=room.folder.name, bufsize=0, **pipes)


def said(child, line):
    """Gives a line, and answers its reply."""
    child.stdin.write(text_of([line]))
    return play.line_of(child).decode().removesuffix("\n")


def ended(child, room):
    """The last output of a run whose input stays open, its status and its files."""
    with child:
        try:
            child.wait(SECONDS)
        except subprocess.TimeoutExpired:
            raise play.stopped(child) from None
        out = b"" if child.stdout.closed else child.stdout.read()
        found = {"standard output": out, "standard error": child.stderr.read(), "status": child.returncode}
        return {**found, "packets": [], "log": room.logged(), "midi": room.sounded()}


def input_stays_open(_receiver):
    """The finish ends a run though its input goes on."""
    with Room() as room:
        child = conversation(room)
        replies = [said(child, it) for it in (TWO, *TICKS, "finish")]
        found = {**ended(child, room), "replies": replies}
    expected = wanted(TWO_REPLIES[4:], [], log_of(TWO_ENTRIES, "finish"), midi=TWO_MIDI)
    return as_wanted("finish, the input stays open", found, {**expected, "replies": TWO_REPLIES[:4]})


# ---- devices that fail
def output_closed_before(line, lines, replies, entries, messages):
    """Nobody reads the replies from this line on: its messages are sent all the same, and the log has it."""
    with Room() as room:
        child = conversation(room)
        found = [said(child, it) for it in lines]
        child.stdout.close()
        child.stdin.write(text_of([line]))
        found = {**ended(child, room), "replies": found}
    expected = wanted([], [], log_of(entries, "stopped"), status=4, midi=messages)
    return as_wanted(f"notes, output closed before {line}", found, {**expected, "replies": replies})


def finish_without_output(_receiver):
    """All notes end, though the reply to the finish cannot be put."""
    return output_closed_before("finish", [TWO, *TICKS], TWO_REPLIES[:3], TWO_ENTRIES, TWO_MIDI)


def tick_without_output(_receiver):
    """The messages of a tick are sent before its reply."""
    return output_closed_before("tick 1/2", [TWO], TWO_REPLIES[:1], TWO_ENTRIES[:2], TWO_MIDI[:3])


def finish_on_full_output(receiver):
    """Standard output that takes nothing, and the finish as the first line."""
    found = run(receiver, FINISH, redirections=f">{FULL}")
    return as_wanted("notes, full output", found, wanted([], [], log_of(finished([]), "stopped"), status=4))


def full_disk(receiver):
    """No message can be written: the tick's packets were sent and it stands in the log, but its reply is not put."""
    found = run(receiver, text_of([BOTH, "tick 1", "finish"]), prepare=lambda room: os.symlink(FULL, room.midi))
    log = log_of([swapped(BOTH), *ticked([1])], "stopped")
    return as_wanted("notes, full disk", found, wanted(["at 0 place 0"], [packet(0, 1, 1, s="bd")], log, status=4, midi=None))


def full_disk_without_notes(receiver):
    """No message can be written, and there is none."""
    found = run(receiver, text_of([*sessions.BEAT, "finish"]), prepare=lambda room: os.symlink(FULL, room.midi))
    replies = [*sessions.BEAT_REPLIES[:-1], "finish 1 midi 0", "end 1 entries 5 osc 3 midi 0"]
    log = log_of([*sessions.BEAT_ENTRIES, (0, 1, "finish")], "finish")
    return as_wanted("notes, full disk and no notes", found, wanted(replies, sessions.BEAT_PACKETS, log, midi=None))


def full_disk_for_both_files(receiver):
    """Neither the messages nor the log can be written: the status of the messages comes first."""
    def prepare(room):
        os.symlink(FULL, room.midi)
        os.symlink(FULL, room.log)

    found = run(receiver, text_of([BOTH, "tick 1"]), prepare=prepare)
    expected = wanted(["at 0 place 0"], [packet(0, 1, 1, s="bd")], None, status=4, midi=None)
    return as_wanted("notes, full disk for both files", found, expected)


def full_disk_for_the_log(receiver):
    """The log cannot be written: replies and messages are whole."""
    found = run(receiver, text_of([TWO, *TICKS, "finish"]), prepare=lambda room: os.symlink(FULL, room.log))
    return as_wanted("notes, full disk for the log", found, wanted(TWO_REPLIES, [], None, status=7, midi=TWO_MIDI))


def limit(count):
    """Lets files of the program be so long. It runs in the child, where the signal is at its default."""
    def prepare():
        signal.signal(signal.SIGXFSZ, signal.SIG_IGN)
        resource.setrlimit(resource.RLIMIT_FSIZE, (count, count))

    return prepare


# 64 notes of one key at once
MANY = "p1 d1 $ " + "superimpose id $ " * 6 + 'note "0" # s "midi"'


def full_in_a_tick(receiver):
    """A disk that is full after some messages of a tick: what was sent is a front of them."""
    lines = [MANY, "tick 1", "tick 2", "finish"]
    found = run(receiver, text_of(lines), limit=limit(500))
    sent = bytes.fromhex("903c40" * 64 + "803c40" * 64 + "903c40" * 64)[:500]
    log = log_of([swapped(MANY), *ticked([1, 2])], "stopped")
    return as_wanted("notes, full in a tick", found, wanted(["at 0 place 0", "tick 1 osc 0 midi 64"], [], log, status=4, midi=sent))


def full_in_the_finish(receiver):
    """A disk that is full after some messages of the finish: it stands in the log, but its reply is not put."""
    found = run(receiver, text_of([MANY, "tick 1", "finish"]), limit=limit(301))
    sent = bytes.fromhex("903c40" * 64 + "803c40" * 64)[:301]
    log = log_of([swapped(MANY), *finished([1])], "stopped")
    return as_wanted("notes, full in the finish", found, wanted(["at 0 place 0", "tick 1 osc 0 midi 64"], [], log, status=4, midi=sent))


def no_midi_file(receiver, name):
    """The file of messages cannot be made: nothing is played, and the log keeps what an older run left."""
    def prepare(room):
        room.log.write_text("older\n")
        NO_FILES[name][0](room)

    error = sessions.no_device("midi.out", NO_FILES[name][1])
    found = run(receiver, text_of(sessions.BEAT), prepare=prepare)
    return as_wanted(f"notes, {name}", found, wanted([], [], ["older"], status=8, error=error, midi=None))


NO_FILES = {
    "midi.out is a folder": (lambda room: room.midi.mkdir(), errno.EISDIR),
    "midi.out is a link into no folder": (lambda room: os.symlink("nowhere/midi.out", room.midi), errno.ENOENT),
}


def made_anew(receiver):
    """What an older run left is gone, also where nothing is sent."""
    expected = wanted(sessions.BEAT_REPLIES, sessions.BEAT_PACKETS, log_of(sessions.BEAT_ENTRIES))
    found = run(receiver, text_of(sessions.BEAT), prepare=lambda room: room.midi.write_bytes(TWO_MIDI * 1000))
    return as_wanted("notes, an older file", found, expected)


def without_descriptors(receiver, count):
    """There are too few descriptors for all devices: three standard streams, four sockets for a while, and two files."""
    def few():
        resource.setrlimit(resource.RLIMIT_NOFILE, (count, count))

    found = run(receiver, text_of([TWO, *TICKS, "finish"]), limit=few)
    error = sessions.no_device("midi.out" if count > 7 else "tdl.log" if count > 6 else "socket", errno.EMFILE)
    missing = wanted([], [], [] if count > 7 else None, status=8, error=error, midi=None)
    whole = wanted(TWO_REPLIES, [], log_of(TWO_ENTRIES, "finish"), midi=TWO_MIDI)
    return as_wanted(f"notes, {count} descriptors", found, whole if count > 8 else missing)


def without_network(receiver):
    """A tick whose packets cannot be sent sends no message, and notes alone are sent all the same."""
    both = run(receiver, text_of([BOTH, "tick 1", "finish"]), front=play.NO_NETWORK)
    expected = wanted(["at 0 place 0"], [], log_of([swapped(BOTH), *ticked([1])], "stopped"), status=4)
    notes = run(receiver, text_of([TWO, *TICKS, "finish"]), front=play.NO_NETWORK)
    whole = wanted(TWO_REPLIES, [], log_of(TWO_ENTRIES, "finish"), midi=TWO_MIDI)
    return as_wanted("notes, no network", {"both": both, "notes": notes}, {"both": expected, "notes": whole})


# ---- a FIFO in the place of the file
def fifo_of(room):
    """A FIFO with the name of the file, open for reading. A read does not wait."""
    os.mkfifo(room.midi)
    return os.open(room.midi, os.O_RDONLY | os.O_NONBLOCK)


def come(reader):
    """What has come through a FIFO since the last read."""
    try:
        return os.read(reader, 4096)
    except BlockingIOError:
        return b""


def fifo(_receiver):
    """The messages of each line have come once its reply is there."""
    with Room() as room:
        reader = fifo_of(room)
        child = conversation(room)
        lines = [(said(child, it), come(reader)) for it in (TWO, *TICKS, "finish")]
        found = {**ended(child, room), "lines": lines}
        os.close(reader)
    expected = wanted(TWO_REPLIES[4:], [], log_of(TWO_ENTRIES, "finish"), midi=None)
    sent = [b"", TWO_MIDI[:3], TWO_MIDI[3:9], TWO_MIDI[9:]]
    return as_wanted("notes, a FIFO", found, {**expected, "lines": list(zip(TWO_REPLIES, sent))})


def fifo_without_reader(_receiver):
    """The reader of a FIFO goes away: the next tick with a message cannot send it."""
    with Room() as room:
        reader = fifo_of(room)
        child = conversation(room)
        lines = [(said(child, it), come(reader)) for it in (TWO, "tick 1/2")]
        os.close(reader)
        child.stdin.write(text_of(["tick 1"]))
        found = {**ended(child, room), "lines": lines}
    expected = wanted([], [], log_of(TWO_ENTRIES[:3], "stopped"), status=4, midi=None)
    sent = [b"", TWO_MIDI[:3]]
    return as_wanted("notes, a FIFO that nobody reads", found, {**expected, "lines": list(zip(TWO_REPLIES, sent))})


# ---- scripts that another program played
def kept(receiver, row):
    """A script as it is. Readers of MIDI hear its messages, and no note is open after the finish."""
    messages = bytes.fromhex(row["midi"])
    heard = midi.heard(messages)
    left = {} if "\nport 0 finish\n" in row["log"] else heard[1]
    is_heard = as_wanted(f"notes {row['seed']}, heard", {"heard": heard}, {"heard": (len(messages) // midi.SIZE, left)})
    return sessions.session(receiver, row) and is_heard


def checks():
    """Each check, with what it is given beside the receiver."""
    found = [(reads_midi,), *((worked, it) for it in WORKED)]
    found += [(after_finish, it) for it in FINISHED_INPUTS]
    found += [(finish_in_time, it) for it in FULL_INPUTS]
    found += [(it,) for it in (finish_too_late, input_stays_open, finish_without_output, tick_without_output, finish_on_full_output)]
    found += [(it,) for it in (full_disk, full_disk_without_notes, full_disk_for_both_files, full_disk_for_the_log)]
    found += [(it,) for it in (full_in_a_tick, full_in_the_finish, made_anew, fifo, fifo_without_reader)]
    found += [(no_midi_file, it) for it in NO_FILES]
    found += [(without_descriptors, it) for it in range(5, 10)]
    if play.can_lose_network():
        found.append((without_network,))
    if not midi.mido:
        print("left out: MIDI messages read by mido: Python's mido is not installed")
    found += [(check, row) for row in sessions.kept_in("notes.json") for check in (kept, sessions.finer_session)]
    return found


def passes_each():
    """Whether each check passes. The port is free before and after."""
    return sessions.passes_each(checks())
