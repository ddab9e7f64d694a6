"""A served run of two performers in which an allocation fails: tools/fail-alloc says what has to hold."""
import threading
import time
from fractions import Fraction
from typing import NamedTuple

import serve
import served
from program import SECONDS

WORDS = served.Words(4, Fraction(20))
NO_MEMORY = b"no memory"
TYPED = [
    [
        'd1 $ stack [note "0 <4 7>", slow 5 $ note "0,4"] # s "midi"',
        'd2 $ s "bd*2 [~ sn]" # n "<0 3>"',
        "look",
        'd4 $ s "bd?"',
        "unsolo 1",
        'd2 $ every 2 (fast 2) $ s "hh*4"',
    ],
    [
        'jumpMod 3 2 $ every 2 (slow 3) $ note "[0,4,7]*2" # s "midi" # midichan 3 # velocity "100 1"',
        "-- a comment",
        "mute 1",
        "look",
        "unmute 1",
    ],
]


class Performer(threading.Thread):
    """Types its lines, each once the one before is answered, and then listens to the end. It comes after another performer."""

    def __init__(self, lines, is_over, other=None):
        super().__init__(daemon=True)
        self.lines, self.is_over, self.other, self.talk = lines, is_over, other, None

    def connection(self):
        """A connection, once the program listens and the other one has its own; none where the program has ended before."""
        while not self.is_over.is_set():
            try:
                if self.other is None or self.other.talk:
                    return served.connection()
            except OSError:
                pass
            time.sleep(0.005)
        return None

    def run(self):
        found = self.connection()
        if found is None:
            return
        self.talk = served.Talk(found)
        try:
            for number, it in enumerate(self.lines, 1):
                self.talk.say(it.encode() + b"\n")
                if not self.talk.listen_for(number):
                    break
            self.talk.stop()
            self.talk.listen_to_end()
        except OSError:
            pass

    def said(self):
        """What it sent, and what it heard."""
        return (bytes(self.talk.sent), bytes(self.talk.heard)) if self.talk else (b"", b"")


def run(receiver, room, run_on):
    """What a served run puts, sends, logs and ends with; it is run by what `run_on` does with its words."""
    is_over = threading.Event()
    receiver.waiting()
    dropped = receiver.dropped()
    ear, first = served.Ear(receiver), Performer(TYPED[0], is_over)
    performers = [first, Performer(TYPED[1], is_over, first)]
    ear.start()
    for it in performers:
        it.start()
    status = run_on(WORDS.of(len(TYPED)))
    is_over.set()
    for it in performers:
        it.join(SECONDS)
    replies, error = (room.log.parent.joinpath(it).read_bytes() for it in ("replies", "error"))
    found = {"standard output": replies, "standard error": error, "status": status, "packets": ear.end()}
    found["dropped"] = receiver.dropped() - dropped
    return {**found, "log": room.logged(), "midi": room.sounded(), "performers": [it.said() for it in performers]}


class Said(NamedTuple):
    """The lines of a performer that had an answer other than `no memory`, and the answers."""

    sent: bytes
    heard: bytes


def without_refused(sent, heard):
    """A performer's lines and replies without those for which there was no memory."""
    lines, replies = sent.splitlines(keepends=True), heard.splitlines(keepends=True)
    refused = [at for at, it in enumerate(replies) if it.strip() == NO_MEMORY]
    kept = [b"".join(it for at, it in enumerate(given) if at not in refused) for given in (lines, replies)]
    return Said(*kept)


class Run(NamedTuple):
    """What the parts of a run are made of."""

    talks: list


def is_front(found, whole, least):
    """Whether a list is a beginning of another, of at least so many."""
    return found == whole[:len(found)] and len(found) >= least


def wrong_wires(found, log, told, play_of):
    """What does not hold of packets and messages: where memory ran out, the last tick or finish may be cut short."""
    least = (len(told.packets), len(told.midi))
    if found["status"] == 3:
        ticks = [at for at, it in enumerate(log.entries) if it.said is None]
        before = serve.told(play_of, log._replace(entries=log.entries[:ticks[-1]])) if ticks else told
        least = (len(before.packets), len(before.midi))
    if not is_front(found["packets"], told.packets, least[0]):
        yield f"{len(found['packets'])} packets are not those of the log, which has {least[0]} to {len(told.packets)}"
    if not is_front(found["midi"] or b"", told.midi, least[1]):
        yield f"{len(found['midi'] or b'')} bytes of messages are not those of the log, which has {least[1]} to {len(told.midi)}"


def wrong_parts(found, log, told, play_of):
    """What does not hold of the performers' entries and replies."""
    talks = [without_refused(*it) for it in found["performers"]]
    for number, (part, talk) in enumerate(zip(serve.parts_of(play_of, Run(talks), log, told.replies), talks), 1):
        may_miss = part.end == "memory" or found["status"] == 3
        said, answers = part.said(), part.answers()
        if part.own != said[:len(part.own)] or len(part.own) < len(said) and not may_miss:
            yield f"the entries of performer {number} are not its lines"
        if talk.heard != answers[:len(talk.heard)] or len(talk.heard) < len(answers) and not may_miss:
            yield f"the replies of performer {number} are not those to its lines"
        if part.end not in ("eof", "memory") and not may_miss:
            yield f"port {number} ends with {part.end}"


def wrong(found, play_of):
    """What does not hold of a served run in which a call of the allocator failed, beside `play` of its log."""
    if found["status"] not in (0, 3):
        yield f"status {found['status']}"
    if not found["log"]:
        if found["packets"] or found["midi"] or any(heard for _, heard in found["performers"]) or found["status"] != 3:
            yield "there is no log, and something was put or sent"
        return
    log = served.read_log(found["log"])
    told = serve.told(play_of, log)
    if log.last != b"end %d" % len(log.entries) or log.others:
        yield "the log is not whole"
    if [it.line for it in log.entries] != told.lines:
        yield "the log's entries are not those of `play`"
    if found["status"] == 0 and log.finish_at() == len(log.entries):
        yield "there is no finish"
    yield from wrong_wires(found, log, told, play_of)
    yield from wrong_parts(found, log, told, play_of)
