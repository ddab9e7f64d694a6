"""Performers at the ports of tools/stage, who are cut off in the middle of a line again and again, and come back.

A visit is one connection of a performer: random lines, and then a cut by a close, a reset or a half-close. Who comes
back is the same performer. The half line is dropped; of the lines before it, some may not have come in where the
connection was closed or reset. All others stand in the log once and in their order, and each reply that came is that
of its line. What is sent and logged is compared with `play` of the log's calls, as in tests/serve.py.
"""
import contextlib
import pathlib
import socket
import tempfile
import threading
import time
from fractions import Fraction
from typing import NamedTuple

import performers
import play
import serve
import served
import stage
from program import SECONDS, as_wanted

HERE = stage.HERE.encode()
VISITS = 6
LATENCY = 0.1
LINGER = 2  # seconds that the stage waits for the last replies of who half-closes


def closes(talk):
    talk.socket.close()


def resets(talk):
    talk.reset()


def half_closes(talk):
    """Its replies still come, and then the stage ends the connection."""
    start = time.monotonic()
    talk.stop()
    talk.listen_to_end()
    talk.pause = time.monotonic() - start
    talk.socket.close()


WAYS = [closes, resets, half_closes]


class Visit(NamedTuple):
    """A connection of a performer, and how it was cut."""

    talk: served.Talk
    way: object

    def is_heard_out(self):
        """Whether all its replies have to be there."""
        return self.way is half_closes and self.talk.pause is not None and self.talk.pause < LINGER

    def lines(self):
        """The lines that were sent whole, but for the one that asks whether the port is free."""
        return [it.removesuffix(b"\r") for it in bytes(self.talk.sent).split(b"\n")[1:-1]]

    def replies(self):
        """The replies that came whole, one to a line."""
        return bytes(self.talk.heard).split(b"\n")[1:-1]


def connected(number):
    """A connection to the stage as this performer, once who was cut off is gone."""
    last = time.monotonic() + served.WAIT
    while time.monotonic() < last:
        talk = served.Talk(socket.create_connection((stage.HOST, stage.FIRST + number - 1), SECONDS))
        talk.say(HERE)
        if talk.listen_for(1) and talk.heard == b"skip\n":
            return talk
        talk.socket.close()
        time.sleep(0.01)
    raise OSError(f"performer {number} is not let in")


def visit(number, source):
    """Comes, types lines up to a place within one, and is cut off there."""
    talk, way = connected(number), source.choice(WAYS)
    text = b"".join(performers.lines(source, source.randint(2, 40)))
    with contextlib.suppress(OSError):
        performers.type_out(talk, source, text[:source.randint(1, len(text) - 2)], source.random())
        way(talk)
    return Visit(talk, way)


class Performer(threading.Thread):
    """A performer who comes again and again, for the last time when a run of so many seconds is half over."""

    def __init__(self, number, source, seconds):
        super().__init__(daemon=True)
        self.number = number
        self.source = source
        self.over = time.monotonic() + seconds
        self.last = self.over - seconds / 2
        self.visits = []
        self.trouble = None

    def run(self):
        try:
            for _ in range(self.source.randint(1, VISITS)):
                if time.monotonic() < self.last:
                    self.visits.append(visit(self.number, self.source))
                    time.sleep(self.source.random() / 10)
        except OSError as fault:
            self.trouble = fault if time.monotonic() < self.over else None


class Staged(NamedTuple):
    """A run by tools/stage, and what came of it."""

    run: served.Run
    performers: list
    put: list


def acted(room, count, cycles, cps, source):
    """Performers come and go up to the end of a run. What the stage put, and its status."""
    words = ["--performers", str(count), "--cycles", str(cycles), "--cps", str(cps), "--latency", str(LATENCY)]
    with contextlib.closing(stage.Stage(room, *words)) as it:
        cast = [Performer(number, source(number), cycles / cps) for number in range(1, count + 1)]
        for each in cast:
            each.start()
        for each in cast:
            each.join(SECONDS)
        put, _ = it.child.communicate(timeout=SECONDS)
        return cast, [*it.put, *put.splitlines()], it.child.returncode


def staged(receiver, count, cycles, cps, source):
    """A run in a folder of its own."""
    if served.is_port_taken():
        raise served.Unable(f"TCP port {served.ADDRESS[1]} of {served.ADDRESS[0]} is taken, perhaps by another served run")
    with tempfile.TemporaryDirectory(prefix="tdl-staged-") as room:
        receiver.waiting()
        dropped, ear = receiver.dropped(), served.Ear(receiver)
        ear.start()
        try:
            cast, put, status = acted(room, count, cycles, cps, source)
        finally:
            packets = ear.end()
        text, notes = (pathlib.Path(room, it).read_bytes() for it in (play.LOG, play.MIDI))
    run = served.Run(served.Words(cycles, cps, origin_of(text)), [performers.TYPIST] * count)
    run.talks = [it.talk for each in cast for it in each.visits]
    run.status, run.text, run.midi, run.packets, run.dropped = status, text, notes, packets, receiver.dropped() - dropped
    return Staged(run, cast, put)


def origin_of(text):
    """The origin that the stage has chosen, as the log tells it."""
    return int(text.split(b"\n")[2].removeprefix(b"origin "))


class Story(NamedTuple):
    """A run, its log, and what `play` makes of that."""

    staged: Staged
    run: served.Run
    log: served.Log
    told: serve.Told
    verdicts: dict
    parts: list


def story_of(play_of, found):
    log = found.run.log()
    lines = [line for each in found.performers for it in each.visits for line in it.lines()]
    return Story(found, found.run, log, serve.told(play_of, log), serve.verdicts_of(play_of, lines), [])


def said(verdicts, line):
    """What the log has of a line: nothing where it is not accepted."""
    verdict = verdicts[line]
    return None if not serve.is_accepted(verdict) else line.strip(b" ") if verdict.startswith(b"at ") else b"look"


def ended(story):
    """It ends well, and its last line counts what `play` sends."""
    words, log = story.run.words, story.log
    end = f"end {words.cycles} entries {len(log.entries)} osc {len(story.told.packets)} midi {len(story.told.midi) // 3}"
    found = {"status": story.run.status, "end": [it for it in story.staged.put if it.startswith("end ")]}
    found["trouble"] = [it.trouble for it in story.staged.performers if it.trouble]
    return found, {"status": 0, "end": [end], "trouble": []}


def logged(story):
    """Every port ends well, whatever its performer did."""
    log, count = story.log, len(story.staged.performers)
    found = {"last": log.last, "other lines": log.others, "ends": log.ends}
    return found, {"last": b"end %d" % len(log.entries), "other lines": [], "ends": {it: "eof" for it in range(1, count + 1)}}


def fits(own, visits):
    """Whether these entries are beginnings of what each visit said, one after another: at least so many, and at most all."""
    reached = {0}
    for least, lines in visits:
        reached = {at + count for at in reached for count in range(least, len(lines) + 1) if own[at:at + count] == lines[:count]}
    return len(own) in reached


def said_once(story):
    """The log has the accepted lines of each visit, from its first one on, and all where it was not cut off by a close or a reset."""
    misfits = []
    for each in story.staged.performers:
        own = [it.said for it in story.log.entries if it.who == each.number]
        parts = []
        for it in each.visits:
            lines = [text for text in (said(story.verdicts, line) for line in it.lines()) if text is not None]
            answered = sum(serve.is_accepted(reply) for reply in it.replies())
            parts.append((len(lines) if it.way is half_closes else answered, lines))
        if not fits(own, parts):
            misfits.append((each.number, own, parts))
    return {"entries that do not fit": misfits}, {"entries that do not fit": []}


def reply_of(story, number, line, reply):
    """What a line's reply has to be: by the log at the place that it names, or what it always is."""
    if not serve.is_accepted(reply):
        return story.verdicts[line]
    place = int(serve.PLACE.search(reply)[1])
    entry = story.log.entries[place] if place < len(story.log.entries) else None
    is_own = entry and (entry.who, entry.said) == (number, said(story.verdicts, line))
    return story.told.replies[place] if is_own else None


def answered(story):
    """Each reply is that of its line; who half-closes hears all."""
    found, wanted = {}, {}
    for each in story.staged.performers:
        for at, it in enumerate(each.visits, 1):
            lines, replies, key = it.lines(), it.replies(), f"performer {each.number}, visit {at}"
            found[key] = replies, len(replies) if it.is_heard_out() else None
            wanted[key] = [reply_of(story, each.number, *pair) for pair in zip(lines, replies)], len(lines) if it.is_heard_out() else None
    return found, wanted


CHECKS = (ended, logged, serve.in_order, serve.on_beats, said_once, answered, serve.as_played)


def passes_story(name, story):
    """Whether each check of a run passes."""
    return [as_wanted(f"stage {name}, {it.__name__}", *it(story)) for it in CHECKS]


def any_words(source):
    """How many performers, and how long a run of theirs takes."""
    cps = source.choice([Fraction(8), Fraction(20), Fraction(50)])
    return source.choice([1, 2, 4, 8]), int(cps * source.randint(3, 8)), cps
