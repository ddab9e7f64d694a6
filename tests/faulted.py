"""What is to be true of a served run with faults (tests/faults.py), beside `play` of its history.

The rules: a performer's fault is its own, and changes nothing for others. Where a message could not be put, those that
were put are a beginning of the list, no tick comes after it, replies go on and the status is 4. Where the log could not
be written whole it is a beginning, the status is 7, and replies, packets and messages are whole. Else the status is 0
and all is whole. Nothing is left out after a stop: the beats that are late come one after another.

Where the log is not whole the replies tell the history: an accepted line stands at the place that its reply names, and
at all other places there are the ticks from beat to beat, and the finish.
"""
import contextlib
import re
import sys
from fractions import Fraction

import faults
import midi
import performers
import play
import serve
import served
from program import as_wanted

TICKED = re.compile(rb"(?:tick \S+ osc \d+|finish \S+) midi (\d+)")


def is_whole(log):
    """Whether a log has its last line."""
    return bool(re.fullmatch(rb"end \d+", log.last)) and not log.others


def placed(run):
    """Who said what, by the places that the replies tell."""
    found = {}
    for who, talk in enumerate(run.talks, 1):
        for line, reply in zip(serve.lines_of(talk.sent, True), bytes(talk.heard).split(b"\n")):
            if serve.is_accepted(reply):
                found[int(serve.PLACE.search(reply)[1])] = (who, line.strip(b" ") if reply.startswith(b"at ") else b"look")
    return found


def history(said, ticks, has_finish):
    """The entries: what was said at its places, and at all others so many ticks, and perhaps the finish."""
    beats = iter([Fraction(it, serve.BEATS) for it in range(1, ticks + 1)])
    frontier = Fraction(0)
    for place in range(len(said) + ticks + has_finish):
        if place in said:
            yield served.Entry(place, said[place][0], frontier, b"", said[place][1], None)
            continue
        to = next(beats, None)
        yield served.Entry(place, 0, frontier, b"", None, to)
        frontier = frontier if to is None else to


def log_of(run, said, ticks, has_finish):
    """The log that a run ought to have, but for its text. Each performer has one end that its port may come to."""
    ends = {number: it.ends[0] for number, it in enumerate(run.performers, 1)}
    return served.Log([], list(history(said, ticks, has_finish)), ends, b"", [])


def messages_by_tick(replies):
    """How many messages each tick has, and then the finish."""
    return [int(it[1]) for it in map(TICKED.match, replies) if it]


def told_by_replies(play_of, run):
    """The log that the replies tell of. With status 4 the last tick is that of the first message that was not put."""
    said, ticks = placed(run), run.words.cycles * serve.BEATS
    log = log_of(run, said, ticks, True)
    if run.status != 4:
        return log
    put, counts = len(run.midi) // midi.SIZE, messages_by_tick(serve.told(play_of, log).replies)
    for made, count in enumerate(counts[:-1], 1):
        if count > put:
            return log_of(run, said, made, False)
        put -= count
    return log


def story_of(play_of, run, disk):
    """The story by the log, or where that has no room by the replies."""
    log = run.log()
    if is_whole(log) or not disk.may_cut_log():
        return serve.story_of(play_of, run, log)
    return serve.story_of(play_of, run, told_by_replies(play_of, run))


def log_text(story):
    """The text of the log with all its lines."""
    words, entries = story.run.words, story.told.lines
    head = [b"tidal-log 1", b"cps %s" % str(words.cps).encode(), b"origin %d" % words.origin]
    ports = [b"port %d %s" % (it, end.encode()) for it, end in sorted(story.log.ends.items())]
    return b"".join(it + b"\n" for it in [*head, *entries, *ports, b"end %d" % len(entries)])


def is_cut(story):
    """Whether messages are missing."""
    return story.run.midi != story.told.midi


def is_log_cut(story):
    return story.run.text != log_text(story)


def has_finish(story):
    return story.log.finish_at() < len(story.log.entries)


def ended(story, _disk):
    """The status says what failed. There is no last line where messages are missing."""
    found, wanted = serve.ended(story)
    wanted["status"] = 4 if is_cut(story) else 7 if is_log_cut(story) else 0
    if is_cut(story):
        wanted["standard output"] = b""
    if not has_finish(story):
        wanted["too early"] = found["too early"]
    return found, wanted


def has_no_room(story, disk):
    """Whether the disk is full to the last byte of its last page."""
    ends = [len(it) for it, is_short in [(story.run.midi, is_cut(story)), (story.run.text, is_log_cut(story))] if is_short]
    used = sum(-(-len(it) // faults.PAGE) for it in (story.run.midi, story.run.text))
    return used == disk.pages and not any(it % faults.PAGE for it in ends)


def short_for_want_of_room(story, disk):
    """What is missing had no room."""
    short = [name for name, it in [(play.LOG, is_log_cut(story)), (play.MIDI, is_cut(story))] if it]
    allowed = [it for it in short if it in disk.full or disk.pages and has_no_room(story, disk)]
    return {"missing": short}, {"missing": allowed}


def connected(story, _disk):
    """As without faults; and who was cut off is not let in again."""
    found, wanted = serve.connected(story)
    found["let in again"] = [number for number, it in enumerate(story.run.talks, 1) if it.is_let_in_again]
    return found, {**wanted, "let in again": []}


def logged(story, _disk):
    """The log is what it ought to be, or a beginning of that. Its ports have ends that their performers may come to."""
    text = story.run.text
    ends = {at: end for at, end in story.log.ends.items() if end not in faults.ends_of(story.run.performers[at - 1], story.run.talks[at - 1])}
    found = {"log": text, "ports": list(story.log.ends), "other ends": ends}
    return found, {"log": log_text(story)[:len(text)], "ports": list(range(1, len(story.run.performers) + 1)), "other ends": {}}


def on_beats(story, _disk):
    """The ticks go from beat to beat up to the last one. Where messages are missing there may be fewer, and no finish."""
    found, wanted = serve.on_beats(story)
    if is_cut(story) and not has_finish(story):
        wanted["ticks"] = wanted["ticks"][:min(len(found["ticks"]), story.run.words.cycles * serve.BEATS)]
    return found, wanted


def answered(story, _disk):
    """Each line has its reply, in order. Who goes away, or is given up, may miss the last ones."""
    found, expected = {}, {}
    for number, (talk, role, part) in enumerate(zip(story.run.talks, story.run.performers, story.parts), 1):
        heard, answers = bytes(talk.heard), part.answers()
        may_miss = part.end == "fault" or not role.hears_all
        found[f"performer {number}"] = heard
        expected[f"performer {number}"] = heard if may_miss and answers.startswith(heard) else answers
    return found, expected


def fewest(story):
    """How many bytes of messages were put at least: all but those of the last tick, or of the finish."""
    counts = messages_by_tick(story.told.replies)
    return midi.SIZE * sum(counts[:-1])


def as_played(story, _disk):
    """`play` of the same calls sends the same packets. The messages are the same, or a beginning that goes up to the last tick."""
    found, wanted = serve.as_played(story)
    if is_log_cut(story):
        wanted["entries"] = found["entries"]
    if is_cut(story) and len(story.run.midi) >= fewest(story):
        wanted["midi"] = story.told.midi[:len(story.run.midi)]
    return found, wanted


def in_order(story, _disk):
    return serve.in_order(story)


def said_once(story, _disk):
    return serve.said_once(story)


CHECKS = (ended, short_for_want_of_room, connected, logged, in_order, on_beats, said_once, answered, as_played)


def passes_story(name, story, disk):
    """Whether each check of a run passes."""
    return [as_wanted(f"serve with faults {name}, {it.__name__}", *it(story, disk)) for it in CHECKS]


WORDS = served.Words(60)
STOPS = [faults.Stop(0.2, 0.3), faults.Stop(0.5, 0.1)]
CASTS = {
    "full midi.out": [performers.TYPIST, *faults.CUTS, faults.pausing(1), performers.TALKER],
    "full tdl.log": [performers.TYPIST, faults.CUTS[2], faults.pausing(1), performers.TALKER],
}


def passes_faults(ear, disk):
    """Whether a run passes with performers who are cut off or pause, a program that is stopped, and a file that is full."""
    given = faults.Faults(disk, STOPS)
    run = served.served(ear, WORDS, CASTS[disk.name], serve.source_of(disk.name), given)
    story = story_of(lambda lines: served.played(ear, lines, WORDS), run, disk)
    return passes_story(f"and a {disk.name}", story, disk)


def passes_each():
    """Whether each check of the two runs passes that are made in a few seconds and on any machine."""
    passed = []
    try:
        with contextlib.closing(serve.receiver()) as ear:
            for disk in faults.FULL_FILES[:len(CASTS)]:
                passed += serve.tried(len(CHECKS), passes_faults, ear, disk)
    except served.Unable as fault:
        passed.append(as_wanted("serve with faults", {"run": fault}, {}))
    return passed


if __name__ == "__main__":
    results = passes_each()
    print(f"{sum(results)} passed, {len(results) - sum(results)} failed")
    sys.exit(not all(results))
