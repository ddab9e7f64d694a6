"""Runs of `tdl serve` on sockets, beside `tdl play` of the calls that stand in their logs.

Eight performers type random lines in random pieces while the beat goes on by the clock; some go away in the middle
of a line, never take in a reply, or type what is no line. Then the log, the replies, the datagrams and the messages
are compared with each other and with what `play` makes of the same calls one after another. Nobody else may have
TCP port 6110 and UDP port 57120 of 127.0.0.1 meanwhile.
"""
import contextlib
import random
import re
import socket
import subprocess
import sys
from fractions import Fraction
from typing import NamedTuple

import midi
import performers
import play
import served
import sessions
from program import OTHER, as_wanted, command

SEEDS = (1, 2, 3)
WORDS = served.Words(70)
BEATS = 32  # of a cycle
TOO_LONG = b"refused LineTooLong 2048"
FULL = b"refused Full 16384"
PLACE = re.compile(rb"place (\d+)$")
FRONT = re.compile(rb"^(\d+)")


class Told(NamedTuple):
    """What `play` makes of the calls of a log: the reply and the log's line of each place, and what is sent."""

    replies: list
    lines: list
    packets: list
    midi: bytes


def raised(pattern, line):
    """The line with the number that the pattern finds raised by one."""
    return pattern.sub(lambda it: it[0].replace(it[1], b"%d" % (int(it[1]) + 1)), line)


def told(play_of, log):
    """The calls up to the finish are played. Those behind it are played once more without it, each a place earlier."""
    at = log.finish_at()
    lines = [it.script_line() for it in log.entries]
    found = play_of(lines[:at + 1])
    replies = found["standard output"].split(b"\n")[:at + 1]
    entries = [it.line for it in served.read_log(found["log"] or b"").entries]
    if lines[at + 1:]:
        longer = play_of(lines[:at] + lines[at + 1:])
        replies += [raised(PLACE, it) for it in longer["standard output"].split(b"\n")[at:-2]]
        entries += [raised(FRONT, it.line) for it in served.read_log(longer["log"] or b"").entries[at:]]
    return Told(replies, entries, found["packets"], found["midi"] or b"")


def lines_of(sent, is_ended):
    """The lines of what a performer sent, as far as it is read. The last one may have no line feed where the input ended."""
    *lines, last = bytes(sent[:performers.LIMIT]).split(b"\n")
    return [it.removesuffix(b"\r") for it in [*lines, *[last] * bool(is_ended and last)]]


def is_accepted(reply):
    return reply.startswith((b"at ", b"desk "))


def verdicts_of(play_of, lines):
    """What is answered to each line at the start of a run. Whether it is accepted is the same later, as long as there is room."""
    spoken = {it: b"p1 " + it for it in set(lines) if len(it) <= performers.LONGEST}
    # A line of a script has its front in so many bytes: where that is too much, blanks at the end are left out.
    spoken = {it: line if len(line) <= performers.LONGEST else line.rstrip(b" ") for it, line in spoken.items()}
    replies = play_of(spoken.values())["standard output"].split(b"\n")
    known = dict(zip(spoken, replies))
    return {it: known.get(it, TOO_LONG) for it in lines}


class Part(NamedTuple):
    """A performer's part of a run: its lines with their verdicts, its port's end, and its entries of the log with their replies."""

    lines: list
    verdicts: dict
    end: str
    own: list
    replies: list
    is_full: bool

    def said(self):
        """What its accepted lines say, as a log has it."""
        return [it.strip(b" ") if self.verdicts[it].startswith(b"at ") else b"look" for it in self.lines if is_accepted(self.verdicts[it])]

    def answers(self):
        """The replies to its lines, up to a line that was not taken any more."""
        replies, found = iter(self.replies), []
        for it in self.lines:
            reply = self.verdicts[it]
            if is_accepted(reply):
                reply = next(replies, FULL if self.is_full else None)
            if reply is None:
                break
            found.append(reply + b"\n")
        return b"".join(found)


def parts_of(play_of, run, log, replies):
    """Each performer's part."""
    ends = [log.ends.get(at, "none") for at in range(1, len(run.talks) + 1)]
    lines = [lines_of(it.sent, end == "eof") for it, end in zip(run.talks, ends)]
    verdicts = verdicts_of(play_of, [line for own in lines for line in own])
    is_full = sum(it.said is not None for it in log.entries) >= sessions.MOST_SWAPS
    for number, (end, given) in enumerate(zip(ends, lines), 1):
        own = [(entry, reply) for entry, reply in zip(log.entries, replies) if entry.who == number]
        yield Part(given, verdicts, end, [it.said for it, _ in own], [it for _, it in own], is_full)


class Story(NamedTuple):
    """A run, its log, what `play` makes of that, and the performers' parts."""

    run: served.Run
    log: served.Log
    told: Told
    parts: list


def story_of(play_of, run, log=None):
    """The story of a run by its log, or by what else tells its history."""
    log = log or run.log()
    all_told = told(play_of, log)
    return Story(run, log, all_told, list(parts_of(play_of, run, log, all_told.replies)))


def ended(story):
    """It ends well, once its cycles are played, and no sooner. The end line counts what `play` sends."""
    run, words = story.run, story.run.words
    counts = f"entries {len(story.log.entries)} osc {len(story.told.packets)} midi {len(story.told.midi) // midi.SIZE}"
    found = {"status": run.status, "standard error": run.error, "standard output": run.out}
    found["too early"] = run.seconds < words.cycles / words.cps
    return found, {"status": 0, "standard error": b"", "standard output": f"end {words.cycles} {counts}\n".encode(), "too early": False}


def connected(story):
    """Nobody is answered before the last performer is there, no connection more is taken after it, and no reply waits for more lines."""
    firsts = [it.first for it in story.run.talks if it.first]
    found = {"answered before": min(firsts, default=story.run.last_connection) < story.run.last_connection, "one more": story.run.is_shut is False}
    found["kept waiting"] = [at for at, it in enumerate(story.run.talks, 1) if it.is_kept_waiting]
    return found, {"answered before": False, "one more": False, "kept waiting": []}


def logged(story):
    """The log has its head, its entries, an end of each port that its performer may come to, and their number."""
    log, words = story.log, story.run.words
    head = ["tidal-log 1", f"cps {words.cps}", f"origin {words.origin}"]
    expected = {at: it.ends for at, it in enumerate(story.run.performers, 1)}
    found = {"head": log.head, "last": log.last, "other lines": log.others, "ports": list(log.ends)}
    found["ends"] = {at: end for at, end in log.ends.items() if end not in expected.get(at, ())}
    last = b"end %d" % len(log.entries)
    return found, {"head": [it.encode() for it in head], "last": last, "other lines": [], "ports": list(expected), "ends": {}}


def in_order(story):
    """Places count from 0, and each entry names the place up to which the ticks before it went."""
    frontier, expected = Fraction(0), []
    for at, it in enumerate(story.log.entries):
        expected.append((at, frontier))
        frontier = frontier if it.to is None else it.to
    return {"entries": [(it.place, it.frontier) for it in story.log.entries]}, {"entries": expected}


def on_beats(story):
    """The ticks go from beat to beat, none is left out, and the finish is behind them."""
    ticks = [f"tick {Fraction(it, BEATS)}".encode() for it in range(1, story.run.words.cycles * BEATS + 1)]
    return {"ticks": [it.script_line() for it in story.log.entries if it.who == 0]}, {"ticks": [*ticks, b"finish"]}


def spans(story):
    """The first and the last entry of each performer that types for some seconds, where the beat goes on for some seconds too."""
    has_time = story.run.words.cycles / story.run.words.cps >= performers.TALKS / 2
    for number, (role, part) in enumerate(zip(story.run.performers, story.parts), 1):
        own = [it for it in story.log.entries if it.who == number]
        if has_time and role.is_busy and own and not part.is_full:
            yield number, own[0], own[-1]


def beside(story):
    """The beat goes on while performers type, and they type beside each other."""
    found = list(spans(story))
    still = [number for number, first, last in found if first.frontier == last.frontier]
    starts, ends = [first.place for _, first, _ in found], [last.place for _, _, last in found]
    return {"without a beat": still, "one after another": bool(found) and max(starts) > min(ends)}, {"without a beat": [], "one after another": False}


def said_once(story):
    """Each accepted line of a performer is there once and in its order. After a fault the last ones may be missing."""
    found, expected = {}, {}
    for number, it in enumerate(story.parts, 1):
        is_cut = it.end == "fault" or it.is_full
        found[f"performer {number}"] = it.own
        expected[f"performer {number}"] = it.said()[:len(it.own)] if is_cut else it.said()
    return found, expected


def answered(story):
    """Each line has its reply, in order. Who goes away before may miss the last ones."""
    found, expected = {}, {}
    for number, (talk, role, part) in enumerate(zip(story.run.talks, story.run.performers, story.parts), 1):
        heard, answers = bytes(talk.heard), part.answers()
        found[f"performer {number}"] = heard
        expected[f"performer {number}"] = heard if not role.hears_all and answers.startswith(heard) else answers
    return found, expected


def without_dropped(sent, heard, count):
    """What was to be heard, where the system dropped so many of the datagrams on their way."""
    rest = iter(sent)
    is_all = len(heard) + count == len(sent) and all(it in rest for it in heard)
    return heard if is_all else sent


def as_played(story):
    """`play` of the same calls sends the same packets and messages, and writes the same entries."""
    run, all_told = story.run, story.told
    found = {"packets": run.packets, "midi": run.midi, "entries": [it.line for it in story.log.entries]}
    packets = without_dropped(all_told.packets, run.packets, run.dropped)
    counts = {"packets that came, dropped and missing": (len(run.packets), run.dropped, len(packets) - len(run.packets))}
    wanted = {"packets": packets, "midi": all_told.midi, "entries": all_told.lines}
    return {**found, **counts}, {**wanted, "packets that came, dropped and missing": (len(run.packets), run.dropped, 0)}


CHECKS = (ended, connected, logged, in_order, on_beats, beside, said_once, answered, as_played)


def source_of(seed):
    """What a performer's chance comes from, by its number."""
    return lambda number: random.Random(f"{seed} {number}")


def passes_story(name, story):
    """Whether each check of a run passes."""
    return [as_wanted(f"serve {name}, {it.__name__}", *it(story)) for it in CHECKS]


def passes_seed(ear, seed):
    run = served.served(ear, WORDS, performers.cast_of(seed), source_of(seed))
    return passes_story(seed, story_of(lambda lines: served.played(ear, lines, WORDS), run))


def passes_deaf(ear):
    """Who takes in no reply and stays holds up nobody but itself: the program gives it up after some seconds."""
    words = served.Words(40)
    run = served.served(ear, words, [performers.DEAF, performers.TYPIST], source_of(0))
    return passes_story("beside one who is deaf", story_of(lambda lines: served.played(ear, lines, words), run))


def passes_quiet(ear, count, cycles):
    """Nobody says anything: the beat goes on alone. All of the log is known."""
    words = served.Words(cycles, Fraction(9, 2), 7)
    run = served.served(ear, words, [performers.ODD_ROLES["leaves at once"]] * count, source_of(0))
    places = [Fraction(it, BEATS) for it in range(words.cycles * BEATS + 1)]
    entries = [(0, before, f"tick {it}") for before, it in zip(places, places[1:])]
    *log, _, last = sessions.log_of([*entries, (0, places[-1], "finish")], cps="9/2", origin=7)
    log = sessions.text_of([*log, *(f"port {it} eof" for it in range(1, count + 1)), last])
    found = {"status": run.status, "standard error": run.error, "standard output": run.out, "log": run.text, "midi": run.midi, "packets": run.packets}
    end = f"end {cycles} entries {cycles * BEATS + 1} osc 0 midi 0\n".encode()
    wanted = {"status": 0, "standard error": b"", "standard output": end, "log": log, "midi": b"", "packets": []}
    return [as_wanted(f"serve, {count} who do not type", found, wanted)]


def passes_taken():
    """Somebody listens on the run's port already: nothing is played."""
    with socket.socket() as other:
        other.setsockopt(socket.SOL_SOCKET, socket.SO_REUSEADDR, 1)
        other.bind(served.ADDRESS)
        other.listen()
        with sessions.Room() as room:
            given = {"cwd": room.folder.name, "stdin": subprocess.DEVNULL, "capture_output": True, "timeout": served.WAIT}
            found = subprocess.run([*served.FRONT, *command(served.Words(1).of(1))], **given)
    found = {"status": found.returncode, "standard error": found.stderr[:10], "standard output": found.stdout}
    return [as_wanted("serve, port taken", found, {"status": 8, "standard error": b"no device\n", "standard output": b""})]


def receiver():
    """What runs are heard by, where they can be made: the ports are free."""
    try:
        return play.Receiver()
    except OSError as fault:
        raise served.Unable(f"TCP port {served.ADDRESS[1]} or UDP port {play.ADDRESS[1]} of {served.ADDRESS[0]} is taken: {fault}") from None


def tried(count, check, *given):
    """Whether a run passes each of so many checks. A run that cannot be made passes none."""
    try:
        return list(check(*given))
    except (OSError, subprocess.TimeoutExpired, served.Unable) as fault:
        return [as_wanted(f"serve, {check.__name__}", {"run": fault}, {})] * count


def passes_all(ear):
    passed = [*tried(1, passes_taken), *tried(1, passes_quiet, ear, 1, 1), *tried(1, passes_quiet, ear, 8, 10)]
    for seed in SEEDS:
        passed += tried(len(CHECKS), passes_seed, ear, seed)
    # Another program may wait for such a performer for ever.
    return passed if OTHER else passed + tried(len(CHECKS), passes_deaf, ear)


def passes_each():
    """Whether each check passes."""
    try:
        with contextlib.closing(receiver()) as ear:
            return passes_all(ear)
    except (served.Unable, subprocess.TimeoutExpired) as fault:
        return [as_wanted("serve", {"run": fault}, {})]


if __name__ == "__main__":
    results = passes_each()
    print(f"{sum(results)} passed, {len(results) - sum(results)} failed")
    sys.exit(not all(results))
