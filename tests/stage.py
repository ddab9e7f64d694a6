"""Performers at the ports that tools/stage hands out, who come late, leave within a line, come back, and want one port.

Nobody else may have port 6110 of 127.0.0.1 meanwhile, nor those from 6121 on, nor UDP port 57120.
"""
import contextlib
import os
import pathlib
import re
import select
import signal
import socket
import subprocess
import sys
import tempfile
import threading
import time

import play
import sessions
from program import PROGRAM, SECONDS, TOP, as_wanted

STAGE, PERFORM = f"{TOP}/tools/stage", f"{TOP}/tools/perform-files"
BAND = pathlib.Path(TOP, "examples", "band")
HOST, RUN, FIRST = "127.0.0.1", 6110, 6121
CYCLES, CPS = 24, 8
LATENCY = 0.3
SINCE_1900 = 2208988800
TRIES = 200
HERE = "-- here\n"  # a line without an entry, whose reply says that the port is held
ENTRY = re.compile(r"(\d+) (\d) (\S+) (?:swap (\d+) (.*)|(look)|tick .*|finish)")
END = re.compile(r"end (\d+) entries (\d+) osc (\d+) midi (\d+)")
ENVIRONMENT = {**os.environ, "TDL_OSC": "udp"}  # the other program sends its packets where it is told to


class Performer:
    """A number, whoever plays it, and all lines that were sent, with their replies."""

    def __init__(self, number):
        self.number = number
        self.said = []  # of each line that counts: its text, and its reply or None where nobody took it
        self.connection = self.replies = None

    def connect(self):
        connection = socket.create_connection((HOST, FIRST + self.number - 1), SECONDS)
        return connection, connection.makefile("rb")

    def come(self):
        """Comes to the port, which who left may hold for a moment yet."""
        for _ in range(TRIES):
            self.connection, self.replies = self.connect()
            self.connection.sendall(HERE.encode())
            if self.replies.readline() == b"skip\n":
                return
            self.leave()
            time.sleep(0.01)
        raise OSError(f"performer {self.number} is not let in")

    def say(self, *lines):
        """Says these lines in one piece, and waits for their replies."""
        self.connection.sendall("".join(f"{it}\n" for it in lines).encode())
        self.said += [(it, self.replies.readline().decode().removesuffix("\n")) for it in lines]

    def slip(self, line, rest=""):
        """Says a line, perhaps with a part of another behind it, and leaves without its reply."""
        self.connection.sendall(f"{line}\n{rest}".encode() if line else rest.encode())
        self.said += [(line, None)] if line else []
        self.leave()

    def leave(self):
        self.replies.close()
        self.connection.close()


class Stage:
    """A run of tools/stage in a folder of its own, up to its end."""

    def __init__(self, room, *words):
        self.room = pathlib.Path(room)
        start = [sys.executable, STAGE, "--tdl", PROGRAM, "--port", str(FIRST), "--folder", room, *words]
        self.child = subprocess.Popen(start, env=ENVIRONMENT, stdout=subprocess.PIPE, stderr=subprocess.STDOUT, text=True)
        self.put = []
        self.until("packets are sent")

    def until(self, front):
        """Reads what it puts up to the line that begins so."""
        for line in self.child.stdout:
            self.put.append(line.rstrip("\n"))
            if line.startswith(front):
                return
        raise OSError(f"it ended without `{front}`: {self.put}")

    def end(self):
        """What it put, its status, and the log."""
        put, _ = self.child.communicate(timeout=SECONDS)
        self.put += put.splitlines()
        return self.child.returncode, self.room.joinpath("tdl.log").read_text().splitlines()

    def close(self):
        if self.child.poll() is None:
            self.child.kill()
            self.child.wait()


class Ears(threading.Thread):
    """Takes packets while a run plays: how many seconds before its time tag each came."""

    def __init__(self, receiver):
        super().__init__()
        self.receiver, self.leads, self.is_over = receiver, [], False

    def run(self):
        self.receiver.waiting()
        while not self.is_over:
            select.select([self.receiver.socket], [], [], 0.01)
            self.take()

    def take(self):
        now = time.time() + SINCE_1900
        self.leads += [int.from_bytes(it[8:16], "big") / 2**32 - now for it in self.receiver.waiting()]

    def end(self):
        self.is_over = True
        self.join()
        self.take()
        return self.leads


FILE = '-- a file that is played\nd4 $ s "lt"\n@ 0.1\nd0 silence\nlook\n@ 0.2\nhush'
SHOWN = re.compile(r" *(\d+\.\d\d) file ([<>]) (.*)")


def played_file(room, number):
    """A performer whose lines tools/perform-files sends from a file, and whether it waits as the file says."""
    pathlib.Path(room, "file").write_text(FILE)
    start = [sys.executable, PERFORM, "--port", str(FIRST + number - 1), f"{room}/file"]
    ran = subprocess.run(start, capture_output=True, text=True, timeout=SECONDS)
    shown = [it.groups() for it in map(SHOWN.fullmatch, ran.stdout.splitlines()) if it]
    player = Performer(number)
    player.said = [(line[2], reply[2]) for line, reply in zip(shown[::2], shown[1::2])]
    waits = [0.2 if line == "hush" else 0.1 if at > 1 else 0 for at, (line, _) in enumerate(player.said)]
    is_late_enough = all(float(it[0]) >= wait for it, wait in zip(shown[::2], waits))
    return player, (ran.returncode, ran.stderr, is_late_enough, [it for it, _ in player.said])


def act(stage):
    """Five performers, of whom the third says nothing, a file plays the fourth, and the last never comes.

    Answers them, and what a second one at a port was told.
    """
    first, second, silent = (Performer(it) for it in (1, 2, 3))
    silent.come()
    first.come()
    first.say('d1 $ s "bd*4 sn"', "look", "mut 1")
    first.slip("", "mute 1")
    second.come()
    second.say('jumpMod 2 4 $ n "0 3" # s "bass"')
    with contextlib.closing(second.connect()[0]) as other:
        told = other.makefile("rb").read().decode()
        second.say("look")
    first.come()
    first.slip("look", "hus")
    second.say(*["-- nothing", "look"] * 20)
    second.leave()
    first.come()
    first.say("mute 2", 'd3 $ s "hh*8"', "unmute 2", "x" * 3000)
    second.come()
    second.say(*[f'd2 $ s "cp*{it}"' for it in range(1, 9)], "unsoloAll")
    first.connection.shutdown(socket.SHUT_WR)
    second.connection.sendall(b"look\n")
    second.connection.shutdown(socket.SHUT_WR)
    second.said.append(("look", second.replies.read().decode().removesuffix("\n")))
    stage.until("all cycles are played")
    for each in (first, second, silent):
        each.leave()
    return (first, second, silent, Performer(5)), told


def answered(line):
    """What the reply of a line looks like."""
    if line.startswith("--"):
        return r"skip"
    if line == "look":
        return r"desk \S+ playing \S+ muted \S+ soloed \S+ place \d+"
    refused = {"mut 1": "refused UnknownName 0", "d0 silence": "refused BadOrbit 0", "x" * 3000: "refused LineTooLong 2048"}
    return refused.get(line, r"at \d+ place \d+")


def told_by(line, reply):
    """The entry in the log that a reply tells of: its place, its cycle or time, and the line. None where there is none."""
    words = (reply or "").split(" ")
    if words[0] == "at":
        return int(words[3]), words[1], line
    return (int(words[-1]), words[1], line) if words[0] == "desk" else None


def replies_fit(_stage, performers, _log, _leads):
    """Each line that was waited for has its own reply."""
    missing = [(it.number, *said) for it in performers for said in it.said if said[1] is not None and not re.fullmatch(answered(said[0]), said[1])]
    return {"replies that do not fit": missing}, {"replies that do not fit": []}


def entries_stand(_stage, performers, log, _leads):
    """The log has the accepted lines of each performer in their order, at the places that the replies told, and no others."""
    found, wanted = {}, {}
    parts = [it.groups() for it in map(ENTRY.fullmatch, log) if it]
    for each in performers:
        mine = [(int(place), boundary or time, text or look) for place, number, time, boundary, text, look in parts if int(number) == each.number]
        counted = [it for it in each.said if not re.fullmatch("skip|refused .*", it[1] or "")]
        told = [told_by(*it) for it in counted]
        found[f"lines of {each.number}"] = [it[2] for it in mine]
        wanted[f"lines of {each.number}"] = [it[0] for it in counted]
        found[f"places of {each.number}"] = [it for it in mine if it in told]
        wanted[f"places of {each.number}"] = [it for it in told if it]
    return found, wanted


def log_is_whole(stage, performers, log, _leads):
    """The log ends with the ports, all of them at their end, and the number of entries, which the last line of the run tells too."""
    count = sum(bool(ENTRY.fullmatch(it)) for it in log)
    ended = [it for it in map(END.fullmatch, stage.put) if it]
    found = {"log": log[-1 - len(performers):], "end": [it.groups()[:2] for it in ended]}
    ports = [f"port {it.number} eof" for it in performers]
    return found, {"log": [*ports, f"end {count}"], "end": [(str(CYCLES), str(count))]}


def packets_are_ahead(stage, _performers, _log, leads):
    """As many packets come as the run tells, none of them further ahead than asked, and some before their time."""
    ended = [it for it in map(END.fullmatch, stage.put) if it]
    found = {"packets": [str(len(leads))], "ahead": bool(leads) and 0 < max(leads) < LATENCY + 0.02}
    return found, {"packets": [it[3] for it in ended], "ahead": True}


def stage_tells(stage, _performers, _log, _leads):
    """It tells who is here when all cycles are played, and where the files are."""
    over = [it for it in stage.put if it.startswith("all cycles")]
    found = {"over": over, "files": stage.put[-1]}
    files = f"the log is {stage.room}/tdl.log, and the MIDI messages are {stage.room}/midi.out"
    return found, {"over": ["all cycles are played; the run ends once these performers have left: 3"], "files": files}


CHECKS = (replies_fit, entries_stand, log_is_whole, packets_are_ahead, stage_tells)


def passes_band(receiver):
    """Whether each check of a run with performers passes."""
    with tempfile.TemporaryDirectory(prefix="tdl-stage-") as room, contextlib.closing(
        Stage(room, "--performers", "5", "--cycles", str(CYCLES), "--cps", str(CPS), "--latency", str(LATENCY))
    ) as stage:
        ears = Ears(receiver)
        ears.start()
        try:
            fourth, file = played_file(room, 4)
            performers, told = act(stage)
            status, log = stage.end()
        finally:
            leads = ears.end()
        found = {"status": status, "told": told, "file": file}
        lines = [it for it in FILE.splitlines() if not it.startswith("@")]
        wanted = {"status": 0, "told": "performer 2 is taken: another connection holds this port\n", "file": (0, "", True, lines)}
        yield as_wanted("stage, who comes second and who is a file", found, wanted)
        everyone = sorted([*performers, fourth], key=lambda it: it.number)
        for check in CHECKS:
            yield as_wanted(f"stage, {check.__name__}", *check(stage, everyone, log, leads))


def passes_interrupted(_receiver):
    """After Ctrl-C the performers are gone, and the run goes on and ends whole."""
    with tempfile.TemporaryDirectory(prefix="tdl-stage-") as room, contextlib.closing(
        Stage(room, "--performers", "2", "--cycles", "4", "--cps", "8")
    ) as stage:
        first = Performer(1)
        first.come()
        first.say('d1 $ s "bd"')
        stage.child.send_signal(signal.SIGINT)
        rest = first.replies.read()
        first.leave()
        status, log = stage.end()
    found = {"status": status, "rest": rest, "log": log[-3:], "end": len([it for it in stage.put if it.startswith("end 4 ")])}
    yield as_wanted("stage, interrupted", found, {"status": 0, "rest": b"", "log": ["port 1 eof", "port 2 eof", "end 130"], "end": 1})


def refused(words, taken=None):
    """What it puts on standard error where it cannot play, perhaps since this port is taken."""
    with contextlib.ExitStack() as stack:
        if taken:
            stack.enter_context(contextlib.closing(socket.create_server((HOST, taken))))
        given = ["--performers", "2", "--cycles", "4", "--tdl", PROGRAM, "--port", str(FIRST), *words]
        ran = subprocess.run([sys.executable, STAGE, *given], capture_output=True, text=True, timeout=SECONDS)
    return ran.returncode != 0, ran.stdout, ran.stderr.splitlines()[-1:]


def passes_refusals(_receiver):
    """It tells in a sentence why there is nothing to play."""
    rows = [
        (["--folder", "/no/folder"], None, "stage: there is no folder /no/folder"),
        (["--tdl", "/no/program"], None, "stage: /no/program cannot be run: No such file or directory"),
        (["--tdl", "/bin/true"], None, "stage: /bin/true ended with status 0"),
        ([], RUN, f"stage: the run's port {RUN} cannot be had (Address already in use): does another run wait for performers?"),
        ([], FIRST + 1, f"stage: port {FIRST + 1} of {HOST} cannot be had: Address already in use"),
        (["--cps", "1/0"], None, "stage: error: argument --cps: 1/0 is no number from 1/65535 to 65535"),
        (["--page", str(FIRST + 1)], None, f"stage: port {FIRST + 1} is that of performer 2: give the page another one"),
        (["--page", str(FIRST + 2)], FIRST + 2, f"stage: port {FIRST + 2} of {HOST} cannot be had: Address already in use"),
        (["--word", "hammer"], None, "stage: a word is for a page: give its port by --page"),
        (["--performers", "9"], None, "stage: error: argument --performers: 9 is no number from 1 to 8"),
    ]
    for words, taken, told in rows:
        yield as_wanted(f"stage, {words} {taken}", {"refused": refused(words, taken)}, {"refused": (True, "", [told])})


def passes_example(receiver):
    """Each line of the band's files says first what to listen for, and none is refused but the slip."""
    for path in sorted(BAND.iterdir()):
        lines = [it for it in path.read_text().splitlines() if not it.startswith("@ ")]
        ran = sessions.run(receiver, sessions.text_of(f"p1 {it}" for it in lines))
        replies = ran["standard output"].decode().splitlines()
        found = {"first": lines[0].startswith("-- listen for "), "refused": [line for line, reply in zip(lines, replies) if "refused" in reply]}
        yield as_wanted(f"examples/band/{path.name}", found, {"first": True, "refused": [it for it in lines if "[~ 3\" #" in it]})


def passes_each():
    """Whether each check passes."""
    passed = []
    try:
        with contextlib.closing(play.Receiver()) as receiver:
            for part in (passes_band, passes_interrupted, passes_refusals, passes_example):
                passed += part(receiver)
    except (OSError, subprocess.TimeoutExpired) as fault:
        passed.append(as_wanted("stage", {"run": fault}, {}))
    return passed


if __name__ == "__main__":
    results = passes_each()
    print(f"{sum(results)} passed, {len(results) - sum(results)} failed")
    sys.exit(not all(results))
