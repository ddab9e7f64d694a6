"""Runs of `tdl serve`: performers on sockets, what they are answered, and what a run sends, puts, logs and ends with.

The program has the same ports in each run, TCP 6110 and UDP 57120 of 127.0.0.1, so there is one run at a time, each
in a folder of its own. Nobody else may have the ports meanwhile.
"""
import contextlib
import os
import re
import select
import socket
import subprocess
import tempfile
import threading
import time
from fractions import Fraction
from typing import NamedTuple

import play
import sessions
from program import SECONDS, command, stopped

ADDRESS = ("127.0.0.1", 6110)
PAUSE = 0.1  # seconds before the last connection, in which nobody is answered
WAIT = 10  # seconds for the program to listen, and for a reply that somebody waits for
STUCK = 1  # seconds in which the peer takes nothing, for who sends without listening
# Where another program than the one of this checkout would have other places. They change nothing of this one.
PLACES = {"TDL_STAGE": "11", **os.environ, "TDL_PORT": "6110", "TDL_OSC": "udp", "TDL_LOG": play.LOG, "TDL_MIDI": play.MIDI}
FRONT = ["env", *(f"{name}={PLACES[name]}" for name in ("TDL_STAGE", "TDL_PORT", "TDL_OSC", "TDL_LOG", "TDL_MIDI"))]
ENTRY = re.compile(rb"(\d+) (\d) (\S+) (?:swap (\d+) (.*)|(look)|tick (\S+)|(finish))", re.DOTALL)
PORT_END = re.compile(rb"port (\d) (\w+)")


class Unable(Exception):
    """Why no run can be made: somebody else has a port, or the program does not have the mode."""


class Entry(NamedTuple):
    """An entry of a log, with its line as it stands there."""

    place: int
    who: int
    frontier: Fraction
    line: bytes
    said: bytes | None  # a swap's text or `look`
    to: Fraction | None  # of a tick

    def script_line(self):
        """The line of a script that makes the same call."""
        if self.said is not None:
            return b"p%d %s" % (self.who, self.said)
        return b"finish" if self.to is None else f"tick {self.to}".encode()


class Log(NamedTuple):
    """What a log says, or lines of it that are of no such form."""

    head: list
    entries: list
    ends: dict
    last: bytes
    others: list

    def finish_at(self):
        """How many entries stand before the finish; all where there is none."""
        return next((at for at, it in enumerate(self.entries) if it.said is None and it.to is None), len(self.entries))


def entry_of(line):
    found = ENTRY.fullmatch(line)
    place, who, frontier, _, text, look, to, _ = found.groups()
    to = None if to is None else Fraction(to.decode())
    return Entry(int(place), int(who), Fraction(frontier.decode()), line, look if text is None else text, to)


def read_log(text):
    """What the text of a log says. Texts of swaps may have any byte but a line feed."""
    *lines, rest = text.split(b"\n")
    head, middle, last = lines[:3], lines[3:-1], lines[-1] if len(lines) > 3 else b""
    entries = [entry_of(it) for it in middle if ENTRY.fullmatch(it)]
    ports = [it for it in map(PORT_END.fullmatch, middle) if it]
    others = [it for it in middle if not ENTRY.fullmatch(it) and not PORT_END.fullmatch(it)]
    ends = {int(it[1]): it[2].decode() for it in ports}
    return Log(head, entries, ends, last, others + [rest] * bool(rest))


class Talk:
    """A performer's connection: the bytes that it sent, and those that came back."""

    def __init__(self, connection):
        self.socket = connection
        self.socket.setblocking(False)
        self.sent = bytearray()
        self.heard = bytearray()
        self.first = None  # when the first reply came
        self.last_sent = None  # when the peer last had room for some of what was sent
        self.is_open = True  # whether more may come
        self.is_kept_waiting = False  # whether it waited in vain for a reply
        self.pause = None  # seconds from then on, after which it took in replies again, where it took in none on purpose
        self.is_let_in_again = None  # whether another connection of the performer was taken, where it asked for one

    def take(self):
        """Takes in what has come. A peer that is gone gives nothing more."""
        try:
            piece = self.socket.recv(2**16)
        except BlockingIOError:
            return
        except OSError:
            piece = b""
        self.first = self.first or time.monotonic()
        self.heard += piece
        self.is_open = bool(piece)

    def listen(self, seconds):
        """Takes in what comes in this time."""
        last = time.monotonic() + seconds
        while (left := last - time.monotonic()) > 0:
            if not self.is_open:
                time.sleep(left)
            elif select.select([self.socket], [], [], left)[0]:
                self.take()

    def listen_for(self, count):
        """Takes in what comes until so many replies are there. Whether they came in time."""
        last = time.monotonic() + WAIT
        while self.heard.count(b"\n") < count:
            if not self.is_open or time.monotonic() > last:
                self.is_kept_waiting = True
                return False
            if select.select([self.socket], [], [], 0.1)[0]:
                self.take()
        return True

    def listen_to_end(self):
        """Takes in what comes until the peer ends."""
        last = time.monotonic() + SECONDS
        while self.is_open and time.monotonic() < last:
            self.listen(0.05)

    def say(self, text, is_deaf=False):
        """Sends a text, and takes in what comes meanwhile. Whether the peer took all of it."""
        rest = memoryview(text)
        while rest:
            heard = [self.socket] if self.is_open and not is_deaf else []
            comes, goes, _ = select.select(heard, [self.socket], [], STUCK if is_deaf else SECONDS)
            if comes:
                self.take()
            if goes:
                count = self.socket.send(rest)
                self.last_sent = time.monotonic()
                self.sent += rest[:count]
                rest = rest[count:]
            elif not comes:
                return False
        return True

    def stop(self):
        """Says that nothing more comes. Replies may still come back."""
        with contextlib.suppress(OSError):
            self.socket.shutdown(socket.SHUT_WR)

    def reset(self):
        """Ends the connection at once: the peer's next read or write fails."""
        self.socket.setsockopt(socket.SOL_SOCKET, socket.SO_LINGER, b"\1\0\0\0\0\0\0\0")
        self.socket.close()


class Ear(threading.Thread):
    """Takes in the datagrams that come to a receiver, until it is told to end."""

    def __init__(self, receiver):
        super().__init__(daemon=True)
        self.receiver = receiver
        self.datagrams = []
        self.is_over = threading.Event()

    def run(self):
        while not self.is_over.is_set():
            select.select([self.receiver.socket], [], [], 0.02)
            self.datagrams += self.receiver.waiting()

    def end(self):
        """All that came."""
        self.is_over.set()
        self.join()
        return self.datagrams + self.receiver.waiting()


class Words(NamedTuple):
    """The options of a served run."""

    cycles: int
    cps: Fraction = Fraction(20)
    origin: int = sessions.ORIGIN

    def tempo(self):
        return ["--cps", str(self.cps), "--origin", str(self.origin)]

    def of(self, performers):
        return ["serve", "--performers", str(performers), "--cycles", str(self.cycles), *self.tempo()]


class Run:
    """A served run and all that came of it."""

    def __init__(self, words, performers):
        self.words = words
        self.performers = performers
        self.talks = []
        self.is_shut = None  # whether one more connection was refused, where that was tried
        self.last_connection = 0.0  # when it was asked for
        self.seconds = 0.0  # from then on
        self.out = self.error = self.text = self.midi = b""
        self.status = None
        self.packets = []
        self.dropped = 0

    def log(self):
        return read_log(self.text)


def is_port_taken():
    """Whether somebody has the port on which the program listens."""
    with socket.socket() as own:
        own.setsockopt(socket.SOL_SOCKET, socket.SO_REUSEADDR, 1)
        try:
            own.bind(ADDRESS)
            own.listen()
        except OSError:
            return True
    return False


def connection(room=None):
    """A connection to the program, perhaps with so little room for what comes and goes."""
    found = socket.socket()
    if room:
        found.setsockopt(socket.SOL_SOCKET, socket.SO_RCVBUF, room)
        found.setsockopt(socket.SOL_SOCKET, socket.SO_SNDBUF, room)
    try:
        found.connect(ADDRESS)
    except OSError:
        found.close()
        raise
    return found


def first_connection(child, room=None):
    """A connection to a program that has just been started, once it listens."""
    last = time.monotonic() + WAIT
    while child.poll() is None:
        try:
            return connection(room)
        except ConnectionRefusedError:
            if time.monotonic() > last:
                raise
            time.sleep(0.01)
    raise ConnectionRefusedError(f"the program ended with {child.returncode}")


def is_refused():
    """Whether one connection more is refused."""
    try:
        connection().close()
    except OSError:
        return True
    return False


def perform(role, talk, source):
    """A performer's part. A connection that the peer has ended ends it too."""
    try:
        role.act(talk, source)
    except OSError:
        pass


def begin(run, child, cast, source):
    """Connects the performers in their order; each begins its part at once. Their threads."""
    threads = []
    for at, role in enumerate(cast, 1):
        if at == len(cast):
            time.sleep(PAUSE)
            run.last_connection = time.monotonic()
        run.talks.append(Talk(first_connection(child, role.room)))
        threads.append(threading.Thread(target=perform, args=(role, run.talks[-1], source(len(run.talks))), daemon=True))
        threads[-1].start()
    return threads


def try_one_more(run, threads):
    """Once a performer was answered, the program takes no further connection."""
    while any(it.is_alive() for it in threads):
        if any(it.heard for it in run.talks):
            run.is_shut = is_refused()
            return
        time.sleep(0.01)


def play_through(run, child, cast, source):
    """All parts to their ends, and then the program's."""
    threads = begin(run, child, cast, source)
    try_one_more(run, threads)
    for it in threads:
        it.join(SECONDS)
    try:
        child.wait(SECONDS)
    except subprocess.TimeoutExpired:
        raise stopped(child) from None
    run.seconds = time.monotonic() - run.last_connection


class NoFaults:
    """What happens to a run's folder and to its process: nothing."""

    def in_folder(self, _folder):
        return contextlib.nullcontext()

    def beside(self, _child):
        return contextlib.nullcontext()


def run_in(receiver, room, run, cast, source, faults):
    """A run in a folder, with all that it leaves."""
    with tempfile.TemporaryFile() as out, tempfile.TemporaryFile() as error:
        receiver.waiting()
        dropped, ear = receiver.dropped(), Ear(receiver)
        ear.start()
        child = subprocess.Popen(
            [*FRONT, *command(run.words.of(len(cast)))], cwd=room.folder.name, stdin=subprocess.DEVNULL, stdout=out, stderr=error
        )
        try:
            with faults.beside(child):
                play_through(run, child, cast, source)
        finally:
            child.kill()
            child.wait()
            run.packets = ear.end()
            for it in run.talks:
                it.socket.close()
        out.seek(0)
        error.seek(0)
        run.status, run.out, run.error = child.returncode, out.read(), error.read()
        run.text, run.midi, run.dropped = room.logged() or b"", room.sounded() or b"", receiver.dropped() - dropped
    return run


def served(receiver, words, cast, source, faults=NoFaults()):
    """A run with this cast, of which each has numbers by chance from what `source` gives for its place."""
    if is_port_taken():
        raise Unable(f"TCP port {ADDRESS[1]} of {ADDRESS[0]} is taken, perhaps by another served run")
    with sessions.Room() as room, faults.in_folder(room.folder.name):
        return run_in(receiver, room, Run(words, cast), cast, source, faults)


def played(receiver, lines, words):
    """What the program's `play` makes of these lines. Datagrams that were dropped are sent anew by another run."""
    return sessions.run(receiver, b"".join(it + b"\n" for it in lines), words.tempo(), front=FRONT)
