"""Faults of served runs: what performers do to their connections, a disk that is full, and a program that is stopped.

A connection is cut within a line, by a close, a reset or a half-close, and its performer tries to come back. A
performer takes in no reply for a while: either the system has room for all that pile up, or it has not. The files of
the log and of the MIDI messages lead to a device that is full, or stand on a disk of a few pages. The program gets
SIGSTOP, and SIGCONT some time later. tests/faulted.py says what is to be true of such runs.
"""
import contextlib
import os
import random
import resource
import shutil
import signal
import socket
import subprocess
import threading
import time
from typing import NamedTuple

import performers
import play
import served
import sessions

PATIENCE = 5  # seconds without room for a reply, after which the program may give a performer up
MOST_PATIENCE = 10  # after these it has: there may have been room for a part of the reply, and the rest has its own time
IN_TIME = 1.5  # seconds that fit into these, beside those in which it is seen that there is no room
PAGE = resource.getpagesize()
PAGES = [1, 2, 3, 4, 8, 16, 32, 64]
MOST_STOPS = 6  # fewer than how often an interrupted call is made again
LONGEST_STOP = 4
BETWEEN_STOPS = 0.1  # seconds at least, in which lines are answered
NARROW = 4096  # bytes for lines that the program has not taken yet
STEADY = 65536  # bytes for replies that have come: where none are named, the system makes room for more again and again
UNKNOWN = b"what nobody knows\n"
FLOOD = 2 * performers.FLOOD // len(UNKNOWN)  # such lines have more replies than the system keeps
IN_OWN_MOUNTS = "TDL_OWN_MOUNTS"
SMALL_DISK = ["mount", "-t", "tmpfs", "-o"]


# What performers do.

def types_and_is_cut(talk, source, cut):
    """Types lines, is cut off within one, and tries to come back. With the first reply nobody is awaited any more."""
    talk.say(b"look\n")
    if not talk.listen_for(1):
        return
    text = b"".join(performers.lines(source, source.randint(2, 60)))
    performers.type_out(talk, source, text[:source.randint(1, len(text) - 2)], performers.TALKS * source.random())
    cut(talk)
    talk.is_let_in_again = not served.is_refused()


def is_closed(talk, source):
    types_and_is_cut(talk, source, lambda it: it.socket.close())


def is_reset(talk, source):
    types_and_is_cut(talk, source, served.Talk.reset)


def half_closes(talk, source):
    """Sends no more, and takes in what comes until the peer ends."""
    types_and_is_cut(talk, source, served.Talk.stop)
    talk.listen_to_end()


def half_closes_and_leaves(talk, source):
    types_and_is_cut(talk, source, served.Talk.stop)
    time.sleep(source.random() / 10)
    talk.socket.close()


CUTS = [
    performers.Role(is_closed, ("eof", "fault"), False, fault="closed in a line"),
    performers.Role(is_reset, ("fault",), False, fault="reset in a line"),
    performers.Role(half_closes, ("eof",), True, fault="half-closed in a line"),
    performers.Role(half_closes_and_leaves, ("eof", "fault"), False, fault="half-closed in a line and left"),
]


def pausing(seconds):
    """Who types and takes in replies only so many seconds later. There is room for all of them."""
    def act(talk, source):
        for it in performers.pieces(source, b"".join(performers.lines(source, source.randint(50, 600)))):
            talk.say(it, is_deaf=True)
            time.sleep(source.random() / 500)
        time.sleep(seconds)
        performers.end_well(talk)
    return performers.Role(act, ("eof",), True, fault="paused, replies fit")


def clogged(seconds, tries):
    """Who takes in no reply until there is no room for more, as so many tries show, and reads on so many seconds later."""
    def act(talk, source):
        talk.socket.setsockopt(socket.SOL_SOCKET, socket.SO_SNDBUF, NARROW)
        talk.socket.setsockopt(socket.SOL_SOCKET, socket.SO_RCVBUF, STEADY)
        talk.say(b"".join(performers.lines(source, 20)), is_deaf=True)
        for _ in range(tries):
            talk.say(UNKNOWN * FLOOD, is_deaf=True)
        time.sleep(seconds)
        talk.take()
        talk.pause = time.monotonic() - talk.last_sent
        performers.end_well(talk)
    return performers.Role(act, ("eof", "fault"), True, fault="paused, replies do not fit")


def ends_of(role, talk):
    """The ends that a performer's port may have. Nobody is given up who reads on in time."""
    return ("eof",) if talk.pause and talk.pause < PATIENCE else role.ends


def told(role, talk, end):
    """A performer's fault in words, with how its port ended."""
    in_time = "" if talk.pause is None else " in time" if talk.pause < PATIENCE else " late"
    return f"{role.fault}{in_time}, {end}"


def any_pause(source, longest):
    """One of the pauses: replies fit, or do not, and are read on in time, or too late."""
    kind = source.choice(["fits", "fits", "fits", "in time", "in time", "late"])
    if kind == "in time":
        return clogged(IN_TIME * source.random(), 1)
    if kind == "late":
        return clogged(MOST_PATIENCE - 2 + max(1, longest - MOST_PATIENCE) * source.random() ** 4, 3)
    return pausing(longest * source.choice([1, *[source.random() / 4] * 5]))


# A disk without room.

class Disk(NamedTuple):
    """What of a run's folder has no room: files of which every write fails, or all beyond so many pages."""

    name: str
    full: tuple = ()
    pages: int | None = None

    def may_cut_log(self):
        return play.LOG in self.full or self.pages is not None


ROOMY = Disk("roomy")
FULL_FILES = [Disk("full midi.out", (play.MIDI,)), Disk("full tdl.log", (play.LOG,)), Disk("both full", (play.LOG, play.MIDI))]


def can_mount():
    """Whether a small disk can be made here, in a mount namespace of one's own."""
    if os.geteuid() != 0 or not shutil.which("unshare"):
        return False
    return subprocess.run(["unshare", "-m", *SMALL_DISK, f"size={PAGE}", "tmpfs", "/mnt"], stderr=subprocess.DEVNULL).returncode == 0


def any_disk(source, has_small):
    small = [Disk("small disk", pages=source.choice(PAGES))] * 3
    return source.choice([*[ROOMY] * 4, *FULL_FILES, *(small if has_small else [ROOMY])])


# A program that is stopped.

class Stop(NamedTuple):
    """How many seconds after the last one it comes, and how long it lasts."""

    after: float
    seconds: float


def any_stops(source):
    """Up to six stops of up to some seconds, most of them short."""
    if source.random() < 0.5:
        return []
    longest = [0.02, 0.3, 0.3, 1, LONGEST_STOP]
    count = source.randint(1, MOST_STOPS)
    return [Stop(BETWEEN_STOPS + 2 * source.random() ** 2, source.random() * source.choice(longest)) for _ in range(count)]


class Faults:
    """The faults of a run beside those of its performers."""

    def __init__(self, disk=ROOMY, stops=()):
        self.disk = disk
        self.stops = stops
        self.made = []  # how many seconds each stop lasted

    @contextlib.contextmanager
    def in_folder(self, folder):
        for it in self.disk.full:
            os.symlink(sessions.FULL, os.path.join(folder, it))
        if self.disk.pages is None:
            yield
            return
        subprocess.run([*SMALL_DISK, f"size={self.disk.pages * PAGE}", "tmpfs", folder], check=True)
        try:
            yield
        finally:
            subprocess.run(["umount", folder], check=True)

    @contextlib.contextmanager
    def beside(self, child):
        is_over = threading.Event()
        thread = threading.Thread(target=self.stop_again_and_again, args=(child, is_over), daemon=True)
        thread.start()
        try:
            yield
        finally:
            is_over.set()
            thread.join()

    def stop_again_and_again(self, child, is_over):
        """Stops the program, and lets it go on, until it has ended."""
        for it in self.stops:
            if is_over.wait(it.after) or child.poll() is not None:
                return
            start = time.monotonic()
            child.send_signal(signal.SIGSTOP)
            is_over.wait(it.seconds)
            child.send_signal(signal.SIGCONT)
            self.made.append(time.monotonic() - start)


def any_faults(source, has_small):
    return Faults(any_disk(source, has_small), any_stops(source))


def performer(source, faults, longest):
    """A performer of any kind. Where the log may not be whole it hears each reply, so that these tell the history."""
    choice = source.random()
    if choice < 0.2:
        found = source.choice(CUTS)
    elif choice < 0.4:
        found = any_pause(source, longest)
    else:
        found = source.choice(list(performers.ODD_ROLES.values()) if choice < 0.55 else [performers.TYPIST, performers.TALKER])
    has_all = found.hears_all and len(found.ends) == 1
    return found if has_all or not faults.disk.may_cut_log() else performers.TYPIST


def any_cast(source, faults, longest):
    """One to eight performers, of whom most make some fault or other."""
    return [performer(source, faults, longest) for _ in range(source.choice([1, 2, 4, 8, 8, 8]))]


def source_of(seed):
    return random.Random(f"faults {seed}")
