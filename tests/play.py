"""Runs of `tdl play`: its replies, its datagrams as an OSC 1.0 reader sees them, and its status."""
import errno
import os
import pathlib
import resource
import select
import shutil
import signal
import socket
import subprocess
import sys
import tempfile
import time

import model
import osc
import scripts
from program import SECONDS, as_wanted, command, stopped

ADDRESS = ("127.0.0.1", 57120)
LOCAL = " 0100007F:DF20 "  # the address, as /proc/net/udp of a little-endian machine has it
TRIES = 10
LARGEST = 65536
ROOM = 2**24
FORCE = 33  # SO_RCVBUFFORCE of Linux, which Python does not name
FILE_LIMIT = 512
LOG = "tdl.log"
MIDI = "midi.out"
DESCRIPTORS = 4


class Receiver:
    """The socket to which the program sends."""

    def __init__(self):
        self.socket = socket.socket(socket.AF_INET, socket.SOCK_DGRAM)
        self.socket.setblocking(False)
        self.socket.setsockopt(socket.SOL_SOCKET, socket.SO_RCVBUF, ROOM)
        try:
            self.socket.setsockopt(socket.SOL_SOCKET, FORCE, ROOM)
        except PermissionError:
            pass  # the system's own limit stands
        self.socket.bind(ADDRESS)

    def waiting(self):
        """The datagrams that have come."""
        found = []
        while True:
            try:
                found.append(self.socket.recv(LARGEST))
            except BlockingIOError:
                return found

    def drain(self):
        """The packets that have come, each as its time tag and its messages, or as what is wrong with it."""
        return [read(it) for it in self.waiting()]

    def until_end(self, child):
        """The packets that come until a run has ended. They are read after it, so that none is lost."""
        return [read(it) for it in self.datagrams(child)]

    def datagrams(self, child):
        """The datagrams that come until a run has ended."""
        datagrams, last = [], time.monotonic() + SECONDS
        while child.poll() is None:
            if time.monotonic() > last:
                raise stopped(child)
            select.select([self.socket], [], [], 0.005)
            datagrams += self.waiting()
        return datagrams + self.waiting()

    def dropped(self):
        """How many datagrams did not fit into its buffer, as Linux counts them."""
        table = pathlib.Path("/proc/net/udp")
        lines = table.read_text().splitlines() if table.exists() else []
        return sum(int(it.split()[-1]) for it in lines if LOCAL in it)

    def close(self):
        self.socket.close()


def read(datagram):
    try:
        return osc.bundle(datagram)
    except osc.Fault as fault:
        return f"{fault}: {datagram.hex()}"


def played(receiver, room, given, redirections="", limit=None, under=()):
    """What a run of a script puts, sends and ends with, perhaps under another program. It is made anew where datagrams were dropped."""
    for _ in range(TRIES):
        before = receiver.dropped()
        found = played_once(receiver, room, given, redirections, limit, under)
        if receiver.dropped() == before:
            break
    return found


def played_once(receiver, room, given, redirections, limit, under):
    with tempfile.TemporaryFile() as source, tempfile.TemporaryFile() as out, tempfile.TemporaryFile() as error:
        source.write(given)
        source.seek(0)
        start = [*under, *command(["play"], redirections)]
        receiver.waiting()  # what a run that was stopped may have left
        child = subprocess.Popen(start, cwd=room, stdin=source, stdout=out, stderr=error, preexec_fn=limit)
        packets = receiver.until_end(child)
        out.seek(0)
        error.seek(0)
        found = {"standard output": out.read(), "standard error": error.read(), "status": child.returncode}
        return {**found, "packets": packets}


def wanted(output, status, packets):
    return {"standard output": output, "standard error": b"", "status": status, "packets": packets}


def worked(receiver, room, name):
    """A script with what is written beside it, which the model answers too."""
    given, lines, packets = scripts.WORKED[name]
    expected = wanted(scripts.script(*lines), 0, packets)
    run = model.play(given)
    is_model_right = as_wanted(f"the model of {name}", wanted(run.output(), run.status, run.packets()), expected)
    return is_as_modelled(receiver, room, name, given, run) and is_model_right


def modelled(receiver, room, name):
    """A script that the model answers."""
    given = scripts.MODELLED[name]()
    return is_as_modelled(receiver, room, name, given, model.play(given))


def is_as_modelled(receiver, room, name, given, run):
    """Whether a run and its log are as the model has them."""
    found = {**played(receiver, room, given), **{it: pathlib.Path(room, it).read_bytes() for it in (LOG, MIDI)}}
    return as_wanted(f"play, {name}", found, {**wanted(run.output(), run.status, run.packets()), LOG: run.log, MIDI: run.midi()})


def cut_anywhere(receiver, room):
    """The packets are the same however ticks cut the time between the swaps."""
    runs = [played(receiver, room, given) for given in scripts.cuts()]
    first = model.play(next(scripts.cuts())).packets()
    expected = [(0, first)] * len(runs)
    return as_wanted("play, other cuts", {"packets": [(it["status"], it["packets"]) for it in runs]}, {"packets": expected})


def without_input(receiver, room, redirections):
    """Standard input that cannot be read: there is no end line, so that output is not asked for either."""
    return as_wanted(f"play {redirections}", played(receiver, room, b"", redirections), wanted(b"", 5, []))


def without_output(receiver, room, redirections, given):
    """Standard output that takes nothing: the run stops at its first reply."""
    found = played(receiver, room, given, redirections)
    return as_wanted(f"play of {given} {redirections}", found, wanted(b"", 4, []))


def without_reader(_receiver, room):
    """Standard output is a pipe that nobody reads any more."""
    reader, writer = os.pipe()
    os.close(reader)
    given = {"input": scripts.script("tick 1"), "stdout": writer, "stderr": subprocess.PIPE}
    ran = subprocess.run(command(["play"]), cwd=room, timeout=SECONDS, **given)
    os.close(writer)
    found = {"standard error": ran.stderr, "status": ran.returncode}
    return as_wanted("play, nobody reads", found, {"standard error": b"", "status": 4})


def limit_files():
    """Lets files of the program be so long. It runs in the child, where the signal is at its default."""
    signal.signal(signal.SIGXFSZ, signal.SIG_IGN)
    resource.setrlimit(resource.RLIMIT_FSIZE, (FILE_LIMIT, FILE_LIMIT))


def limit_descriptors():
    """Leaves the program one descriptor beside its standard streams, which its loader wants too."""
    resource.setrlimit(resource.RLIMIT_NOFILE, (DESCRIPTORS, DESCRIPTORS))


def without_socket(receiver, room):
    """No socket can be made: nothing is played."""
    given = scripts.script(scripts.swap("bd"), "tick 1")
    error = f"no device\nsocket: {os.strerror(errno.EMFILE)} (os error {errno.EMFILE})\n"
    expected = {**wanted(b"", 8, []), "standard error": error.encode()}
    return as_wanted("play without a socket", played(receiver, room, given, limit=limit_descriptors), expected)


def full_on_the_way(receiver, room):
    """Standard output that is full after some replies: the packets of the last reply begun were sent."""
    given = scripts.mixed(3, 100)
    run = model.play(given)
    packets, begun = [], 0
    for answer in run.answers:
        packets += answer.packets
        begun += len(answer.reply) + 1
        if begun > FILE_LIMIT:
            break
    expected = wanted(run.output()[:FILE_LIMIT], 4, packets)
    return as_wanted("play, output full on the way", played(receiver, room, given, limit=limit_files), expected)


def line_of(child):
    """The next line of a run's output, or what came of it in time."""
    poller, line = select.poll(), b""
    poller.register(child.stdout, select.POLLIN)
    while not line.endswith(b"\n") and poller.poll(10000):
        byte = os.read(child.stdout.fileno(), 1)
        if not byte:
            break
        line += byte
    return line


def ended(child):
    """Waits for the end of a run. Its last output and its status."""
    try:
        out, error = child.communicate(timeout=SECONDS)
    except subprocess.TimeoutExpired:
        raise stopped(child) from None
    return {"standard output": out, "standard error": error, "status": child.returncode}


def conversation(receiver, room):
    """Each line is answered before the next is there, after its packets were sent."""
    swaps = [scripts.swap("bd sn ~ cp"), scripts.swap("hh")]
    given = scripts.script(swaps[0], "tick 1/2", "tick", "tick 3/2", swaps[1], "tick 2", "tick 3")
    run = model.play(given)
    pipes = {"stdin": subprocess.PIPE, "stdout": subprocess.PIPE, "stderr": subprocess.PIPE}
    child = subprocess.Popen(command(["play"]), cwd=room, bufsize=0, **pipes)
    answers = []
    for line in given.splitlines(keepends=True):
        child.stdin.write(line)
        reply = line_of(child)
        answers.append((reply.decode().removesuffix("\n"), receiver.drain()))
        if not reply.endswith(b"\n"):
            break
    found = {"answers": answers, **ended(child)}
    end = {"standard output": f"{run.end}\n".encode(), "standard error": b"", "status": 0}
    return as_wanted("play, line by line", found, {"answers": [(it.reply, it.packets) for it in run.answers], **end})


def broken_input(receiver, room):
    """Standard input that fails after some lines: these are answered, and the piece after them is dropped."""
    ours, theirs = socket.socketpair()
    with ours, theirs:
        # What is not read yet when this end is closed makes the other end's next read fail.
        theirs.send(b"unread")
        ours.send(scripts.script(scripts.swap("bd"), "tick 1") + b"tick 2")
        pipes = {"stdin": theirs, "stdout": subprocess.PIPE, "stderr": subprocess.PIPE}
        child = subprocess.Popen(command(["play"]), cwd=room, bufsize=0, **pipes)
    found = ended(child)
    expected = model.play(scripts.script(scripts.swap("bd"), "tick 1"))
    output = scripts.script(*(it.reply for it in expected.answers))
    return as_wanted("play, broken input", {**found, "packets": receiver.drain()}, wanted(output, 5, expected.packets()))


def reads_osc(_receiver, _room):
    """The reader of these checks reads a packet that is known, and none of its damaged forms."""
    text = bytes.fromhex(
        "2362756e646c6500 83aa7e8000000000 00000044 2f646972742f706c61790000 2c7369736973697373000000 6379636c65000000"
        "00000000 64656c7461000000 000f4240 6f72626974000000 00000000 73000000 62640000"
    )
    known = [("/dirt/play", ["cycle", 0, "delta", 1000000, "orbit", 0, "s", "bd"])]
    damaged = [text[:-1], text[:-4], text + b"\0", b"", b"$" + text[1:], text[:-1] + b"x", text[:19] + b"\x48" + text[20:]]
    damaged += [text[:20] + b"x" + text[21:], text[:32] + b";" + text[33:], text[:33] + b"f" + text[34:]]
    found = {"known": read(text), "damaged": [type(read(it)) for it in damaged]}
    return as_wanted("the OSC reader", found, {"known": (0x83AA7E80 << 32, known), "damaged": [str] * len(damaged)})


def without_receiver(receiver, room):
    """A run with nobody on the port. The receiver is closed and not opened again."""
    receiver.close()
    given = scripts.script(*scripts.each_in_its_cycle(["bd " * 16] * 4))
    run = model.play(given)
    ran = subprocess.run(command(["play"]), cwd=room, input=given, capture_output=True, timeout=SECONDS)
    found = {"standard output": ran.stdout, "standard error": ran.stderr, "status": ran.returncode}
    return as_wanted("play without a receiver", found, {"standard output": run.output(), "standard error": b"", "status": 0})


TRACED = ["strace", "-qq", "-o"]
# The calls of a device: which of the system's, and the start of what strace writes of one. The loader reads files too.
DEVICE_CALLS = [("read", "read(0,"), ("write", "write("), ("sendto", "sendto(")]
# How often a call is made again at most.
MOST_AGAIN = 16


def can_interrupt():
    """Whether strace is here and can make calls fail as if a signal had interrupted them."""
    if not shutil.which(TRACED[0]):
        return False
    return subprocess.run([*interrupting("write", 1, 1), "true"], stdout=subprocess.DEVNULL, stderr=subprocess.DEVNULL).returncode == 0


def interrupting(name, first, last):
    """Under this a program's calls of a name, from the first up to the last, counted from 1, are interrupted."""
    return [*TRACED, os.devnull, "-e", f"inject={name}:error=EINTR:when={first}..{last}"]


def device_calls(receiver, room, given):
    """The calls of a run on its devices, each by its name and its number among those of the name."""
    calls = pathlib.Path(room, "calls")
    played(receiver, room, given, under=[*TRACED, str(calls), "-e", "trace=" + ",".join(name for name, _ in DEVICE_CALLS)])
    lines = calls.read_text().splitlines()
    for name, start in DEVICE_CALLS:
        named = [it for it in lines if it.startswith(f"{name}(")]
        yield from ((name, at) for at, line in enumerate(named, 1) if line.startswith(start))


def interrupted(receiver, room):
    """A run is the same where one of its calls is interrupted as often as it is made again; once more is a failure."""
    given = scripts.script(scripts.swap("bd midi"), "tick 1", "finish")
    run = model.play(given)
    whole = {**wanted(run.output(), run.status, run.packets()), LOG: run.log, MIDI: run.midi()}
    calls = list(device_calls(receiver, room, given))
    found, expected = {"calls": {name for name, _ in calls}}, {"calls": {name for name, _ in DEVICE_CALLS}}
    for name, at in calls:
        for last in (at, at + MOST_AGAIN - 1):
            key = f"{name} {at} to {last}"
            found[key] = played(receiver, room, given, under=interrupting(name, at, last))
            found[key].update({it: pathlib.Path(room, it).read_bytes() for it in (LOG, MIDI)})
            expected[key] = whole
    for name, at in {name: at for name, at in reversed(calls)}.items():
        key = f"{name} {at}, once more"
        found[key] = played(receiver, room, given, under=interrupting(name, at, at + MOST_AGAIN))["status"]
        expected[key] = 5 if name == "read" else 4
    return as_wanted("play, interrupted", found, expected)


NO_NETWORK = ["unshare", "-n"]
SEND_FAILS = """
import socket
it = socket.socket(socket.AF_INET, socket.SOCK_DGRAM)
it.bind(("127.0.0.1", 0))
try:
    it.sendto(b"", ("127.0.0.1", 57120))
except OSError:
    raise SystemExit(0)
raise SystemExit(1)
"""


def can_lose_network():
    """Whether a run can be without a network here, and then makes its socket but fails to send."""
    if not shutil.which(NO_NETWORK[0]):
        return False
    return subprocess.run([*NO_NETWORK, sys.executable, "-c", SEND_FAILS], stderr=subprocess.DEVNULL).returncode == 0


def without_network(_receiver, room):
    """No packet can be sent: the run stops before it replies to the first tick that has one."""
    given = scripts.script("tick 1", scripts.swap("bd sn"), "tick 2", "tick 3")
    ran = subprocess.run([*NO_NETWORK, *command(["play"])], cwd=room, input=given, capture_output=True, timeout=SECONDS)
    found = {"standard output": ran.stdout, "standard error": ran.stderr, "status": ran.returncode}
    output = scripts.script("tick 1 osc 0 midi 0", "at 1 place 1")
    return as_wanted("play without a network", found, {"standard output": output, "standard error": b"", "status": 4})


def has_oscdump():
    return bool(shutil.which("oscdump") and shutil.which("stdbuf"))


def is_taken():
    """Whether a socket of this machine has the port."""
    tables = [pathlib.Path(f"/proc/net/{it}") for it in ("udp", "udp6")]
    return any(":DF20 " in it.read_text() for it in tables if it.exists())


def soon(condition):
    """Waits up to ten seconds for a condition."""
    last = time.monotonic() + 10
    while not condition() and time.monotonic() < last:
        time.sleep(0.01)


def dumped(packet):
    """What oscdump prints of a packet, from its address on."""
    (address, arguments), = packet[1]
    values = [f'"{it}"' if isinstance(it, str) else str(it) for it in arguments]
    tags = ["s" if isinstance(it, str) else "i" for it in arguments]
    return " ".join([address, "".join(tags), *values])


def outside_reader(_receiver, room):
    """oscdump of Debian's liblo-tools sees the same messages. It has the port for itself."""
    given = scripts.script(scripts.swap("bd sn ~ superpiano"), "tick 1", scripts.swap("hh"), "tick 2")
    expected = [dumped(it) for it in model.play(given).packets()]
    seen = pathlib.Path(room, "seen")
    with seen.open("wb") as out:
        dump = subprocess.Popen(["stdbuf", "-oL", "oscdump", str(ADDRESS[1])], stdout=out, stderr=out)
    try:
        soon(is_taken)
        subprocess.run(command(["play"]), cwd=room, input=given, stdout=subprocess.DEVNULL, timeout=SECONDS)
        soon(lambda: seen.read_text().count("\n") >= len(expected))
    finally:
        dump.terminate()
        dump.wait()
    found = [it[max(0, it.find("/")):].strip() for it in seen.read_text().splitlines()]
    return as_wanted("play, seen by oscdump", {"oscdump": found}, {"oscdump": expected})


# Redirections of which none can be read from.
INPUTS = ["<&-", "<&- >&-", "</", "</ >&-", "</ >/dev/full"]

# Scripts for a standard output that takes nothing.
OUTPUTS = [b"", b"\n", scripts.script("tick 1"), scripts.script(scripts.swap("bd"), "tick 1")]

# Checks that need something of the machine, whether it has that, and the words where it has not; first those with the receiver.
OPTIONAL_RECEIVED = [
    (interrupted, can_interrupt, "play, interrupted: strace is not installed, or traces nothing here"),
]
OPTIONAL = [
    (without_network, can_lose_network, "play without a network: a run cannot be cut off from it here"),
    (outside_reader, has_oscdump, "play seen by oscdump: Debian's liblo-tools is not installed"),
]


def possible(optional):
    """Those of the checks for which the machine has what they need. The others are told."""
    for check, is_possible, words in optional:
        if is_possible():
            yield (check,)
        else:
            print(f"left out: {words}")


def checks():
    """Each check, with what it is given beside the receiver and a folder. The last ones have no receiver."""
    found = [(reads_osc,)]
    found += [(worked, it) for it in scripts.WORKED]
    found += [(modelled, it) for it in scripts.MODELLED]
    found += [(without_input, it) for it in INPUTS]
    found += [(without_output, to, given) for to in (">&-", ">/dev/full") for given in OUTPUTS]
    found += [(it,) for it in (without_reader, without_socket, cut_anywhere, full_on_the_way, conversation, broken_input)]
    return [*found, *possible(OPTIONAL_RECEIVED), (without_receiver,), *possible(OPTIONAL)]


def passes_each(room):
    """Whether each check passes."""
    found = checks()
    try:
        receiver = Receiver()
    except OSError as fault:
        return [as_wanted("play", {"receiver": f"{ADDRESS}: {fault}"}, {"receiver": "bound"})] * len(found)
    passed = [passes(receiver, room, *it) for it in found]
    receiver.close()
    return passed


def passes(receiver, room, check, *given):
    try:
        return check(receiver, room, *given)
    except (OSError, subprocess.TimeoutExpired) as fault:
        return as_wanted(f"play, {check.__name__} {given}", {"run": fault}, {})
