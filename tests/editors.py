"""Performers in Vim, in Emacs and at tools/perform, against a run of `serve`: what is shown, beside the replies and the log.

Each sends a line, a paragraph with lines that are refused, and `hush`; then it loses the connection, once after a reply
and once in its place, and goes on. What an editor shows is read from the screen of Vim, by tmux, and from the overlays of
Emacs. A part whose programs are not installed is left out with a word. Nobody else may have port 6110 of 127.0.0.1
meanwhile.
"""
import contextlib
import fcntl
import json
import os
import pathlib
import pty
import re
import select
import shutil
import socket
import struct
import subprocess
import sys
import tempfile
import termios
import threading
import time
from concurrent.futures import ThreadPoolExecutor

import served
from program import SECONDS, TOP, as_wanted, command

sys.path.append(os.path.join(TOP, "tools"))

from refusals import explained, kind_of, sentence, sentences  # noqa: E402

EDITORS, PERFORM = pathlib.Path(TOP, "editors"), f"{TOP}/tools/perform"
PACKAGES = {"vim": "vim", "tmux": "tmux", "emacs": "emacs-nox"}  # Debian's, by program
HOST = "127.0.0.1"
WIDTH, HEIGHT = 160, 40
WAIT = 20  # seconds for what is to be shown
ENVIRONMENT = {**os.environ, "LC_ALL": "C.UTF-8", "TERM": "xterm", "INPUTRC": "/dev/null"}
ALONE, CUT, LOST, BACK = 'd1 $ s "bd*2 [~ sn]"', "unmuteAll", "unsoloAll", 'd5 $ s "lt"'
PARAGRAPH = ['  d2 $ s "hh*8" -- é stays', 'd3 $ n "0 [3 5" # s "bass"', 'd3 $ s "bd é sn"', "mute 2 ", 's "bd*512*256"', "look"]
LINES = [ALONE, "", *PARAGRAPH, "", CUT, "", LOST, "", BACK]
# Lines in files of their own, that are no UTF-8.
ODD, LATIN = b'd4 $ s "cp" -- \xff\xfe\x00 odd', b'd4 $ s "cp" -- \xe9 latin'
TAKEN = "performer 3 is taken: another connection holds this port"
NO_REPLY = "no reply: it may count or not"
AGAIN = ". The next line makes it anew"


class Port:
    """A performer's port: passes lines to the run and replies back, one by one, and keeps both.

    It ends the connection after the reply to `CUT`, and in place of that to `LOST`.
    """

    def __init__(self, run):
        self.run, self.from_run = run, run.makefile("rb")
        self.listener = socket.create_server((HOST, 0))
        self.number = self.listener.getsockname()[1]
        self.said = []  # each line with its reply
        self.is_taken = False  # whether who comes is turned away, as tools/stage does it
        threading.Thread(target=self.take, daemon=True).start()

    def take(self):
        with contextlib.suppress(OSError):
            while True:
                connection, _ = self.listener.accept()
                with contextlib.suppress(OSError), connection:
                    self.pass_on(connection)

    def pass_on(self, connection):
        if self.is_taken:
            connection.sendall(f"{TAKEN}\n".encode())
            return
        for line in connection.makefile("rb"):
            self.run.sendall(line)
            line, reply = line.removesuffix(b"\n"), self.from_run.readline()
            self.said.append((line, reply.removesuffix(b"\n").decode()))
            if line != LOST.encode():
                connection.sendall(reply)
            if line in (CUT.encode(), LOST.encode()):
                connection.shutdown(socket.SHUT_RDWR)
                return

    def reply(self, line):
        """The reply to a line that was said once."""
        return dict(self.said).get(line.encode(), "")

    def close(self):
        self.listener.close()
        self.from_run.close()
        self.run.close()


class Run:
    """A run of `serve` in a folder of its own, with a port for each performer."""

    def __init__(self, room, performers):
        self.room = pathlib.Path(room)
        words = ["serve", "--performers", str(performers), "--cycles", "4", "--cps", "20"]
        self.child = subprocess.Popen([*served.FRONT, *command(words)], cwd=room, stdin=subprocess.DEVNULL, stdout=subprocess.DEVNULL)
        self.ports = [Port(served.first_connection(self.child)) for _ in range(performers)]

    def end(self):
        """The run's status and its log, once all have left."""
        for it in self.ports:
            it.close()
        status = self.child.wait(SECONDS)
        return status, served.read_log(self.room.joinpath("tdl.log").read_bytes())

    def close(self):
        if self.child.poll() is None:
            self.child.kill()
            self.child.wait()


class Screen:
    """A program on a screen of tmux."""

    def __init__(self, room, words):
        self.tmux = ["tmux", "-u", "-S", f"{room}/tmux", "-f", "/dev/null"]
        start = ["new-session", "-d", "-x", str(WIDTH), "-y", str(HEIGHT), *words]
        subprocess.run([*self.tmux, *start], env=ENVIRONMENT, check=True, timeout=SECONDS)

    def rows(self):
        ran = subprocess.run([*self.tmux, "capture-pane", "-p"], capture_output=True, text=True, check=True, timeout=SECONDS)
        return [it.rstrip() for it in ran.stdout.splitlines()]

    def press(self, *keys, until):
        """Presses keys, and waits until a row has this text."""
        subprocess.run([*self.tmux, "send-keys", *keys], check=True, timeout=SECONDS)
        return self.until(until)

    def until(self, text):
        last = time.monotonic() + WAIT
        while text not in "\n".join(rows := self.rows()):
            if time.monotonic() > last:
                raise OSError(f"`{text}` is not on the screen: {rows}")
            time.sleep(0.02)
        return rows

    def close(self):
        subprocess.run([*self.tmux, "kill-server"], check=False, timeout=SECONDS)


def behind(line, reply):
    """The rows that show a line and its reply."""
    kind = kind_of(reply)
    if kind is None:
        return [f"{line}  {reply}"]
    _, *mark, _ = explained(reply, line.encode())
    return [f"{line}  {reply}", f"{f'{mark[0]} ' if mark else ''}{kind}: {sentence(*sentences()[kind])}"]


def rows_of(port):
    """The rows of the file once all of it was said."""
    replies = {line: NO_REPLY if line == LOST else port.reply(line) for line in LINES if line}
    return [row for line in LINES for row in (behind(line, replies[line]) if line else [""])]


def lost_at(port, count=0):
    """What is told where the connection is lost, and lines have no reply."""
    return f"tdl: the connection to port {port.number} of {HOST} is lost" + (f"; lines without a reply: {count}" if count else "") + AGAIN


def write_files(room):
    pathlib.Path(room, "lines.tdl").write_text("".join(f"{it}\n" for it in LINES), encoding="utf-8")
    pathlib.Path(room, "odd.tdl").write_bytes(ODD + b"\n")
    pathlib.Path(room, "latin.tdl").write_bytes(LATIN + b"\n")


def odd_replies(port):
    return [dict(port.said).get(it) for it in (ODD, LATIN)]


VIM = """set nocompatible runtimepath^={editors}/vim
filetype plugin on
syntax on
let g:tdl_explain = "{room}/explain"
"""
# It takes a while, in which more is typed.
EXPLAIN = f"""#!/bin/sh
sleep 0.3
exec {TOP}/tools/explain "$@"
"""


def in_vim(room, port):
    """What Vim shows, step by step, and what it should show."""
    write_files(room)
    pathlib.Path(room, "vimrc").write_text(VIM.format(editors=EDITORS, room=room), encoding="utf-8")
    pathlib.Path(room, "explain").write_text(EXPLAIN, encoding="utf-8")
    pathlib.Path(room, "explain").chmod(0o755)
    screen = Screen(room, ["vim", "-u", f"{room}/vimrc", "-i", "NONE", "-n", f"{room}/lines.tdl"])
    with contextlib.closing(screen):
        steps = [
            (["1G", "Enter"], f"{ALONE}  at "),
            (["5G", "C-e"], f"{PARAGRAPH[-1]}  desk "),
            (["F9"], "hush: at "),
            (["10G", "Enter"], lost_at(port)),
            (["12G", "Enter"], lost_at(port, 1)),
            (["14G", "Enter"], f"{BACK}  at "),
        ]
        screen.until(f"{ALONE}\n")
        unknown = screen.press("Enter", until="tdl: no port")[-1]
        screen.press(f":TdlConnect {port.number}", "Enter", until=":TdlConnect")
        time.sleep(0.1)
        bottoms = [screen.press(*keys, until=text)[-1] for keys, text in steps]
        rows = screen.rows()
        changed = screen.press("1G", "A", "x", "Escape", until=f"{ALONE}x")[0]
        odd = [screen.press(f":edit! {room}/{it}.tdl", "Enter", "Enter", until=f" {it}  at ")[0] for it in ("odd", "latin")]
        port.is_taken = True
        away = screen.press(":TdlConnect", "Enter", until=TAKEN)[-1]
    found = {"rows": rows[:len(rows_of(port))], "changed": changed, "odd": [it.split("  ")[-1] for it in odd], "away": away}
    found |= {"hush": bottoms[2], "told": [unknown, *bottoms[3:5]]}
    wanted = {"rows": rows_of(port), "changed": f"{ALONE}x", "odd": odd_replies(port), "away": TAKEN}
    wanted |= {"hush": f"hush: {port.reply('hush')}", "told": ["tdl: no port is known yet: type :TdlConnect PORT", lost_at(port), lost_at(port, 1)]}
    return found, wanted


EMACS = """
(load "{editors}/emacs/tdl.el" nil t)
(defun rows ()
  (mapcan (lambda (at)
            (goto-char (point-min))
            (forward-line at)
            (let ((it (seq-find (lambda (it) (overlay-get it 'tdl)) (overlays-in (point) (line-end-position)))))
              (split-string (concat (buffer-substring (point) (line-end-position))
                                    (and it (overlay-get it 'after-string))) "\\n")))
          (number-sequence 0 (1- (count-lines (point-min) (point-max))))))
(defun key (line keys)
  (goto-char (point-min))
  (forward-line (1- line))
  (condition-case it (call-interactively (key-binding (kbd keys))) (user-error (message "%s" (cadr it)))))
(defun until-told (keys line)
  (key line keys)
  (with-timeout (20 (message "no reply"))
    (while (or tdl--asked (and (memq line '(10 12)) (process-live-p tdl--process)))
      (accept-process-output nil 0.02))))
(find-file "lines.tdl")
(key 1 "C-c C-l")
(tdl-connect "{host}" {port})
(until-told "C-c C-l" 1)
(until-told "C-c C-c" 5)
(until-told "C-c C-h" 1)
(until-told "C-c C-l" 10)
(until-told "C-c C-l" 12)
(until-told "C-c C-l" 14)
(let ((before (rows)))
  (goto-char (point-min))
  (end-of-line)
  (insert "x")
  (let ((changed (car (rows)))
        (odd (mapcar (lambda (it)
                       (find-file it)
                       (until-told "C-c C-l" 1)
                       (car (last (split-string (car (rows)) "  "))))
                     '("odd.tdl" "latin.tdl"))))
    (princ (json-encode (list before changed odd)))))
"""


def in_emacs(room, port):
    """What Emacs shows, and what it should show."""
    write_files(room)
    text = EMACS.format(editors=EDITORS, host=HOST, port=port.number)
    pathlib.Path(room, "act.el").write_text(text, encoding="utf-8")
    words = ["emacs", "-Q", "--batch", "-l", "json", "-l", f"{room}/act.el"]
    ran = subprocess.run(words, cwd=room, env=ENVIRONMENT, stdin=subprocess.DEVNULL, capture_output=True, text=True, timeout=SECONDS)
    if ran.returncode:
        return {"emacs": ran.stderr}, {}
    found = dict(zip(("rows", "changed", "odd"), json.loads(ran.stdout)), told=ran.stderr.splitlines())
    told = ["No port is known yet: type M-x tdl-connect", f"tdl: a performer at port {port.number} of {HOST}"]
    for line, reply in port.said:
        kind = kind_of(reply)
        shown = "hush: " + reply if line == b"hush" else f"{reply}  {kind}: {sentence(*sentences()[kind])}" if kind else reply
        told += [] if line == LOST.encode() else [shown]
        told += [lost_at(port)] if line == CUT.encode() else [lost_at(port, 1)] if line == LOST.encode() else []
    return found, {"rows": rows_of(port), "changed": f"{ALONE}x", "odd": odd_replies(port), "told": told}


class Terminal:
    """tools/perform on a terminal of its own."""

    def __init__(self, room, port):
        self.own, other = pty.openpty()
        fcntl.ioctl(other, termios.TIOCSWINSZ, struct.pack("HHHH", HEIGHT, WIDTH, 0, 0))
        start = [sys.executable, PERFORM, str(port.number)]
        self.child = subprocess.Popen(start, env={**ENVIRONMENT, "HOME": room}, stdin=other, stdout=other, stderr=other, start_new_session=True)
        os.close(other)

    def press(self, keys, until="\n> "):
        """Presses keys, and reads what is shown up to this text."""
        os.write(self.own, keys.encode())
        shown, last = b"", time.monotonic() + WAIT
        while not shown.replace(b"\r\n", b"\n").endswith(until.encode()):
            if time.monotonic() > last:
                raise OSError(f"`{until}` is not shown: {shown}")
            if select.select([self.own], [], [], 0.1)[0]:
                shown += os.read(self.own, 2**16)
        return shown.replace(b"\r\n", b"\n").decode()

    def end(self):
        """Leaves by Ctrl-D. The status."""
        os.write(self.own, b"\x04")
        return self.child.wait(WAIT)

    def close(self):
        if self.child.poll() is None:
            self.child.kill()
            self.child.wait()
        os.close(self.own)


def below(line, reply):
    """What stands on the terminal from a line that is typed to the next prompt."""
    return "\n".join([line, reply, *explained(reply, line.encode()), "> "])


def at_terminal(room, port):
    """What tools/perform shows for what is pressed, and what it should show."""
    lost, again = "the connection is lost; it is tried again until it is there, or until Ctrl-D\n", "\nconnected again\n> "
    no_reply = f"no reply came, so this line may count or not: {LOST}\n"
    found, wanted = {}, {}
    with contextlib.closing(Terminal(room, port)) as terminal:
        found["start"] = terminal.press("")
        for line in [ALONE, *PARAGRAPH]:
            found[line] = terminal.press(f"{line}\r")
            wanted[line] = below(line, port.reply(line))
        # Three lines back, to `mute 2 `; its end and its start are changed.
        terminal.press("\x1b[A\x1b[A\x1b[A\x7f\x7f3\x01un\r")
        found["pasted"] = terminal.press("\x1b[200~hush\n-- pasted\x1b[201~\r")[-len(port.reply("hush")) - 8:]
        port.is_taken = True
        found[CUT] = terminal.press(f"{CUT}\r", until=f"{TAKEN}\n> ").replace("> \n", "")
        found["typed"] = terminal.press("d5 $ ", until="d5 $ ")
        found["not sent"] = terminal.press("s\r")
        terminal.press("d5 $ ", until="d5 $ ")
        port.is_taken = False
        found["again"] = terminal.press("", until=f"{again}d5 $ ")
        found[BACK] = terminal.press(BACK.removeprefix("d5 $ ") + "\r")
        found[LOST] = terminal.press(f"{LOST}\r", until=again).replace("> \n", "")
        found["status"] = terminal.end()
    found["edited"] = [it for it, _ in port.said if it.startswith(b"un")]
    found["kept"] = pathlib.Path(room, ".tdl_history").read_text(encoding="utf-8").splitlines()[:2]
    wanted |= {"start": f"port {port.number} of {HOST}; Ctrl-D leaves\n> ", "pasted": f"{port.reply('hush')}\nskip\n> "}
    wanted |= {CUT: f"{CUT}\n{port.reply(CUT)}\n{lost}{TAKEN}\n> ", "typed": "d5 $ ", "again": f"{again}d5 $ "}
    wanted |= {"not sent": "s\nthere is no connection: this line is not sent\n> "}
    wanted |= {BACK: below(BACK, port.reply(BACK)).removeprefix("d5 $ "), LOST: f"{LOST}\n{lost}{no_reply}{again[1:]}"}
    wanted |= {"status": 0, "edited": [b"unmute 3", CUT.encode(), LOST.encode()], "kept": [ALONE, PARAGRAPH[0]]}
    return found, wanted


def piped(port, text):
    """What tools/perform puts for lines that come by a pipe, on both, and its status."""
    ran = subprocess.run([sys.executable, PERFORM, str(port)], input=text, env=ENVIRONMENT, capture_output=True, timeout=SECONDS)
    return ran.stdout.decode(), ran.stderr.decode(), ran.returncode


def through_pipe(_room, port):
    """What tools/perform does with lines that come by a pipe, and what it should do."""
    text = b"-- one\n" + ODD + b"\nlook"
    found = {"out": piped(port.number, text), "said": [it for it, _ in port.said]}
    wanted = {"out": ("".join(f"{it}\n" for _, it in port.said), "", 0), "said": text.split(b"\n")}
    port.is_taken = True
    found["taken"] = piped(port.number, text)
    found["nobody"] = piped(1, text)
    wanted["taken"] = ("", f"perform: {TAKEN}\n", 1)
    wanted["nobody"] = ("", f"perform: nobody takes performers at port 1 of {HOST}\n", 1)
    return found, wanted


def logged(who, port, log):
    """The lines of a performer in the log, and those that were accepted, at the places that their replies told."""
    found = [(it.place, it.said) for it in log.entries if it.who == who]
    accepted = [(line, reply) for line, reply in port.said if reply.startswith(("at ", "desk "))]
    return {"log": found}, {"log": [(int(reply.split(" ")[-1]), line.strip(b" ")) for line, reply in accepted]}


# Each part with the programs that it needs.
PARTS = [(in_vim, ["vim", "tmux"]), (in_emacs, ["emacs"]), (at_terminal, []), (through_pipe, [])]


def possible():
    """The parts whose programs are installed. The others are told."""
    for part, programs in PARTS:
        missing = [it for it in programs if shutil.which(it) is None]
        for it in missing:
            print(f"left out: a performer {part.__name__.replace('_', ' ')}: Debian's {PACKAGES[it]} is not installed")
        if not missing:
            yield part


def played(part, room, port):
    """What a part found and wanted. What goes wrong on the way is found."""
    folder = pathlib.Path(room, part.__name__)
    folder.mkdir()
    try:
        return part(str(folder), port)
    except (OSError, subprocess.SubprocessError) as fault:
        return {"run": fault}, {}


def passes_parts():
    """Whether each part shows what it should, all of them in one run, and the log has what was said."""
    parts = list(possible())
    with tempfile.TemporaryDirectory(prefix="tdl-editors-") as room, contextlib.closing(Run(room, len(parts))) as run:
        with ThreadPoolExecutor(len(parts)) as threads:
            results = list(threads.map(played, parts, [room] * len(parts), run.ports))
        status, log = run.end()
    yield as_wanted("editors, the run", {"status": status}, {"status": 0})
    for who, (part, port, result) in enumerate(zip(parts, run.ports, results), 1):
        yield as_wanted(f"editors, {part.__name__}", *result)
        yield as_wanted(f"editors, {part.__name__}, the log", *logged(who, port, log))


# How the table of names tells what a name is, and what the editors call that.
CALLED = {"Random": "chances", "Key": "keys", "Order": "lines", "Flag": "lines", "JumpMod": "lines", "Silence": "lines"}


def names():
    """The names of the notation by what they are, as the reader of lines has them."""
    with open(f"{TOP}/crates/tdl_line_texts/src/words.rt", encoding="utf-8") as file:
        rows = re.findall(r'Meaning\(b"([^"]+)", Name::(\w+)', file.read())
    return {kind: sorted(it for it, name in rows if CALLED.get(name, "functions") == kind) for kind in (*CALLED.values(), "functions")}


def passes_names():
    """Whether both editors colour the names of the notation, each as what it is."""
    vim = EDITORS.joinpath("vim", "syntax", "tdl.vim").read_text(encoding="utf-8")
    emacs = EDITORS.joinpath("emacs", "tdl.el").read_text(encoding="utf-8")
    wanted = names()
    rows = {kind: re.findall(rf"^syntax keyword tdl{kind.capitalize()[:-1]} (.*)$", vim, re.MULTILINE) for kind in wanted}
    yield as_wanted("editors, names in Vim", {kind: sorted(" ".join(it).split()) for kind, it in rows.items()}, wanted)
    lists = {kind: re.search(rf"\(defconst tdl--{kind}\s+'\(([^)]*)\)", emacs) for kind in wanted}
    yield as_wanted("editors, names in Emacs", {kind: sorted(re.findall(r'"([^"]+)"', it[1])) for kind, it in lists.items()}, wanted)


def passes_each():
    """Whether each check passes."""
    passed = [*passes_names()]
    try:
        passed += passes_parts()
    except (OSError, subprocess.TimeoutExpired) as fault:
        passed.append(as_wanted("editors", {"run": fault}, {}))
    return passed


if __name__ == "__main__":
    outcomes = passes_each()
    print(f"{sum(outcomes)} passed, {len(outcomes) - sum(outcomes)} failed")
    sys.exit(not all(outcomes))
