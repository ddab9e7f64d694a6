"""The page of tools/stage: in Chromium as two people use it, and while fifty pages send garbage.

What the page shows is compared with the replies, the log and tools/draw. Nobody else may have ports 6110, 6121 to 6123,
6130 to 6132 of 127.0.0.1 meanwhile, nor UDP port 57120.
"""
import asyncio
import concurrent.futures
import contextlib
import http.client
import json
import os
import pathlib
import random
import re
import socket
import subprocess
import sys
import tempfile
import threading
import time
import urllib.parse
from fractions import Fraction
from typing import NamedTuple

import chromium
import play
import sessions
import stage
from program import PROGRAM, SECONDS, TOP, as_wanted

sys.path.append(os.path.join(TOP, "tools"))

from drawing import picture  # noqa: E402
from random_sessions import session  # noqa: E402
from refusals import sentences  # noqa: E402
from stage_desk import ORBITS, Desk  # noqa: E402
from stage_roll import TITLE  # noqa: E402

HOST, PAGE, PROXY = "127.0.0.1", 6130, 6131
WORD = "häm mer"
SEEDS = (11, 12)
PAGES, FLOOD = 50, 4  # so many send garbage, for so many seconds
FLOODED = ["--performers", "3", "--cycles", "40", "--cps", "6", "--listen", "0.0.0.0", "--page", str(PAGE)]
MOST_WAIT, PAUSE, TRIES = 0.05, 0.05, 3
TOLD = re.compile(r"desk (\S+) playing (\S+) muted (\S+) soloed (\S+) place \d+")


# ---- what plays, from the replies

def looked(desk, cycle):
    """What a reply to `look` says of a desk."""
    shown = list(desk.shown(cycle))
    plays = [it["orbit"] for it in shown if it["heard"] and it["text"] is not None]
    lists = [plays, *([it["orbit"] for it in shown if it[flag]] for flag in ("muted", "soloed"))]
    return tuple(",".join(map(str, it)) or "-" for it in lists)


def passes_desks(receiver):
    """The desk of a script's replies is what `look` says, and it is the same in whatever order replies are seen."""
    for seed in SEEDS:
        lines = session(seed, 600)
        replies = sessions.run(receiver, sessions.text_of(lines))["standard output"].decode().splitlines()
        told = [(int(line[1]), line[3:].encode(), reply) for line, reply in zip(lines, replies) if re.match("p[1-8] ", line)]
        desk, found, wanted = Desk(), [], []
        for who, line, reply in told:
            desk.take(who, line, reply.encode())
            if looks := TOLD.fullmatch(reply):
                found.append(looked(desk, int(Fraction(looks[1]))))
                wanted.append(looks.groups()[1:])
        mixed, other = random.Random(seed).sample(told, len(told)), Desk()
        for who, line, reply in mixed:
            other.take(who, line, reply.encode())
        same = all(list(desk.shown(it)) == list(other.shown(it)) for it in range(300))
        result = {"looks": found, "same": same, "some": len(found) > 20}
        yield as_wanted(f"page, the desk of seed {seed}", result, {"looks": wanted, "same": True, "some": True})


# ---- in a browser

class Proxy(threading.Thread):
    """A way to the page that can be cut off and opened again."""

    def __init__(self, port):
        super().__init__(daemon=True)
        self.port, self.ends, self.listener = port, [], None
        self.open()

    def open(self):
        self.listener = socket.create_server((HOST, self.port))
        threading.Thread(target=self.welcome, args=[self.listener], daemon=True).start()

    def welcome(self, listener):
        with contextlib.suppress(OSError):
            while True:
                near, _ = listener.accept()
                far = socket.create_connection((HOST, PAGE))
                self.ends += [near, far]
                for one, other in ((near, far), (far, near)):
                    threading.Thread(target=self.pass_on, args=[one, other], daemon=True).start()

    def pass_on(self, one, other):
        with contextlib.suppress(OSError):
            while piece := one.recv(65536):
                other.sendall(piece)
        for it in (one, other):
            with contextlib.suppress(OSError):
                it.shutdown(socket.SHUT_RDWR)

    def cut(self):
        for it in [self.listener, *self.ends]:
            with contextlib.suppress(OSError):
                it.shutdown(socket.SHUT_RDWR)
            it.close()
        self.ends = []


class Person(stage.Performer):
    """Someone at a page in a browser, with all lines that they sent and what the page showed below each."""

    def __init__(self, number, browser, port, **shape):
        super().__init__(number)
        self.tab = chromium.Tab(browser, f"http://{HOST}:{port}/", **shape)

    def come_in(self, word):
        self.tab.until("!document.getElementById('door').hidden && document.activeElement.id === 'word'")
        self.tab.type(word)
        self.tab.press("Enter")

    def is_performer(self):
        return self.tab.until(f"document.querySelector('#players .mine')?.dataset.performer === '{self.number}'")

    def has_network(self):
        """Waits until what is shown is that of now."""
        self.tab.until("document.getElementById('net').textContent === ''")

    def has_left(self):
        return self.tab.until(f"/free|ended/.test(document.querySelector('#players [data-performer=\"{self.number}\"]').textContent)")

    def press_button(self):
        """Presses the button of their number by the keyboard alone."""
        for _ in range(12):
            self.tab.press("Tab")
            if self.tab.ask(f"document.activeElement.dataset.performer === '{self.number}'"):
                break
        self.tab.press(" ")

    def write(self, text):
        """Writes this in the place of all that stands in the pane."""
        self.tab.press("a", chromium.CONTROL)
        self.tab.press("Backspace")
        self.tab.type(text)

    def below(self):
        """Each line of the pane, and what is shown below it."""
        return self.tab.ask("[...document.querySelectorAll('#pane > div')].map(it => [it.textContent, it.dataset.told ?? null])")

    def press(self, held):
        """Sends the last line, or the block up to it, and waits for the replies."""
        self.tab.press("Enter", held)
        lines = [it for it, _ in self.below()]
        count = 1 if held == chromium.SHIFT else len(lines) - (lines.index("") + 1 if "" in lines else 0)
        self.tab.until(f"lines().slice(-{count}).every(it => /\\w/.test(it.dataset.told ?? ''))")
        replies = [(line, [it for it in told.split("\n") if it.strip() not in ("", "^")][0]) for line, told in self.below()[-count:]]
        self.said += replies
        return replies

    def say(self, text, held=chromium.SHIFT):
        self.write(text)
        return self.press(held)

    def row(self, orbit):
        """What is shown of an orbit: its state and its text with what waits."""
        return self.tab.ask(f"[...document.querySelectorAll('#orbits tr')[{orbit - 1}].querySelectorAll('td')].map(it => it.textContent.trim())")

    def until_row(self, orbit, mark, text):
        shown = f"[...document.querySelectorAll('#orbits tr')[{orbit - 1}].querySelectorAll('td')].map(it => it.textContent.trim())"
        return self.tab.until(f"JSON.stringify({shown}) === {json.dumps(json.dumps([mark, text], ensure_ascii=False, separators=(',', ':')))}")


def come(one, two):
    """Both come in, the first by the keyboard alone and after a wrong word."""
    one.come_in("hammer")
    wrong = one.tab.until("document.getElementById('wrong').textContent")
    hidden = one.tab.ask("getComputedStyle(document.getElementById('main')).display")
    one.come_in(WORD)
    one.tab.until("document.querySelector('#players button')")
    one.press_button()
    two.come_in(WORD)
    two.tab.until("document.querySelector('#players [data-performer=\"2\"]')")
    two.tab.click("document.querySelector('#players [data-performer=\"2\"]')")
    shown = [one.is_performer(), two.is_performer(), two.tab.until("document.querySelector('#players button').textContent === '1 held by another page'")]
    taken = two.tab.ask("document.querySelector('#players button').disabled")
    return {"wrong": [wrong, hidden], "come": [*shown, taken]}, {"wrong": ["That is not the word.", "none"], "come": [True] * 4}


def go(three, proxy):
    """A third one comes, and their network is gone."""
    three.come_in(WORD)
    three.tab.until("document.querySelector('#players button')")
    three.press_button()
    is_here = three.is_performer()
    proxy.cut()
    return {"here": is_here}, {"here": True}


def come_back(three, proxy, other):
    """After ten seconds their performer is free, and who comes back takes it again."""
    other.tab.until("document.querySelector('#players [data-performer=\"3\"]').textContent === '3 free: play'")
    proxy.open()
    three.has_network()
    back = three.is_performer()
    three.press_button()
    return {"back": back, "left": three.has_left()}, {"back": True, "left": True}


def play_lines(one, two):
    """A line, a refused one, a block, a line that waits, a mute by the other, a text that looks like markup, and `hush`."""
    accepted = one.say('d1 $ s "bd*2 [~ sn]"')[0][1]
    one.until_row(1, "sounds", 's "bd*2 [~ sn]"by 1')
    drawn = drawing(one, int(accepted.split(" ")[1]))
    one.say('d3 $ n "0 [3 5" # s "bass"')
    refused = one.below()[0][1].split("\n")
    why, _ = sentences()["Unexpected"]
    two.say('mute 1\njumpMod 4 4096 $ s "cp"', chromium.CONTROL)
    two.until_row(1, "muted", 's "bd*2 [~ sn]"by 1')
    one.until_row(1, "muted", 's "bd*2 [~ sn]"by 1')
    one.until_row(4, "–", 'from 4096: s "cp"by 2')
    markup = '-- <img src=x onerror="document.title=1"><b>&lt;</b>'
    two.say(markup)
    shown = one.tab.until(f"[...document.querySelectorAll('#replies code')].map(it => it.textContent).find(it => it === {json.dumps(markup)})")
    marks = one.tab.ask("document.querySelectorAll('#replies img, #replies b b, #orbits img').length + document.title")
    two.tab.press(".", chromium.CONTROL)
    hushed = two.tab.until("document.getElementById('last').textContent.match(/^hush: (at .*)/)?.[1]")
    two.said.append(("hush", hushed))
    one.until_row(1, "– muted", "")
    found = {"accepted": bool(re.fullmatch(r"at \d+ place \d+", accepted)), "refused": refused[:3], "markup": [shown, marks], "drawn": drawn[0]}
    wanted = {"accepted": True, "refused": [" " * 14 + "^", "refused Unexpected 14", refused[2] if why in refused[2] else why]}
    return found, wanted | {"markup": [markup, "0tdl"], "drawn": drawn[1]}


def drawing(person, first):
    """What is drawn, from this cycle on or later, and what tools/draw makes of the same cycles."""
    person.tab.until(f"document.querySelector('#roll img').alt.split(' ')[4] >= {first}")
    alt, text = person.tab.ask("(it => [it.alt, decodeURIComponent(it.src).replace(/^[^,]*,/, '')])(document.querySelector('#roll img'))")
    cycle = int(alt.split(" ")[4])
    width = int(re.search(r'width="(\d+)"', text)[1])
    words = [PROGRAM, "query", "--", 's "bd*2 [~ sn]"', str(cycle), str(cycle + 2)]
    lines = subprocess.run(words, capture_output=True, text=True, timeout=SECONDS, check=True).stdout.splitlines()
    return text, picture(TITLE, lines, cycle, cycle + 2, width)


def edit(one):
    """Lines are split, undone and pasted as in any editor, and a reply stays with its line alone."""
    one.say('d5 $ s "hh*4"')
    for key in ("Enter", "d"):
        one.tab.type("\n" if key == "Enter" else 'd6 $ s "oh"')
    split = [(line, bool(told)) for line, told in one.below()]
    one.tab.press("z", chromium.CONTROL)
    one.tab.ask("document.execCommand('insertText', false, 'x\\ny')")
    lines = one.tab.ask("texts().length")
    return {"split": split, "lines": lines > 1}, {"split": [('d5 $ s "hh*4"', True), ('d6 $ s "oh"', False)], "lines": True}


def reload(one):
    """The text, the performer and the replies are there again."""
    one.say('d2 $ s "hh*8"\n\nd3 $ s "cp"')
    before = one.below()
    one.tab.reload()
    one.is_performer()
    one.tab.until("document.querySelector('#pane > div:last-child').dataset.told")
    return {"after": one.below()[-1], "lines": [it[0] for it in one.below()]}, {"after": before[-1], "lines": [it[0] for it in before]}


def lose(one, two, proxy):
    """Without the network lines are not sent; with it again the page is the same performer, and knows what came meanwhile."""
    one.tab.ask("pane.focus()")
    one.write('d2 $ s "hh*2"')
    proxy.cut()
    lost = one.tab.until("document.getElementById('net').textContent")
    one.tab.press("Enter", chromium.SHIFT)
    unsent = one.tab.until("document.querySelector('#pane > div').dataset.told")
    two.say("unmute 1")
    proxy.open()
    one.has_network()
    one.is_performer()
    told = one.tab.until("[...document.querySelectorAll('#replies li')].map(it => it.textContent).find(it => it.includes('unmute 1'))")
    again = one.press(chromium.SHIFT)
    found = {"lost": lost, "unsent": unsent, "told": told, "again": again[0][0]}
    wanted = {"lost": "the connection is lost: trying again", "unsent": "not sent: the connection is lost"}
    return found, wanted | {"told": f"2unmute 1{two.said[-1][1]}", "again": 'd2 $ s "hh*2"'}


# The least contrast of a text with what is behind it, as WCAG counts it, and how much of the page is off to the right.
SEEN = """(() => {
  const parts = it => it.match(/[\\d.]+/g).map(Number);
  const light = it => parts(it).slice(0, 3).map(v => v / 255).map(v => v <= 0.03928 ? v / 12.92 : ((v + 0.055) / 1.055) ** 2.4)
    .reduce((sum, v, at) => sum + v * [0.2126, 0.7152, 0.0722][at], 0);
  const colour = it => getComputedStyle(it).backgroundColor;
  const behind = it => parts(colour(it))[3] === 0 ? behind(it.parentElement) : colour(it);
  const contrast = (a, b) => (Math.max(light(a), light(b)) + 0.05) / (Math.min(light(a), light(b)) + 0.05);
  const found = [...document.querySelectorAll('body *')].filter(it => it.offsetParent && it.innerText?.trim());
  const least = Math.min(...found.flatMap(it => ['', '::after'].map(what => contrast(getComputedStyle(it, what).color, behind(it)))));
  return [least >= 4.5, document.documentElement.scrollWidth - innerWidth];
})()"""


def seen(one, two):
    """What is shown reads at both widths, light and dark, and nothing is off the page."""
    found = []
    for person, width, is_dark in ((one, 1280, True), (one, 400, False), (one, 1280, False), (two, 1280, False), (two, 400, True)):
        person.tab.shape(width, 800, is_dark)
        found.append(person.tab.ask(SEEN))
    return {"seen": found}, {"seen": [[True, 0]] * 5}


def passes_browser(receiver):
    """Two people at two pages, up to the log of their run."""
    words = ["--performers", "3", "--cycles", "60", "--cps", "4", "--page", str(PAGE), "--word", WORD]
    with tempfile.TemporaryDirectory(prefix="tdl-page-") as room, contextlib.ExitStack() as stack:
        run = stack.enter_context(contextlib.closing(stage.Stage(room, *words)))
        browser = stack.enter_context(contextlib.closing(chromium.Browser()))
        proxy, other = Proxy(PROXY), Proxy(PROXY + 1)
        one = Person(1, browser, PROXY, width=1280, height=800)
        two = Person(2, browser, PAGE, width=400, height=800, is_dark=True)
        three = Person(3, browser, PROXY + 1)
        yield as_wanted("page, one goes", *go(three, other))
        yield as_wanted("page, two come", *come(one, two))
        yield as_wanted("page, lines", *play_lines(one, two))
        yield as_wanted("page, seen", *seen(one, two))
        yield as_wanted("page, edited", *edit(one))
        yield as_wanted("page, reloaded", *reload(one))
        yield as_wanted("page, without network", *lose(one, two, proxy))
        yield as_wanted("page, one comes back", *come_back(three, other, one))
        yield as_wanted("page, its scripts", {"faults": browser.faults}, {"faults": []})
        one.press_button()
        two.tab.click("document.querySelector('#players .mine')")
        yield as_wanted("page, they leave", {"left": [it.has_left() for it in (one, two)]}, {"left": [True, True]})
        status, log = run.end()
        yield as_wanted("page, the log", *stage.entries_stand(run, [one, two], log, []))
        told = [it for it in [*log, *run.put] if WORD in it]
        wanted = {"status": 0, "word": [f"a page to play on: http://{HOST}:{PAGE}/, and its word: {WORD}"]}
        yield as_wanted("page, its run", {"status": status, "word": told}, wanted)


# ---- by requests

class Client:
    """A page without a browser: its stream, and a connection for what it asks."""

    def __init__(self, word, number=None):
        self.fields = {"X-Page": random.randbytes(16).hex(), "X-Word": urllib.parse.quote(word)}
        self.stream = http.client.HTTPConnection(HOST, PAGE, timeout=SECONDS)
        self.stream.request("GET", "/events", headers=self.fields)
        self.socket = self.stream.sock
        self.events = self.stream.getresponse()
        self.asks = http.client.HTTPConnection(HOST, PAGE, timeout=SECONDS)
        self.number, self.said, self.waits, self.echo = number, [], [], None
        if number:
            self.until("hello")
            self.post("/take", {"performer": number})

    def post(self, path, asked):
        self.asks.request("POST", path, json.dumps(asked).encode(), self.fields)
        answered = self.asks.getresponse()
        return answered.status, answered.read()

    def until(self, name, mark=None):
        """What the next event of this name tells, of a reply the one with this mark."""
        found = None
        while line := self.events.readline():
            key, _, value = line.decode().rstrip("\n").partition(": ")
            found = value if key == "event" else found
            if key == "data" and found == name and (mark is None or json.loads(value)["mark"] == mark):
                return json.loads(value)
        raise OSError("the stream has ended")

    def say(self, line):
        begin, mark = time.monotonic(), f"{self.number}-{len(self.said)}"
        self.post("/say", {"mark": mark, "lines": [line]})
        reply = self.until("heard", f"{mark}:0")["reply"]
        self.waits.append(time.monotonic() - begin)
        self.said.append((line, reply))
        return reply

    def leave(self):
        self.post("/leave", {})
        self.asks.close()
        self.socket.shutdown(socket.SHUT_RDWR)
        self.events.read()
        self.stream.close()


def asked(method, path, fields, body=b""):
    """The status that a request is answered with."""
    with contextlib.closing(http.client.HTTPConnection(HOST, PAGE, timeout=SECONDS)) as connection:
        connection.request(method, path, body, fields)
        return connection.getresponse().status


def refusals(word):
    """What is refused, and how."""
    page, right = {"X-Page": "0" * 32}, {"X-Page": "0" * 32, "X-Word": word}
    rows = [
        ("GET", "/", {}, b"", 200), ("GET", "/events", page, b"", 401), ("GET", "/events", page | {"X-Word": "hammer"}, b"", 401),
        ("GET", f"/events?word={word}", page, b"", 401), ("GET", "/roll/720", page, b"", 401), ("GET", "/roll/720", right, b"", 200),
        ("POST", "/say", page, b"{}", 401), ("POST", "/say", right, b"{}", 409), ("POST", "/take", right, b"[" * 60000, 400),
        ("POST", "/say", right, b"x" * 65537, 413), ("GET", "/", {"X-Long": "x" * 17000}, b"", 431), ("GET", "/tdl.log", right, b"", 404),
        ("GET", "/roll/721", right, b"", 400), ("GET", "/events", {"X-Word": word}, b"", 400), ("PUT", "/say", right, b"", 400),
    ]
    with concurrent.futures.ThreadPoolExecutor(len(rows)) as pool:
        statuses = list(pool.map(lambda it: asked(*it[:4]), rows))
    return [(*it[:2], status) for it, status in zip(rows, statuses)], [(*it[:2], it[4]) for it in rows]


class Echo:
    """A program that sends back what it is sent: what a round trip takes on this machine meanwhile, whatever floods the page."""

    def __init__(self):
        self.child = subprocess.Popen([sys.executable, os.path.realpath(__file__), "--echo"], stdout=subprocess.PIPE, text=True)
        self.connection = socket.create_connection((HOST, int(self.child.stdout.readline())), SECONDS)
        self.waits = []

    def ask(self):
        begin = time.monotonic()
        self.connection.sendall(b"?")
        self.connection.recv(1)
        self.waits.append(time.monotonic() - begin)

    def close(self):
        self.connection.close()
        self.child.communicate(timeout=SECONDS)


def echo():
    """That program, for one connection."""
    with socket.create_server((HOST, 0)) as listener:
        print(listener.getsockname()[1], flush=True)
        connection, _ = listener.accept()
        while piece := connection.recv(100):
            connection.sendall(piece)


class Flood(NamedTuple):
    """What came of a flooded run: the page's refusals, how long round trips took, how much garbage there was, and what the run left."""

    refused: tuple
    echoes: list
    garbage: int
    status: int
    log: list


def perform(client, last):
    """A performer's lines up to a moment, and after each a round trip elsewhere."""
    lines = [f'd{client.number} $ s "bd*{{}}"', f'jumpMod {client.number + 2} 2 $ n "0 {{}}" # s "bass"', "look", "mut {}"]
    lines += [f"mute {client.number}", "unmuteAll"]
    count = 0
    while time.monotonic() < last:
        client.say(lines[count % len(lines)].format(1 + count % 9))
        client.echo.ask()
        count += 1
        time.sleep(PAUSE)


def perform_together(clients, seconds):
    """Both performers say their lines."""
    threads = [threading.Thread(target=perform, args=[it, time.monotonic() + seconds]) for it in clients]
    for it in threads:
        it.start()
    for it in threads:
        it.join()


def flooded(run):
    """Two performers while fifty pages send garbage. Answers them, and what came of it."""
    word = re.search("its word: (.*)", " ".join(run.put))[1].split(" ")[0]
    refused = refusals(word)
    clients = [Client(word, number) for number in (1, 2)]
    with contextlib.ExitStack() as stack:
        for it in clients:
            it.echo = stack.enter_context(contextlib.closing(Echo()))
        start = ["nice", "-n", "10", sys.executable, os.path.realpath(__file__), "--flood", word, str(FLOOD)]  # its own cost is not asked for
        flood = subprocess.Popen(start, stdout=subprocess.PIPE, text=True)
        flood.stdout.readline()  # it has begun
        perform_together(clients, FLOOD - 0.5)
    garbage = int(flood.communicate(timeout=SECONDS)[0])
    with contextlib.suppress(OSError):
        socket.create_connection(("127.0.0.2", stage.FIRST), 1).close()
        refused[0].append("the ports are open to other machines")
    for it in clients:
        it.leave()
    return clients, Flood(refused, [wait for it in clients for wait in it.echo.waits], garbage, *run.end())


def is_quick(waits, echoes):
    """Whether replies came within 50 ms, but for one in twenty, and for two more for each slow round trip elsewhere: a reply
    waits for two programs, and others may have the processors."""
    slow = sorted(round(it, 3) for it in waits if it > MOST_WAIT)
    excused = 2 * sum(it > MOST_WAIT / 2 for it in echoes)
    if slow:
        print(f"page: {len(slow)} of {len(waits)} replies took up to {slow[-1]} s, and {excused // 2} round trips elsewhere were slow", file=sys.stderr)
    return len(slow) <= len(waits) / 20 + excused


def passes_flood(receiver):
    """Replies are quick, no line and no packet is lost, and who floods with lines is slowed. What is not quick is tried again."""
    for _ in range(TRIES):
        ears = stage.Ears(receiver)
        ears.start()
        try:
            with tempfile.TemporaryDirectory(prefix="tdl-page-") as room, contextlib.closing(stage.Stage(room, *FLOODED)) as run:
                clients, flood = flooded(run)
        finally:
            leads = ears.end()
        waits = [wait for it in clients for wait in it.waits]
        if quick := is_quick(waits, flood.echoes):
            break
    yield as_wanted("page, what is refused", {"refused": flood.refused[0]}, {"refused": flood.refused[1]})
    spoken = sum(bool(re.fullmatch(r"\d+ 3 .*", it)) for it in flood.log)  # 60 lines at once, and then 20 a second, from 50 to 50
    found = {"status": flood.status, "quick": quick, "said": len(waits) > 40, "garbage": flood.garbage > 100, "slowed": 50 <= spoken <= 250}
    yield as_wanted("page, flooded", found, {"status": 0, "quick": True, "said": True, "garbage": True, "slowed": True})
    yield as_wanted("page, flooded: the log", *stage.entries_stand(run, clients, flood.log, []))
    found, wanted = stage.packets_are_ahead(run, clients, flood.log, leads)
    yield as_wanted("page, flooded: packets", {"packets": found["packets"]}, {"packets": wanted["packets"]})


# ---- fifty pages that send garbage, in a program of their own

def garbage(kind, word, source):
    """Bytes that are sent to the page."""
    front = f"Host: {HOST}\r\nX-Page: {source.randbytes(16).hex()}\r\nX-Word: {word}\r\n"
    body = source.choice(['{"performer": 3}', '{"mark": "x", "lines": ["d1 $ silence"]}', "[" * 5000, '{"lines": 7}', "\0" * 60000])
    return [
        source.randbytes(source.randint(1, 20000)), b"GET / HTTP/1.1\r\n\r\n" * 50, f"GET /events HTTP/1.1\r\n{front}\r\n".encode(),
        f"POST /{source.choice(['say', 'take', 'leave', 'x'])} HTTP/1.1\r\n{front}Content-Length: {len(body)}\r\n\r\n{body}".encode() * 3,
        f"POST /say HTTP/1.1\r\n{front}Content-Length: 999999999\r\n\r\n".encode() + b"x" * 100000, b"GET / HTTP/1.1\r\nX: " + b"x" * 20000,
        f"GET /roll/{source.choice([320, 720, 721])} HTTP/1.1\r\n{front}\r\n".encode() * 9,
        f"GET /events HTTP/1.1\r\nHost: x\r\nX-Page: {'0' * 32}\r\nX-Word: wrong\r\n\r\n".encode(), b"",
    ][kind % 9]


async def flood_page(word, number, last):
    """One page. Answers how often it came."""
    source, count = random.Random(number), 0
    while time.monotonic() < last:
        with contextlib.suppress(OSError, asyncio.TimeoutError):
            reader, writer = await asyncio.wait_for(asyncio.open_connection(HOST, PAGE), 1)
            writer.write(garbage(number + count, word, source))
            with contextlib.suppress(asyncio.TimeoutError):
                await asyncio.wait_for(reader.read(source.choice([1, 10**5])), source.choice([0.001, 0.01, 0.1]))
            writer.close()
        count += 1
    return count


def flood_lines(word, last):
    """One more page, which holds performer 3 and sends as many lines as it can."""
    client = Client(word, 3)
    while time.monotonic() < last:
        client.post("/say", {"mark": "x", "lines": ["d3 $ silence"] * 50})
    client.leave()


async def flood(word, seconds):
    last = time.monotonic() + seconds
    tasks = [asyncio.create_task(flood_page(word, it, last)) for it in range(PAGES)]
    tasks.append(asyncio.create_task(asyncio.to_thread(flood_lines, word, last)))
    print("begun", flush=True)
    print(sum(it or 0 for it in await asyncio.gather(*tasks)))


def passes_each():
    """Whether each check passes. Those in a browser are left out where there is none."""
    passed, parts = [], [passes_desks, passes_flood]
    if chromium.PROGRAM:
        parts.append(passes_browser)
    else:
        print("page: Chromium is not installed (Debian: apt-get install chromium), so no page is looked at", file=sys.stderr)
    try:
        with contextlib.closing(play.Receiver()) as receiver:
            for part in parts:
                passed += part(receiver)
    except (OSError, subprocess.SubprocessError) as fault:
        passed.append(as_wanted("page", {"run": fault}, {}))
    return passed


if __name__ == "__main__":
    if sys.argv[1:2] == ["--flood"]:
        asyncio.run(flood(sys.argv[2], float(sys.argv[3])))
        sys.exit()
    if sys.argv[1:] == ["--echo"]:
        echo()
        sys.exit()
    results = passes_each()
    print(f"{sum(results)} passed, {len(results) - sum(results)} failed")
    sys.exit(not all(results))
