"""The page of tools/stage: who plays on it, what it shows, and the requests that it makes.

A page is known by a number that it draws itself and never shows (`X-Page`). It has a stream of server-sent events, and
may hold one performer. A page that reloads or loses its stream has GRACE seconds to come back. What it asks:

    GET /           the page itself, page.html; all else wants the word, where there is one (`X-Word`)
    GET /events     its stream: what plays (`state`), each reply (`heard`), the time (`time`)
    POST /take      {"performer": 1}: to be this performer
    POST /leave     {}: to be it no more
    POST /say       {"mark": "..", "lines": [".."]}: lines to the run; replies come by the stream, with the mark
    GET /roll/WIDTH the drawing of the cycle that plays and the next

Requests are bounded and paced (stage_http.py), and lines for each page, so that one that floods waits for itself alone.
"""
import asyncio
import base64
import collections
import hashlib
import hmac
import ipaddress
import os
import re
import secrets
import urllib.parse

from drawing import RIGHT, room_for_names
from refusals import column, explained
from stage_desk import Desk
from stage_http import Pace, Visits, Wrong, answer, event, head
from stage_roll import WIDTHS, Roll

FILE = os.path.join(os.path.dirname(os.path.realpath(__file__)), "page.html")
GRACE = 10  # seconds for a page to come back to its performer
SOON, LATER = 0.02, 0.2  # seconds until those who play are shown what changes; until others are, and what others were replied
BEAT = 2  # seconds in which each page hears something
MOST_GUESTS, MOST_OF_ONE = 100, 8  # pages, and connections of one
MOST_UNREAD = 2**18  # bytes that wait for a page that does not read
MOST_LINES, MOST_ASKED = 100, 1000  # lines of one request, and lines that wait for their replies
LONGEST = 8192  # bytes of a line
REMEMBERED = 60  # replies that a new page is told
SHOWN = 2100  # characters of a line that are shown
LINES, WRONG_WORDS = (60, 20), (10, 2)  # so many at once, and then so many a second
CONSONANTS, VOWELS = "bdfghjklmnprstvwz", "aeiou"


class Clock:
    """How far the run is: it counts from the connection of its last performer."""

    def __init__(self, cps, cycles):
        self.tempo, self.cps, self.cycles = str(cps), float(cps), cycles
        self.begin = None

    def start(self):
        self.begin = asyncio.get_running_loop().time()

    def time(self):
        """In cycles."""
        return min((asyncio.get_running_loop().time() - self.begin) * self.cps, float(self.cycles))

    def cycle(self):
        """The cycle that plays; the last one when all are played."""
        return min(int(self.time()), self.cycles - 1)


def is_loopback(address):
    """Whether an address is reached from this machine alone."""
    try:
        return address == "localhost" or ipaddress.ip_address(address).is_loopback
    except ValueError:
        return False


def made_word():
    """A word that is easily told and typed: one of 15,000 million."""
    return "-".join("".join(secrets.choice(it) for it in (CONSONANTS, VOWELS, CONSONANTS, VOWELS, CONSONANTS)) for _ in range(2))


def sum_of(page, tag):
    """The checksum of the page's script or style, by which a browser takes that one and no other."""
    text = re.search(rf"<{tag}>(.*?)</{tag}>", page, re.DOTALL)[1]
    return "'sha256-" + base64.b64encode(hashlib.sha256(text.encode()).digest()).decode() + "'"


def policy_of(page):
    """What the page may do: its own script and style, drawings, and requests to where it came from."""
    return (
        f"Content-Security-Policy: default-src 'none'; script-src {sum_of(page, 'script')}; style-src {sum_of(page, 'style')}; "
        "img-src data:; connect-src 'self'; base-uri 'none'; form-action 'none'; frame-ancestors 'none'"
    )


class Stream:
    """A page's server-sent events. What is put within a moment goes out together."""

    def __init__(self, writer, pages):
        self.writer, self.pages = writer, pages
        self.parts, self.due, self.has_state = [], None, False

    def put(self, part, seconds):
        self.parts.append(part)
        self.wake(seconds)

    def wake(self, seconds):
        """Sends what waits within so many seconds."""
        loop = asyncio.get_running_loop()
        if self.due is None or self.due.when() > loop.time() + seconds:
            if self.due:
                self.due.cancel()
            self.due = loop.call_later(seconds, self.send)

    def send(self):
        """Sends what waits, then the state where it is another one, and the time."""
        parts, self.parts, self.due = self.parts, [], None
        state = b"" if self.has_state else self.pages.state_event()
        self.has_state = True
        self.writer.write(b"".join(parts) + state + event("time", self.pages.clock.time()))
        if self.writer.transport.get_write_buffer_size() > MOST_UNREAD:
            self.writer.transport.abort()

    def close(self, last=None):
        """Sends one thing more, perhaps, behind all that waits, and ends."""
        if last:
            self.parts.append(event(last, None))
            self.send()
        if self.due:
            self.due.cancel()
        self.writer.close()


class Guest:
    """A page: its stream, and the performer that it holds."""

    kind = "page"

    def __init__(self, key):
        self.name = hashlib.sha256(key.encode()).hexdigest()[:8]
        self.port = self.stream = self.away = None
        self.pace = Pace(*LINES)

    def hand(self, _reply):
        """Its stream has every reply."""

    def close(self):
        self.port = None


class Pages:
    """All pages of a run."""

    def __init__(self, ports, clock, word, program):
        self.ports, self.clock, self.word = ports, clock, word
        self.run = secrets.token_hex(4)
        self.guests = {}
        self.heard = collections.deque(maxlen=REMEMBERED)  # replies, each with its number
        self.count, self.told = 0, None
        self.desk = Desk()
        self.roll = Roll(program, self.desk, clock.cycles)
        self.wrong_words = Pace(*WRONG_WORDS)
        self.visits, self.hosts = Visits(self.answer), None
        with open(FILE, encoding="utf-8") as file:
            self.page = file.read()
        self.policy = policy_of(self.page)
        for port in ports:
            port.hear, port.change = self.hear, self.show

    def open(self, address, port):
        """Listens, and takes nobody yet. Without a word a page of another place may not come by a name that leads here."""
        self.hosts = None if self.word else {address, "127.0.0.1", "localhost", "[::1]"}
        self.visits.open(address, port)

    def start(self):
        self.visits.keep(self.visits.welcome())
        self.visits.keep(self.follow())

    async def end(self):
        """Tells all pages that the run has ended, and takes no more."""
        for guest in self.guests.values():
            if guest.stream:
                guest.stream.close("end")
        await asyncio.sleep(LATER)
        self.visits.close()

    # ---- what pages are shown

    def state(self):
        cycle = self.clock.cycle()
        performers = [
            {"number": it.number, "held": it.holder.kind if it.holder else None, "by": getattr(it.holder, "name", None), "ended": it.has_ended}
            for it in self.ports
        ]
        return {"over": self.clock.time() >= self.clock.cycles, "performers": performers, "orbits": list(self.desk.shown(cycle))}

    def state_event(self):
        """The state as all pages are sent it, until something changes."""
        if not self.told:
            self.told = event("state", self.state())
        return self.told

    def show(self):
        """Shows all pages what holds now."""
        self.told = None
        for guest in self.guests.values():
            if guest.stream:
                guest.stream.has_state = False
                guest.stream.wake(SOON if guest.port else LATER)

    def hear(self, performer, mark, line, reply):
        """Tells all pages of a line and its reply: who said it at once, the others in a moment."""
        self.count += 1
        line, reply = line.rstrip(b"\r\n"), reply.decode(errors="replace").rstrip("\n")
        told = {"performer": performer, "mark": mark, "line": line.decode(errors="replace")[:SHOWN], "reply": reply}
        told |= {"column": column(line, reply), "said": (explained(reply, None) or [None])[-1]}
        part = event("heard", told, self.count)
        self.heard.append((self.count, part))
        if self.desk.take(performer, line, reply.encode()):
            self.show()
        for guest in self.guests.values():
            if guest.stream:
                guest.stream.put(part, 0 if guest.port and guest.port.number == performer else LATER)

    async def follow(self):
        """Shows all pages what comes in with each cycle, and that time goes on."""
        loop, shown, last = asyncio.get_running_loop(), None, 0
        while True:
            time = self.clock.time()
            await asyncio.sleep(max(LATER, min(BEAT, (int(time) + 1 - time) / self.clock.cps)))
            state = self.state()
            if state != shown:
                shown = state
                self.show()
            if loop.time() - last >= BEAT:
                last = loop.time()
                for guest in self.guests.values():
                    if guest.stream:
                        guest.stream.wake(0)

    # ---- what is asked

    async def answer(self, visit, request):
        """Answers a request. A stream is closed when it is answered."""
        if self.hosts and re.sub(r":\d+$", "", request.fields.get("host", "")) not in self.hosts:
            raise Wrong(421, "this page is asked for by another name")
        if (request.method, request.path) == ("GET", "/"):
            visit.writer.write(answer(200, self.page.encode(), "text/html; charset=utf-8", self.policy))
            return
        key = request.fields.get("x-page", "")
        if not re.fullmatch("[0-9a-f]{32}", key):
            raise Wrong(400, "which page asks is not told")
        if not await self.knows_word(visit, request):
            return
        self.knows(visit, key)
        if (request.method, request.path) == ("GET", "/events"):
            await self.stream(visit, request, key)
        elif request.method == "GET" and (found := re.fullmatch(r"/roll/(\d{3,4})", request.path)):
            await self.draw(visit, int(found[1]))
        elif request.method == "POST" and request.path in ("/take", "/leave", "/say"):
            await self.act(visit, request)
        else:
            raise Wrong(404, "there is nothing of this name")

    def knows(self, visit, key):
        """Learns whose connection this is. Each page has so many at most."""
        visit.guest = self.guests.get(key)
        if visit.guest and sum(it.guest is visit.guest for it in self.visits.all) > MOST_OF_ONE:
            visit.guest = None
            raise Wrong(429, f"a page has at most {MOST_OF_ONE} connections")

    async def knows_word(self, visit, request):
        """Whether the word is there. Wrong ones wait for each other, whoever sends them."""
        given = urllib.parse.unquote(request.fields.get("x-word", ""))
        if not self.word or hmac.compare_digest(given.encode(errors="replace"), self.word.encode()):
            return True
        if given:
            await asyncio.sleep(self.wrong_words.wait())
        visit.writer.write(answer(401, b"the word is another one" if given else b"a word is wanted"))
        return False

    async def draw(self, visit, width):
        """Answers the drawing of the cycle that plays and the next."""
        if width not in WIDTHS:
            raise Wrong(400, "no width that is drawn")
        cycle = self.clock.cycle()
        drawn, without = await self.roll.picture(cycle, width)
        box = f"X-Box: {room_for_names(width)} {width - RIGHT}"  # where the first time stands, and the last
        fields = [f"X-Cycle: {cycle}", f"X-Without: {' '.join(map(str, without))}", box]
        visit.writer.write(answer(200, drawn, "image/svg+xml; charset=utf-8", *fields))

    async def act(self, visit, request):
        """Does what a page asks for, and answers that, or why not."""
        asked = request.asked()
        if not visit.guest:
            refusal = "the page has no stream"
        elif request.path == "/take":
            refusal = self.take(visit.guest, asked)
        elif request.path == "/leave":
            refusal = self.leave(visit.guest)
        else:
            refusal = await self.say(visit.guest, asked)
        visit.writer.write(answer(409 if refusal else 200, (refusal or "").encode()))

    def take(self, guest, asked):
        """Lets a page be a performer. Why not, where it cannot."""
        number = asked.get("performer")
        port = next((it for it in self.ports if type(number) is int and it.number == number), None)
        if not port or port is guest.port:
            return None if port else "there is no such performer"
        if port.has_ended or port.holder:
            return f"performer {number} " + ("has ended" if port.has_ended else f"is held by another {port.holder.kind}")
        self.leave(guest)
        if port.take(guest):
            guest.port = port
        return None

    def leave(self, guest):
        if port := guest.port:
            guest.port = None
            port.leave(guest)

    async def say(self, guest, asked):
        """Sends a page's lines to the run. Why not, where they are none."""
        mark, lines = asked.get("mark"), asked.get("lines")
        if not isinstance(mark, str) or len(mark) > 40 or not isinstance(lines, list) or len(lines) > MOST_LINES:
            return f"at most {MOST_LINES} lines are taken at once, with a mark"
        try:
            texts = [it.encode() for it in lines]
        except (AttributeError, UnicodeEncodeError):
            return "a line is no text"
        if any(b"\n" in it or len(it) > LONGEST for it in texts):
            return f"a line has at most {LONGEST} bytes, and no line feed"
        await asyncio.sleep(guest.pace.wait(len(texts)))
        port = guest.port
        if port and len(port.asked) + len(texts) > MOST_ASKED:
            return "too many lines wait for their replies"
        for at, text in enumerate(texts):
            if not port or guest.port is not port:
                return "the page holds no performer"
            await port.send(guest, text + b"\n", f"{mark}:{at}")
        return None

    # ---- streams

    async def stream(self, visit, request, key):
        """Keeps a page's stream until the page is gone."""
        guest = self.guests.get(key) or self.new_guest(key)
        if guest.stream:
            guest.stream.close("moved")
        if guest.away:
            guest.away.cancel()
        visit.guest, visit.is_stream = guest, True
        stream = guest.stream = Stream(visit.writer, self)
        visit.writer.write(head(200, "Content-Type: text/event-stream; charset=utf-8", "Connection: close"))
        self.greet(guest, request)
        try:
            await visit.reader.read(1)  # nothing more is to come but the end
        finally:
            stream.close()
            if guest.stream is stream:
                guest.stream = None
                guest.away = asyncio.get_running_loop().call_later(GRACE if guest.port else 0, self.forget, key, guest)

    def greet(self, guest, request):
        """Tells a page what run it is, which one it is, and what was replied since it was here."""
        after = request.fields.get("x-after", "")
        after = int(after[9:]) if re.fullmatch(rf"{self.run}:[0-9]{{1,9}}", after) else 0
        run = {"run": self.run, "me": guest.name, "cps": self.clock.cps, "tempo": self.clock.tempo, "cycles": self.clock.cycles}
        hello = event("hello", run | {"performer": guest.port and guest.port.number})
        guest.stream.parts = [hello, *(part for number, part in self.heard if number > after)]
        guest.stream.send()

    def new_guest(self, key):
        """A new page. Where there are as many as may be, the oldest that holds no performer goes."""
        if len(self.guests) >= MOST_GUESTS:
            old = next(key for key, it in self.guests.items() if not it.port)
            if stream := self.guests.pop(old).stream:
                stream.close()
        return self.guests.setdefault(key, Guest(key))

    def forget(self, key, guest):
        """A page did not come back."""
        if self.guests.get(key) is guest:
            del self.guests[key]
        self.leave(guest)
