"""HTTP as the page of tools/stage needs it: connections that are bounded in number, size and pace.

Whoever sends more than is read, or what is no request, is answered why and closed. Who comes too often is made to wait,
alone. Where there are as many connections as may be, the oldest goes that has no claim to stay.
"""
import asyncio
import contextlib
import http
import json
import re
import socket
import time
from typing import NamedTuple

MOST_HEAD = 2**14  # bytes of a request's head
MOST_BODY = 2**16  # and of its body
MOST_VISITS = 256  # connections
NEW_VISITS = (200, 300)  # connections that are taken at once, and then so many a second
STRANGERS, PLAYERS = (20, 4), (60, 30)  # requests of a connection at once, and then so many a second
IDLE = 15  # seconds for a request to come
STAYS = 300  # the same for who has a claim to stay
SLOW = 10  # seconds for a request's body
GONE = 10  # seconds until the system notices that a machine is gone
PENALTY = 0.5  # seconds for what is no request
FIRST_LINE = re.compile(rb"(GET|POST) (/[!-~]*) HTTP/1\.1")
FIELD = re.compile(rb"([!#-'*+.^_`|~0-9A-Za-z-]+):[ \t]*([^\r\n\0]*?)[ \t]*")
# What every answer says: nothing is kept, guessed or framed.
ALWAYS = ["Cache-Control: no-store", "X-Content-Type-Options: nosniff", "X-Frame-Options: DENY", "Referrer-Policy: no-referrer"]


class Wrong(Exception):
    """A request that is not answered as asked: the status, and why."""


class Request(NamedTuple):
    method: str
    path: str
    fields: dict
    body: bytes

    def asked(self):
        """What the body asks for."""
        try:
            asked = json.loads(self.body)
        except (ValueError, RecursionError):
            asked = None
        if not isinstance(asked, dict):
            raise Wrong(400, "the body is no JSON object")
        return asked


class Pace:
    """How often someone may come: so many at once, and then so many a second."""

    def __init__(self, at_once, a_second):
        self.at_once, self.a_second = at_once, a_second
        self.left, self.last = at_once, time.monotonic()

    def wait(self, count=1):
        """Takes so many, and answers for how long to wait."""
        now = time.monotonic()
        self.left = min(self.at_once, self.left + (now - self.last) * self.a_second) - count
        self.last = now
        return max(0, -self.left / self.a_second)


def head_of(text):
    """The method, the path and the fields of a head."""
    first, *rest = text[:-4].split(b"\r\n")
    found = FIRST_LINE.fullmatch(first)
    fields = [FIELD.fullmatch(it) for it in rest]
    if not found or not all(fields):
        raise Wrong(400, "this is no request that is read here")
    return found[1].decode(), found[2].decode(), {it[1].decode().lower(): it[2].decode("latin-1") for it in fields}


def size_of(fields):
    """How many bytes the body has."""
    size = fields.get("content-length", "0")
    if "transfer-encoding" in fields or not re.fullmatch("[0-9]{1,9}", size):
        raise Wrong(400, "the body has no length")
    if int(size) > MOST_BODY:
        raise Wrong(413, f"a body has at most {MOST_BODY} bytes")
    return int(size)


async def read_request(reader, seconds):
    """The next request of a connection whose reader holds MOST_HEAD bytes; None where none comes in time."""
    try:
        text = await asyncio.wait_for(reader.readuntil(b"\r\n\r\n"), seconds)
        method, path, fields = head_of(text)
        return Request(method, path, fields, await asyncio.wait_for(reader.readexactly(size_of(fields)), SLOW))
    except asyncio.LimitOverrunError:
        raise Wrong(431, f"a head has at most {MOST_HEAD} bytes") from None
    except (asyncio.IncompleteReadError, asyncio.TimeoutError):
        return None


def head(status, *fields):
    """The head of an answer."""
    first = f"HTTP/1.1 {status} {http.HTTPStatus(status).phrase}"
    return "\r\n".join([first, *ALWAYS, *fields, "", ""]).encode()


def answer(status, body=b"", kind="text/plain; charset=utf-8", *fields):
    """An answer with its body, after which the connection stays."""
    return head(status, f"Content-Type: {kind}", f"Content-Length: {len(body)}", *fields) + body


def event(name, told, number=None):
    """A server-sent event: its name, what it tells, and perhaps its number."""
    front = f"id: {number}\n" if number is not None else ""
    return f"{front}event: {name}\ndata: {json.dumps(told)}\n\n".encode()


class Visit:
    """A connection."""

    def __init__(self, reader, writer):
        self.reader, self.writer = reader, writer
        self.paces = {False: Pace(*STRANGERS), True: Pace(*PLAYERS)}
        self.guest = None  # whose it is, as far as it is known
        self.is_stream = False
        self.task = asyncio.current_task()

    def has_claim(self):
        """Whether it stays: it is a stream, or belongs to who plays."""
        return self.is_stream or bool(self.guest and self.guest.port)


class Visits:
    """The connections, whose requests `answer` answers."""

    def __init__(self, answer_request):
        self.answer_request = answer_request
        self.listener = None
        self.all, self.tasks = [], set()

    def open(self, address, port):
        """Listens, and takes nobody yet."""
        family = socket.AF_INET6 if ":" in address else socket.AF_INET
        self.listener = socket.create_server((address, port), family=family, backlog=256)
        self.listener.setblocking(False)

    def keep(self, coroutine):
        """Runs something up to the end of all."""
        task = asyncio.create_task(coroutine)
        self.tasks.add(task)
        task.add_done_callback(self.tasks.discard)

    def close(self):
        self.listener.close()
        for task in list(self.tasks):
            task.cancel()

    async def welcome(self):
        """Takes connections, so many a second: who floods with them fills the system's queue, and no time of those who are here."""
        pace, loop = Pace(*NEW_VISITS), asyncio.get_running_loop()
        while True:
            await asyncio.sleep(pace.wait())
            try:
                connection, _ = await loop.sock_accept(self.listener)
            except OSError:
                await asyncio.sleep(PENALTY)
                continue
            self.keep(self.visit(connection))

    def make_room(self):
        """Where there are as many connections as may be, the oldest without a claim goes, or the newest."""
        if len(self.all) > MOST_VISITS:
            next((it for it in self.all if not it.has_claim()), self.all[-1]).task.cancel()

    async def visit(self, connection):
        """Answers the requests of a connection, one after another."""
        with contextlib.suppress(OSError):  # it is gone
            watch(connection)
            reader, writer = await asyncio.open_connection(sock=connection, limit=MOST_HEAD)
            visit = Visit(reader, writer)
            self.all.append(visit)
            self.make_room()
            try:
                await self.answer_all(visit)
            except Wrong as wrong:
                await asyncio.sleep(PENALTY)
                writer.write(answer(wrong.args[0], wrong.args[1].encode(), "text/plain", "Connection: close"))
            finally:
                self.all.remove(visit)
                writer.close()

    async def answer_all(self, visit):
        while request := await read_request(visit.reader, STAYS if visit.has_claim() else IDLE):
            await asyncio.sleep(visit.paces[visit.has_claim()].wait())
            await self.answer_request(visit, request)
            if visit.writer.is_closing():
                return
            await visit.writer.drain()


def watch(connection):
    """Sends each piece at once, and lets the system notice that the other machine is gone."""
    connection.setsockopt(socket.IPPROTO_TCP, socket.TCP_NODELAY, 1)
    connection.setsockopt(socket.SOL_SOCKET, socket.SO_KEEPALIVE, 1)
    if hasattr(socket, "TCP_USER_TIMEOUT"):
        connection.setsockopt(socket.IPPROTO_TCP, socket.TCP_USER_TIMEOUT, GONE * 1000)
