"""The roll of a page: the events of the cycle that plays and of the next, of all texts that are heard then.

The events are those that `tdl query` answers, asked for some cycles at once and kept, and the drawing is that of
tools/draw. A text with more events than can be told apart is left out and named.
"""
import asyncio
from fractions import Fraction

from drawing import picture
from stage_http import Pace

AT_ONCE = 4  # cycles that are asked for together
MOST_EVENTS = 128  # of a text in a cycle, for it to be drawn
MOST_DRAWN = 1024  # events of a drawing
MOST_BYTES = 2**18  # of an answer
MOST_KEPT = 2048  # cycles of texts
SECONDS = 2  # for an answer
DRAWINGS = (4, 4)  # new ones at once, and then so many a second
WIDTHS = (320, 400, 480, 560, 640, 720, 880)
TITLE = "the cycle that plays and the next, a lane a sound"


def pattern_of(text):
    """A performer's expression as a pattern of `tdl query`, where one without any `"` would be mini-notation."""
    return text if '"' in text else f'{text} -- "'


class Roll:
    """What was asked for, and the last drawings."""

    def __init__(self, program, desk, cycles):
        self.program, self.desk, self.cycles = program, desk, cycles
        self.kept = {}  # of a text and a cycle its events' lines, or None where they are not drawn
        self.drawn = {}  # of what it shows, the drawing and which orbits are left out
        self.turn, self.pace = asyncio.Lock(), Pace(*DRAWINGS)

    async def ask(self, text, cycle):
        """The lines that the program answers for some cycles, or None where it does not, or not in time."""
        words = ["nice", "-n", "10", self.program, "query", "--", pattern_of(text), str(cycle), str(cycle + AT_ONCE)]
        nothing = asyncio.subprocess.DEVNULL
        child = await asyncio.create_subprocess_exec(*words, stdin=nothing, stdout=asyncio.subprocess.PIPE, stderr=nothing, limit=MOST_BYTES)
        try:
            answer = await asyncio.wait_for(read_all(child.stdout), SECONDS)
            return answer.decode().splitlines() if await child.wait() == 0 else None
        except (asyncio.TimeoutError, asyncio.LimitOverrunError):
            return None
        finally:
            if child.returncode is None:
                child.kill()
                await child.wait()

    async def events(self, text, cycle):
        """The lines of a text's events in a cycle. None where there are too many."""
        if (text, cycle) not in self.kept:
            lines = await self.ask(text, cycle)
            parts = {it: [] for it in range(cycle, cycle + AT_ONCE)}
            for line in lines or []:
                parts[int(Fraction(line.split(" ", 3)[2]))].append(line)
            for at, part in parts.items():
                self.kept[(text, at)] = None if lines is None or len(part) > MOST_EVENTS else part
            for key in list(self.kept)[:-MOST_KEPT]:
                del self.kept[key]
        return self.kept[(text, cycle)]

    async def all_events(self, shown, cycle):
        """The lines of all events of what is heard in some cycles, and the orbits that are left out."""
        lines, without = [], set()
        for at, texts in enumerate(shown):
            for orbit, text in texts.items():
                found = await self.events(text, cycle + at)
                if found is None or len(lines) + len(found) > MOST_DRAWN:
                    without.add(orbit)
                else:
                    lines += found
        return lines, sorted(without)

    async def picture(self, cycle, width):
        """The drawing from a cycle on, and the orbits that are left out of it."""
        async with self.turn:
            shown = [self.desk.texts(at) for at in (cycle, cycle + 1) if at < self.cycles]
            key = (cycle, width, str(shown))
            if key not in self.drawn:
                await asyncio.sleep(self.pace.wait())
                lines, without = await self.all_events(shown, cycle)
                drawn = await asyncio.to_thread(picture, TITLE, lines, cycle, cycle + 2, width)
                self.drawn[key] = drawn.encode(), without
                for old in list(self.drawn)[:-len(WIDTHS)]:
                    del self.drawn[old]
            return self.drawn[key]


async def read_all(source):
    """All that a source has, up to its limit."""
    try:
        await source.readexactly(MOST_BYTES)
    except asyncio.IncompleteReadError as all_of_it:
        return all_of_it.partial
    raise asyncio.LimitOverrunError("too much", MOST_BYTES)
