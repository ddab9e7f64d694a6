"""The events of an arc as a picture (SVG): a lane for each sound or note, a box for each event.

A lane is a sound; where all events have one sound, or none, and each has a number, a lane is a number, the highest at the
top. A box goes from the start of a part to its stop. A bar stands where an event has its onset; a side where the part is
cut is open. Cycles are ruled.
"""
import os
import re
import subprocess
from fractions import Fraction
from html import escape
from math import ceil, floor
from typing import NamedTuple

WIDTH, LABELS, RIGHT, TOP, ROW, GAP = 720, 96, 12, 26, 22, 8
NARROW = 600  # below this width names have less room
LETTER = 7  # the width of one, about
# Blue, vermilion, green, purple, orange, sky: told apart by those who are colour-blind too (Okabe and Ito).
COLOURS = ["#0072b2", "#d55e00", "#009e73", "#a3588f", "#b37400", "#2a8fc7"]
STYLE = (
    "text{font:12px system-ui,sans-serif;fill:#222}.faint{stroke:#ddd}.cycle{stroke:#888}"
    ".fill{fill-opacity:.28}.edge{fill:none;stroke-width:1.5}"
    "@media(prefers-color-scheme:dark){text{fill:#ddd}.faint{stroke:#444}.cycle{stroke:#999}.fill{fill-opacity:.45}}"
)


PICTURES = os.path.join(os.path.dirname(os.path.dirname(os.path.realpath(__file__))), "docs", "pictures")


class Refused(Exception):
    """The line that refuses a query, and the status."""


class Event(NamedTuple):
    """An event of a query's answer, in cycles."""
    whole: tuple
    part: tuple
    controls: dict


class Lane(NamedTuple):
    """A lane's name, its colour, whether it is of a number, and its events in rows in which none overlap."""
    name: str
    colour: str
    by_number: bool
    rows: list


def event_of(line):
    """The event of a line that `tdl query` printed."""
    *times, controls = line.split(" ", 4)
    start, stop, part_start, part_stop = map(Fraction, times)
    pairs = [it.split("=", 1) for it in controls.split(" ") if "=" in it]
    return Event((start, stop), (part_start, part_stop), dict(pairs))


def number_of(event):
    """The number that an event is drawn at, where it has one."""
    return event.controls.get("note", event.controls.get("n"))


def rows_of(events):
    """Events in rows: each goes into the first row whose last one has ended."""
    rows = []
    for event in sorted(events, key=lambda it: it.part):
        row = next((it for it in rows if it[-1].part[1] <= event.part[0]), None)
        if row is None:
            rows.append([event])
        else:
            row.append(event)
    return rows


def lanes_of(events):
    """The lanes, from the top."""
    sounds = list(dict.fromkeys(it.controls.get("s", "") for it in events))
    by_number = len(sounds) == 1 and all(number_of(it) is not None for it in events)
    lanes = {}
    for event in events:
        lanes.setdefault(number_of(event) if by_number else event.controls.get("s", ""), []).append(event)
    names = sorted(lanes, key=int, reverse=True) if by_number else list(lanes)
    front = f"{sounds[0]} " if by_number and sounds[0] not in ("", "midi") else ""
    colours = [COLOURS[0 if by_number else at % len(COLOURS)] for at in range(len(names))]
    return [Lane(front + (name or "(no sound)"), colour, by_number, rows_of(lanes[name])) for name, colour in zip(names, colours)]


def text_of(event, by_number):
    """What a box says: the controls that its lane does not tell."""
    told = ("s", "n", "note") if by_number else ("s",)
    return " ".join(f"{key}={value}" for key, value in event.controls.items() if key not in told)


def box(event, lane, place, top):
    """The box of an event."""
    left, right, bottom = place(event.part[0]), place(event.part[1]), top + ROW - 4
    begins, ends = event.part[0] == event.whole[0], event.part[1] == event.whole[1]
    yield f'<rect class="fill" fill="{lane.colour}" x="{left:.2f}" y="{top}" width="{right - left:.2f}" height="{ROW - 4}"/>'
    edge = f"M{left:.2f} {top}H{right:.2f}" + (f"V{bottom}" if ends else f"M{right:.2f} {bottom}") + f"H{left:.2f}"
    yield f'<path class="edge" stroke="{lane.colour}" d="{edge}"/>'
    if begins:
        yield f'<rect fill="{lane.colour}" x="{left:.2f}" y="{top}" width="3" height="{ROW - 4}"/>'
    text = text_of(event, lane.by_number)
    if text and right - left > 6.6 * len(text) + 8:
        yield f'<text x="{left + 6:.2f}" y="{top + 13}">{escape(text)}</text>'


def rules(begin, end, place, bottom):
    """The rules: a faint one each quarter of a cycle, a strong one each cycle, with its number."""
    step = Fraction(1, 4) if end - begin <= 8 else Fraction(1)
    for count in range(ceil(begin / step), floor(end / step) + 1):
        time = count * step
        whole = time.denominator == 1
        yield f'<path class="{"cycle" if whole else "faint"}" d="M{place(time):.2f} {TOP - 6}V{bottom}"/>'
        if whole:
            yield f'<text x="{place(time):.2f}" y="{TOP - 11}" text-anchor="middle">{time}</text>'


def room_for_names(width):
    """Where the first time stands: what is left of it has the names of lanes."""
    return LABELS if width >= NARROW else LABELS * 2 // 3


def short(name, room):
    """A name, cut where it has no room."""
    most = (room - 8) // LETTER
    return name if len(name) <= most else name[:most - 1] + "…"


def picture(title, lines, begin, end, width=WIDTH):
    """The picture of the events from one time to another. `lines` are the events, as `tdl query` prints them."""
    begin, end, left = Fraction(begin), Fraction(end), room_for_names(width)
    lanes = lanes_of([event_of(it) for it in lines])

    def place(time):
        return float(left + (width - left - RIGHT) * (time - begin) / (end - begin))

    boxes, top = [], TOP
    for lane in lanes:
        boxes.append(f'<text x="{left - 8}" y="{top + 13}" text-anchor="end">{escape(short(lane.name, left))}</text>')
        for row in lane.rows:
            for event in row:
                boxes += box(event, lane, place, top)
            top += ROW
        top += GAP
    height = max(top, TOP + ROW)
    said = escape(re.sub(r"\s+", " ", title))
    return "\n".join([
        f'<svg xmlns="http://www.w3.org/2000/svg" viewBox="0 0 {width} {height}" width="{width}" height="{height}" role="img">',
        f"<title>{said}</title>", f"<style>{STYLE}</style>", *rules(begin, end, place, height - GAP), *boxes, "</svg>", "",
    ])


def drawn(program, pattern, begin, end):
    """The picture of what a program answers to a query."""
    ran = subprocess.run([program, "query", "--", pattern, begin, end], stdout=subprocess.PIPE, text=True, check=False)
    if ran.returncode != 0:
        raise Refused(ran.stdout, ran.returncode)
    return picture(f"{pattern}, from {begin} to {end}", ran.stdout.splitlines(), begin, end)


def listed():
    """The file of each picture of docs/pictures, and the words of its query."""
    with open(f"{PICTURES}/list.txt", encoding="utf-8") as file:
        for line in file.read().splitlines():
            name, *words = line.split("\t")
            yield f"{PICTURES}/{name}.svg", words
