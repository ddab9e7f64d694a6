"""The pictures of docs/pictures: each is what tools/drawing.py makes of its query, and docs/GUIDE.md shows it."""
import glob
import os
import sys

from program import PROGRAM, TOP, as_wanted

sys.path.append(os.path.join(TOP, "tools"))

from drawing import PICTURES, drawn, listed  # noqa: E402


def text_of(path):
    """What a file has, and nothing where there is none."""
    try:
        with open(path, encoding="utf-8") as file:
            return file.read()
    except FileNotFoundError:
        return ""


def passes_each():
    """Whether each check passes."""
    pictures, guide = list(listed()), text_of(f"{TOP}/docs/GUIDE.md")
    for path, query in pictures:
        yield as_wanted(f"picture {path}", {"picture": drawn(PROGRAM, *query)}, {"picture": text_of(path)})
    paths = sorted(path for path, _ in pictures)
    yield as_wanted("all pictures are listed", {"files": sorted(glob.glob(f"{PICTURES}/*.svg"))}, {"files": paths})
    shown = [path for path in paths if f"](pictures/{os.path.basename(path)})" in guide]
    yield as_wanted("the guide shows each picture", {"shown": shown}, {"shown": paths})
