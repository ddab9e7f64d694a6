"""Changed logs: a few lines of a log are dropped, doubled, exchanged or written otherwise, or its text is cut."""
import re

# What stands in the place of a number or a word, or of a part of a line.
NUMBERS = ["0", "1", "2", "7", "8", "9", "00", "01", "-1", "+1", "1/2", "2/4", "3/2", "1/7", "1/46080", "256", "255", "300", "16384", "65536", "4194304",
           "4294967295", "4294967296", "99999999999999999999", "1048576", "1048577", "1/0", "", "x", "46080/46080", "123456789012345678901234567890/7"]
WORDS = ["look", "finish", "tick", "tick 1", "swap", "swap 0", "swap 1 hush", "eof", "stopped", "spent", "memory", "fault", "port", "end", "Look", ""]
LINES = ["", "port 0 stopped", "port 1 eof", "port 9 eof", "port 256 eof", "port 300 stopped", "port 01 eof", "end 0", "end 1", "end 03", "end x",
         "0 1 0 look", "1 2 0 look", "1 0 0 tick 1", "1 0 0 finish", "0 1 0 swap 0 hush", "0 1 0 swap 0 d17 $ silence", "tidal-log 1", "cps 9/16", "origin 0",
         "comment", "0 1 2/4 look", "00 1 0 look", "0 1 0 swap 0 look", "2/4 1 0 look"]
HEADS = ["tidal-log 3", "tidal-log 1 ", "cps 9/16 ", "cps 18/32", "cps 0", "cps -1", "cps 65536", "cps 65535/65534", "cps 1/65536", "cps 1/2", "cps 01/2", "origin -1",
         "origin 4294967295", "origin 4294967296", "origin 007", "origin", "cps", "tidal-log"]


def another(chance, line):
    """A line written otherwise."""
    how = chance.randrange(7)
    pieces = re.split(r"( )", line)
    if how == 0:
        place = chance.randrange(len(pieces))
        pieces[place] = chance.choice([*NUMBERS, *WORDS])
        return "".join(pieces)
    if how == 1:
        numbers = [at for at, it in enumerate(pieces) if re.fullmatch(r"\d+(/\d+)?", it)]
        if numbers:
            place = chance.choice(numbers)
            number = pieces[place].split("/")
            number[0] = str(int(number[0]) + chance.choice([-1, 1, 1, 8]))
            pieces[place] = "/".join(number)
        return "".join(pieces)
    if how == 2:
        place = chance.randrange(len(line) + 1)
        return line[:place] + chance.choice([" ", "0", "x", "\t", "\"", "é", "~", "/", "-"]) + line[place:]
    if how == 3:
        place = chance.randrange(len(line) + 1)
        return line[:place] + line[place + 1:]
    if how == 4:
        return chance.choice([*LINES, *HEADS])
    if how == 5:
        return chance.choice([" ", ""]) + line + chance.choice([" ", " -- x", "\r", ""])
    place = chance.randrange(len(pieces))
    return "".join(pieces[:place])


def edited(chance, lines):
    """A list of lines with one edit."""
    lines, place = list(lines), chance.randrange(len(lines))
    if chance.randrange(4) == 0:
        place = chance.choice([0, 1, 2, len(lines) - 1, max(0, len(lines) - 2)])
    how = chance.randrange(8)
    if how == 0:
        del lines[place]
    elif how == 1:
        lines.insert(place, lines[place])
    elif how == 2:
        other = chance.randrange(len(lines))
        lines[place], lines[other] = lines[other], lines[place]
    elif how == 3:
        lines.insert(place + 1, chance.choice(LINES))
    else:
        lines[place] = another(chance, lines[place])
    return lines


def changed(chance, log):
    """A log with a few edits, or none. `log` and the answer have bytes.

    None begins with `tidal-log 2`, as the other program reads logs of that version too.
    """
    lines = log.decode().removesuffix("\n").split("\n")
    for _ in range(chance.choice([0, 1, 1, 1, 1, 1, 2, 3])):
        lines = edited(chance, lines) if lines else lines
    text = re.sub(r"\Atidal-log 2\n", "tidal-log 3\n", "".join(f"{it}\n" for it in lines)).encode()
    how = chance.randrange(20)
    if how == 0:
        return text[:chance.randrange(len(text) + 1)]
    if how == 1:
        return text + chance.choice([b"\n", b"x", b"x\n", b"end 0\n", b"\0"])
    return text
