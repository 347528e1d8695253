#!/usr/bin/env python3
"""make_sheet.py TEXT SHEET: makes a job sheet from a text that one can read.

A line is one of these. Words are separated by spaces, and '#' begins a comment:

    outline closed      or: outline open
    box true            may be left out: a sheet's box is always the true one ('box fast' is retired)
    vertex X Y BULGE    a vertex of the outline; the bulge is that of the segment that starts there
    view                a view; the lines below it, in any order, say what it is:
      start INDEX       the outline's segment on which it starts
      offset STEPS      steps from there to the segment on which it ends
      from X Y BULGE    its first vertex
      to X Y            its end point
      end-bulge BULGE   the bulge of its last segment
      inverted          its direction is turned round; left out, it is not
      cut-number NUMBER the number of its paper ticket; left out, it has none, which is 0

The outline line is needed, once; the box line may be there once. A view needs each of its lines once, and only
'inverted' and 'cut-number' may be left out. A vertex, outline or box line ends the view above it.

INDEX, STEPS and NUMBER are whole numbers from 0 to 4294967295, in decimal digits. The others are decimal numbers such
as 20, -0.5 or 1e-3, and become the nearest f64.

A line that is anything else is refused with its number, and no sheet is written. Limits and ranges are not judged
here: the program sheet refuses what is beyond them. docs/SHEET.md has the sheet's bytes.
"""
import math
import os
import re
import struct
import sys

sys.dont_write_bytecode = True  # no compiled tool.py is left in this folder
from tool import Wrong, read, run, wanted, write

# The words of each line after its first.
FORMS = {
    "outline": "closed|open",
    "box": "true",
    "vertex": "X Y BULGE",
    "view": "",
    "start": "INDEX",
    "offset": "STEPS",
    "from": "X Y BULGE",
    "to": "X Y",
    "end-bulge": "BULGE",
    "inverted": "",
    "cut-number": "NUMBER",
}
# What is said to a text that asks for the other box. Its flag is still read in stored sheets, and set in none that is made.
RETIRED = "'box true' or no box line: 'box fast' is retired, and no sheet is made with its flag"
# What each view needs, in the order of a record.
NEEDED = ("start", "offset", "from", "end-bulge", "to")
# A sheet counts its vertices and its views in 16 bits each.
MOST = 2**16 - 1


def form(key):
    return f"'{key} {FORMS[key]}'" if FORMS[key] else f"'{key}'"


def whole(word):
    """A u32, or None."""
    digits = re.fullmatch("0*([0-9]{1,10})", word)
    return int(digits[1]) if digits and int(digits[1]) < 2**32 else None


def real(word):
    """A finite f64, or None."""
    if not re.fullmatch(r"[+-]?([0-9]+(\.[0-9]*)?|\.[0-9]+)([eE][+-]?[0-9]+)?", word):
        return None
    return float(word) if math.isfinite(float(word)) else None


def value(field, word):
    """What a word says in its place, or None, and what was wanted there."""
    if field in ("INDEX", "STEPS", "NUMBER"):
        return whole(word), f"a whole number from 0 to {2**32 - 1} for {field}"
    return real(word), f"a finite decimal number such as 20, -0.5 or 1e-3 for {field}"


def values(name, number, key, words):
    """What the words after a line's first say."""
    fields = FORMS[key].split()
    choices = FORMS[key].split("|") if FORMS[key].islower() else []
    if [key, *words] == ["box", "fast"]:
        raise wanted(name, number, RETIRED)
    if len(words) != len(fields) or choices and words[0] not in choices:
        raise wanted(name, number, form(key) if fields else f"no word after '{key}'")
    if choices:
        return words
    found = []
    for field, word in zip(fields, words):
        said, meant = value(field, word)
        if said is None:
            raise wanted(name, number, meant)
        found.append(said)
    return found


def lines(name, data):
    """Each line's number and its words, without the comment."""
    try:
        text = data.decode("utf-8-sig")
    except UnicodeDecodeError as fault:
        raise wanted(name, fault.object.count(b"\n", 0, fault.start) + 1, "UTF-8 text")
    for number, line in enumerate(text.split("\n"), 1):
        if len(line.splitlines()) > 1:
            raise wanted(name, number, "a line feed at each line's end, and no other line break")
        yield number, line.split("#")[0].split()


def parse(name, data):
    """The lines that stand alone, the vertices and the views: under each key its line's number and its values."""
    alone, rows, view = {}, {"vertex": [], "view": []}, None
    for number, words in lines(name, data):
        if not words:
            continue
        key = words[0]
        if key not in FORMS:
            raise wanted(name, number, f"one of these at the line's start: {', '.join(FORMS)}")
        found = values(name, number, key, words[1:])
        if key in rows:
            if len(rows[key]) == MOST:
                raise wanted(name, number, f"at most {MOST} {key} lines")
            place = {}
            rows[key].append(place)
            view = place if key == "view" else None
        elif key in ("outline", "box"):
            place, view = alone, None
        elif view is None:
            raise wanted(name, number, f"a view line above {form(key)}")
        else:
            place = view
        if key in place:
            raise wanted(name, number, f"one {key} line: line {place[key][0]} has it")
        place[key] = number, found
    for view in rows["view"]:
        for key in NEEDED:
            if key not in view:
                raise wanted(name, view["view"][0], f"{form(key)} in this view")
    if "outline" not in alone:
        raise wanted(name, number, f"{form('outline')} before the end")
    return alone, rows["vertex"], rows["view"]


def pack(alone, vertices, views):
    flags = int(alone["outline"][1] == ["closed"])
    out = [struct.pack("<HHHHII", 1, flags, len(vertices), len(views), 16, 16 + 24 * len(vertices))]
    for vertex in vertices:
        out.append(struct.pack("<3d", *vertex["vertex"][1]))
    for view in views:
        numbers = [number for key in NEEDED for number in view[key][1]]
        _, (cut_number,) = view.get("cut-number", (None, [0]))
        out.append(struct.pack("<2I6d2I", *numbers, "inverted" in view, cut_number))
    return b"".join(out)


def make(text, sheet):
    data = pack(*parse(text, read(text, text)))
    if os.path.exists(sheet) and os.path.samefile(text, sheet):
        raise Wrong(f"{sheet}: can't be written: it is the text")
    write(sheet, sheet, data)


if __name__ == "__main__":
    run(__doc__, "make_sheet.py TEXT SHEET", (2,), make)
