#!/usr/bin/env python3
"""text_numbers.py [TEXT]: shows the text that the program sheet prints in numbers one can read.

It reads the file TEXT, or standard input, and prints the same lines with the same fields. Each float's 16 hex digits
become the shortest decimal that reads back to the same f64, and a verdict or a refusal gets its name:

    box 0.0 -0.5 1.0 0.0
    view 0 7 cut 2 17 (valid)
    view 1 4 hold 0 18 (end not on its segment)

The text is checked as it is read. One that is cut short, or that the program can't have printed, is refused with the
line and what was wanted there, and nothing is shown. docs/SHEET.md has the lines.
"""
import math
import re
import struct
import sys

sys.dont_write_bytecode = True  # no compiled tool.py is left in this folder
from tool import read, run, wanted, write

MOST_VERTICES = 2000
MOST_VIEWS = 256
VERDICTS = {
    "1": "no segments",
    "2": "offset out of range",
    "3": "start not on its segment",
    "4": "end not on its segment",
    "5": "end on the final vertex",
    "6": "bulges do not match",
    "7": "valid",
}
BAD_NUMBER = "a number is NaN, infinite or out of range"
SHEET_REFUSALS = {
    "1": BAD_NUMBER,
    "11": "wrong length, version, count, offset or flag",
    "12": "a direction is not 0 or 1",
}
VIEW_REFUSALS = {"1": BAD_NUMBER, "4": "start index not below the vertex count"}
COUNT = "(0|[1-9][0-9]{0,3})"
CUT_NUMBER = "(0|[1-9][0-9]{0,9})"
FLOAT = "([0-9a-f]{16})"
RETIRED = "((?: retired)?)"


class Text:
    """The lines of a text, taken one by one, and what is shown of them."""

    def __init__(self, name, data):
        *self.lines, self.rest = data.split(b"\n")
        self.name = name
        self.number = 0
        self.shown = []

    def check(self, holds, what):
        if not holds:
            raise wanted(self.name, self.number, what)

    def line(self, pattern, what):
        """The fields of the next line."""
        self.number += 1
        if self.number > len(self.lines):
            self.check(not self.rest, "a line feed at the end of this line: the text is cut short")
            self.check(False, f"{what}: the text is cut short")
        line = self.lines[self.number - 1]
        self.check(not line.endswith(b"\r"), "a line feed alone at the end of this line")
        match = re.fullmatch(pattern, line.decode("latin-1"))
        self.check(match, what)
        return match.groups()

    def decimals(self, floats):
        """The shortest decimal of each float."""
        numbers = struct.unpack(f">{len(floats)}d", bytes.fromhex("".join(floats)))
        self.check(all(map(math.isfinite, numbers)), "finite numbers")
        return " ".join(map(repr, numbers))

    def show(self, line):
        self.shown.append(line + "\n")

    def end(self):
        self.number += 1
        self.check(self.number > len(self.lines) and not self.rest, "the end of the text")


def show_row(text, k):
    what = f"'{k} X Y BULGE', each float 16 hex digits"
    position, *floats = text.line(f"{COUNT} {FLOAT} {FLOAT} {FLOAT}", what)
    text.check(position == str(k), what)
    text.show(f"{k} {text.decimals(floats)}")


def show_view(text, k, vertices, kind):
    what = f"'view {k} VERDICT cut|hold COUNT NUMBER' or 'view {k} refused N'"
    view, verdict, mark, count, cut_number, refusal = text.line(
        f"view {COUNT} (?:{COUNT} (cut|hold) {COUNT} {CUT_NUMBER}|refused {COUNT})", what
    )
    text.check(view == str(k), what)
    if refusal:
        numbers = VIEW_REFUSALS if vertices >= 2 else ["1"]
        text.check(refusal in numbers, f"a view's refusal: {' or '.join(numbers)}")
        text.show(f"view {k} refused {refusal} ({VIEW_REFUSALS[refusal]})")
        return
    text.check(verdict in VERDICTS, "a verdict from 1 to 7")
    text.check((verdict == "1") == (vertices < 2), "verdict 1 exactly where there are under 2 vertices")
    text.check(verdict == "7" or mark == "hold", "hold where the verdict is not 7")
    text.check(verdict != "7" or mark == "cut" or kind == "open", "cut where the verdict is 7 and the outline closed")
    why = VERDICTS[verdict]
    if mark == "hold":
        text.check(count == "0", "count 0 for a view that is held")
        why += ", but across the gap" if verdict == "7" else ""
    else:
        most = vertices + 2 if kind == "closed" else vertices
        text.check(2 <= int(count) <= most, f"a count from 2 to {most}")
    text.check(int(cut_number) < 2**32, f"a cut number from 0 to {2**32 - 1}")
    text.show(f"view {k} {verdict} {mark} {count} {cut_number} ({why})")
    for position in range(int(count)):
        show_row(text, position)


def show_box(text, vertices):
    if vertices < 2:
        (retired,) = text.line(f"box none{RETIRED}", "'box none'")
        text.show(f"box none{retired}")
        return
    *floats, retired = text.line(f"box {FLOAT} {FLOAT} {FLOAT} {FLOAT}{RETIRED}", "'box X Y X Y', each float 16 hex digits")
    text.show(f"box {text.decimals(floats)}{retired}")


def show_sheet(text):
    vertices, views, kind, refusal = text.line(
        f"outline {COUNT} {COUNT} (open|closed)|refused {COUNT}", "'outline V W open|closed' or 'refused N'"
    )
    if refusal:
        text.check(refusal in SHEET_REFUSALS, "a sheet's refusal: 1, 11 or 12")
        text.show(f"refused {refusal} ({SHEET_REFUSALS[refusal]})")
        return
    vertices, views = int(vertices), int(views)
    text.check(vertices <= MOST_VERTICES, f"at most {MOST_VERTICES} vertices")
    text.check(views <= MOST_VIEWS, f"at most {MOST_VIEWS} views")
    text.show(f"outline {vertices} {views} {kind}")
    show_box(text, vertices)
    for k in range(views):
        show_view(text, k, vertices, kind)


def show(path=None):
    name, file = ("standard input", 0) if path is None else (path, path)
    text = Text(name, read(name, file))
    show_sheet(text)
    text.end()
    write("standard output", 1, "".join(text.shown).encode())


if __name__ == "__main__":
    run(__doc__, "text_numbers.py [TEXT]", (0, 1), show)
