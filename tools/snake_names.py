#!/usr/bin/env python3
"""Respells the names of specs/, proofs/ and contracts: words in snake case, where port.py has left a hyphen or a hump.

usage: tools/snake_names.py [TOP]     once, after port.py, before any edit by hand; prints the names that fall together

Only names that specs/ and proofs/ declare are turned, since the library joins two names by a dash. Comments and strings stay,
but for words in back-quotes. Functions of src/, exported C names, types and modules keep their spelling.
"""
import os
import re
import subprocess
import sys

WORD = re.compile(r"[^\W\d](?:[\w']|-(?=[\w']))*")
TEXT = re.compile(r'"(?:[^"\\\n]|\\.)*"')
TICKS = re.compile(r"`[^`\n]*`")
HEAD = re.compile(r"^\s*(?:(?:abbrev|unfoldable|pattern|pub|let)\s+)*((?:[^\s:(){}.,;=←◌]+ )+): ", re.M)
FROM_STD = re.compile(r"^use (?:Rattle\.std\b|Prim\b|\w+\b(?<!Rattle))[^{\n]*\{([^}]*)\}", re.M)

declared = set()

# Definitions whose plain name is a function's or a lemma's, and lemmas whose plain name is a definition's.
OWN = {
    "arcBox": "arc_box_of",
    "arcFar": "arc_far_of",
    "arcTangent": "arc_tangent_of",
    "bad-record": "bad_record_law",
    "boxAt": "box_at_of",
    "bulge-ok": "bulge_ok_law",
    "bulgesMatch": "bulges_match_of",
    "closedWord": "closed_word_of",
    "crossBox": "cross_box_of",
    "endFar": "end_far_of",
    "end-off": "end_is_off",
    "endOnSegment": "end_on_segment_of",
    "endOnTop": "end_on_top_of",
    "endedAt": "ended_at_of",
    "endsFar": "ends_far_of",
    "even-bits": "even_bits_law",
    "forwardData": "forward_data_of",
    "front-part": "front_part_law",
    "handed-over": "handed_over_law",
    "hasRoom": "has_room_of",
    "headerFits": "header_fits_of",
    "headerOk": "header_good",
    "headerOf": "header_value",
    "inSweep": "in_sweep_of",
    "invFourBulge": "inv_four_bulge_of",
    "is-code": "is_code_law",
    "isDigit": "is_digit_of",
    "countKept": "kept_count",
    "noRoom": "lacks_room",
    "lastSegment": "last_segment_of",
    "lineBox": "line_box_of",
    "lineFar": "line_far_of",
    "listNumbers": "list_numbers_of",
    "numbers-row": "numbers_row_law",
    "of-record": "of_record_law",
    "of-segment": "of_segment_law",
    "otherBulge": "other_bulge_of",
    "pattern-of": "pattern_of_law",
    "recordAt": "record_at_of",
    "recordOf": "record_value",
    "ringFar": "ring_far_of",
    "roundEnding": "round_ending_of",
    "roundFrom": "round_from_of",
    "segmentBox": "segment_box_of",
    "splitArc": "split_arc_of",
    "splitAt": "split_at_of",
    "splitChords": "split_chords_of",
    "splitSegment": "split_segment_of",
    "start-off": "start_is_off",
    "sweepsOver": "sweeps_over_of",
    "test-roots": "test_roots_law",
    "value-from": "value_from_law",
    "verdictNumbers": "verdict_numbers_of",
    "verdictWords": "verdict_words_of",
    "vertexAt": "vertex_at_of",
    "vertexIn": "vertex_in_of",
    "vertexPast": "vertex_past_of",
    "vertexAtOf": "record_vertex_of",
    "vertexOf": "vertex_value",
    "end-x": "end_x_fits",
    "end-y": "end_y_fits",
    "end-bulge": "end_bulge_fits",
    "view-part": "view_part_law",
    "whole-text": "whole_text_law",
}


def snake(word):
    """WORD in snake case; a word that begins with a capital keeps its humps, since it is a type or a module."""
    if word in OWN:
        return OWN[word]
    word = word.replace("-", "_")
    if not word[0].islower():
        return word
    word = re.sub(r"(?<=[a-z0-9'])([A-Z]+)(?=[A-Z][a-z])", lambda m: "_" + m.group(1).lower() + "_", word)
    word = re.sub(r"(?<=[a-z0-9'])([A-Z][a-z])", lambda m: "_" + m.group(1).lower(), word)
    word = re.sub(r"(?<=[a-z0-9'])([A-Z]+)", lambda m: "_" + m.group(1).lower(), word)
    return word.lower() if word.isascii() else word


def needs(word):
    if word not in declared:
        return False
    return "-" in word or (word[0].islower() and re.search(r"[a-z0-9'][A-Z]", word) is not None)


def turn_code(text, seen):
    def one(m):
        w = m.group(0)
        if not needs(w):
            return w
        seen.setdefault(snake(w), set()).add(w)
        return snake(w)

    return WORD.sub(one, text)


def turn_line(line, mark, seen):
    """One line: code up to the comment's mark, then the comment, of which only back-quoted words are turned."""
    out, at = [], 0
    while at < len(line):
        if line.startswith(mark, at):
            out.append(TICKS.sub(lambda m: turn_code(m.group(0), {}), line[at:]))
            return "".join(out)
        m = TEXT.match(line, at)
        if not m and line[at] == "'" and mark == "//":
            m = re.compile(r"'(?:[^'\\]|\\.)'").match(line, at)
        if not m and line.startswith("b'", at):
            m = re.compile(r"b'(?:[^'\\]|\\.)'").match(line, at)
        if m:
            out.append(m.group(0))
            at = m.end()
            continue
        m = WORD.match(line, at)
        if m:
            out.append(turn_code(m.group(0), seen))
            at = m.end()
            continue
        out.append(line[at])
        at += 1
    return "".join(out)


def main(top):
    os.chdir(top)
    files = subprocess.run(["git", "ls-files", "crates"], capture_output=True, text=True, check=True).stdout.split()
    every, seen, library = set(), {}, set()
    for path in files:
        if path.endswith(".antt"):
            with open(path, encoding="utf-8") as f:
                text = f.read()
            declared.update(w for m in HEAD.finditer(text) for w in m.group(1).split())
            library.update(w.strip() for m in FROM_STD.finditer(text) for w in m.group(1).split(","))
    for word in sorted(declared & library):
        if "-" in word:
            print(f"{word}: declared here, and brought in from the library elsewhere")
    for path in files:
        if not path.endswith((".antt", ".rt")):
            continue
        with open(path, encoding="utf-8") as f:
            old = f.read()
        mark = "--" if path.endswith(".antt") else "//"
        new = "".join(turn_line(l, mark, seen) for l in old.splitlines(keepends=True))
        every.update(w for w in WORD.findall(old) if not needs(w))
        if new != old:
            with open(path, "w", encoding="utf-8") as f:
                f.write(new)
    for word in sorted(seen):
        if len(seen[word]) > 1 or word in every:
            print(f"{word}: {', '.join(sorted(seen[word]))}{' beside ' + word if word in every else ''}")


if __name__ == "__main__":
    main(sys.argv[1] if len(sys.argv) > 1 else os.path.join(os.path.dirname(os.path.abspath(__file__)), ".."))
