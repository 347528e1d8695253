#!/usr/bin/env python3
"""Holds the must-fail edits to what the prover says of each wrong answer in them.

A file in a crate's folder must-fail holds wrong answers of many functions, and one check of the crate tries them all. rt ci asks that the
crate is refused. Here each function that the file names must be refused for itself, and no other: one that is refused only for a
function that it calls does not count, nor one whose proof only names a place that the old code had. rt keeps nothing of what the
prover said, so each file is checked here once more, in a copy of the crates, over what their checks left in out/.

    tests/edits/run.py            every file
    tests/edits/run.py CRATE..    the files of these crates
    tests/edits/run.py --errors   also print each wrong answer's first error

What the checks printed is left in target/edits, as CRATE/FILE.log, and in times the seconds that they took. A wrong answer is a block of
lines, with a blank line before the next:

    # NAME: what it would be.
    # refused: FUNCTION, as the prover names it, without the crate; or a file of laws, as proofs/Lists.antt
    file: .. old: .. new: .., as rt reads them

One that changes a function and its definition alike leaves the function proved, and is refused by the law that no longer holds of it.

The prover names the goals of a function by its code, as `returns-then-n-eq0` behind `if n == 0`, and a wrong answer that changes a
condition changes these names. A proof of which nothing is said but that a name is gone is turned to the new ones and checked once more: it
is then refused for what it says, or not at all.
"""
import collections
import concurrent.futures
import difflib
import itertools
import os
import pathlib
import queue
import re
import shutil
import subprocess
import sys
import tempfile
import time

ROOT = pathlib.Path(__file__).resolve().parents[2]
LOGS = ROOT / "target" / "edits"
EDIT = re.compile(r"(file( old new)+( |$))+")
HEAD = re.compile(r"# ([a-z][a-z0-9_]*): (.+)\.$")
REFUSED = re.compile(r"# refused: (proofs/[A-Za-z/]+\.antt|[A-Za-z0-9_:]+)$")
VERDICT = re.compile(r"^fn ([a-z0-9_]+)::([A-Za-z0-9_:]+): (.+)$")
# a closure is proved where its callers give what it asks, and they are judged themselves
PROVED = ("proved", "proved where its callers give what it asks")
ERROR = re.compile(r"^\./(proofs/[^:]+):\d+:\d+: error: (.*)$")
# what an error says where a proof does not fit the code's shape any more: a goal, a place or a fact that it names is gone
SHAPE = re.compile(r"has no field|has no `[^`]*` that can be named|is not in scope|mir\.Table\.spell")
# what an error says of a declaration that is not judged, since another one was refused
OTHERS = re.compile(r"which (was not admitted|was rejected), (was|were) not checked")
# a name that is gone, in an error or in what follows it
GONE = re.compile(r"module `Rattle\.[\w.']+` has no `([^`]+)` that can be named|has no field `([^`]+)`")
# the names that there are: in what follows an error, and in the help at the function's verdict
NAME = re.compile(r"(?<![\w'-])\w[\w'-]*")
FIELDS = re.compile(r"(?:the fields that can be named here are|names in it that begin alike:|did you mean|nearest:) ?(.*)")
HELP = re.compile(r"^help: `Goals` has no `([^`]+)`; rattle asks for (.*)$")
# a check takes up to so much memory, and with its names turned a proof is tried so often
CHECK_KB, ROUNDS = 2_500_000, 6


class Wrong(Exception):
    """An edit that is not what this test asks for."""


Answer = collections.namedtuple("Answer", "name part")


def blocks(edit):
    """The name and the refused function of each wrong answer in a file."""
    for block in edit.read_text().rstrip("\n").split("\n\n"):
        lines = block.split("\n")
        head = HEAD.match(lines[0])
        refused = REFUSED.match(lines[1]) if len(lines) > 1 else None
        keys = " ".join(line.split(":")[0] for line in lines[2:])
        if not head or not refused or not EDIT.fullmatch(keys):
            raise Wrong(f"{edit.relative_to(ROOT)}: not a wrong answer in the form that this test reads: {lines[0]}")
        yield Answer(head[1], refused[1])


# --- the copies


def crates():
    """The line of each crate in crates.txt, and the repository's crates that it names."""
    lines = {}
    for line in (ROOT / "crates.txt").read_text().split("\n"):
        name, colon, deps = line.partition("#")[0].partition(":")
        if colon:
            lines[name.split()[0]] = (line, deps.split())
    return {name: (line, [it for it in deps if it in lines]) for name, (line, deps) in lines.items()}


def below(name, known):
    """The crates that a crate stands on, lowest first, and then itself."""
    found = []
    for it in known[name][1]:
        found += [more for more in below(it, known) if more not in found]
    return [*found, name]


def linked(one, other):
    """Copies a file; what was proved by a link, since a check replaces such a file and changes none."""
    if one.endswith(".oantt"):
        try:
            return os.link(one, other)
        except OSError:
            pass
    return shutil.copy2(one, other)


def lay(top, of, names, known, copy):
    """Makes `top` a repository of these crates, without what tries and runs them."""
    shutil.rmtree(top, ignore_errors=True)
    top.mkdir(parents=True)
    (top / "crates.txt").write_text("".join(known[it][0] + "\n" for it in names))
    for it in names:
        for part in ("src", "specs", "proofs", "out"):
            if (of / "crates" / it / part).is_dir():
                shutil.copytree(of / "crates" / it / part, top / "crates" / it / part, copy_function=copy)


def rt_check(place, what, *flags):
    """The status of a check of the crate in that folder, and what it printed. `what` is noted with the seconds that it took."""
    began = time.monotonic()
    ran = subprocess.run(["rt", "check", *flags], cwd=place, stdin=subprocess.DEVNULL, stdout=subprocess.PIPE, stderr=subprocess.STDOUT, encoding="utf-8", errors="replace")
    with (LOGS / "times").open("a") as it:
        it.write(f"{what} {time.monotonic() - began:.1f}\n")
    return ran.returncode, ran.stdout.split("\n")


def change(edit, place):
    """Applies a file of wrong answers to the crate in that folder."""
    path, old = None, None
    texts = {}
    for line in edit.read_text().split("\n"):
        key, _, text = line.partition(": ")
        if key == "file":
            path = text.strip()
        elif key == "old":
            old = text
        elif key in ("new", "new:"):
            if path not in texts:
                texts[path] = (place / path).read_text()
            if texts[path].count(old) != 1:
                raise Wrong(f"{edit.relative_to(ROOT)}: {path} has {texts[path].count(old)} times: {old}")
            texts[path] = texts[path].replace(old, text)
    for path, text in texts.items():
        (place / path).write_text(text)


# --- what a check said


def own(said, crate):
    """The functions that the prover refused for themselves, and those that it refused for others, with its words."""
    alone, with_others = {}, {}
    for line in said:
        verdict = VERDICT.match(line)
        if verdict and verdict[1] == crate and verdict[3] not in PROVED:
            (with_others if "it calls" in verdict[3] else alone)[verdict[2]] = verdict[3]
    return alone, with_others


def is_of(file, part):
    return file == part if part.endswith(".antt") else os.path.dirname(file) == f"proofs/{part.replace('::', '/')}"


def errors(said, part):
    """The errors in a function's proof files, or in a file of laws, but those that only say that another declaration was refused."""
    found = []
    for at, line in enumerate(said):
        error = ERROR.match(line)
        if error and is_of(error[1], part) and not OTHERS.search(error[2]):
            rest = itertools.takewhile(lambda more: more.startswith("  "), said[at + 1 :])
            found.append(" ".join([line[2:], *(more.strip() for more in rest)]))
    return found


def facts(said, part, alone):
    """What the prover says that no longer holds; of a function without a proof file it is what its search left, in the verdict."""
    told = errors(said, part)
    if not told and part in alone:
        told = [alone[part]]
    return [it for it in told if not SHAPE.search(it)]


def nearest(gone, names):
    """Of the names that there are the one most alike, of the same kind: a goal's stands before the first dash, as `returns`."""
    alike = [it for it in sorted(names) if it.split("-")[0] == gone.split("-")[0]]
    return max(alike, key=lambda it: difflib.SequenceMatcher(None, gone, it).ratio(), default=None)


def turn(place, said, part):
    """Gives each name in a function's proof that is gone the one that stands for it now; answers whether there was one."""
    files = {it: it.read_text() for it in sorted((place / "proofs" / part.replace("::", "/")).glob("*.antt"))}
    used = {word for text in files.values() for word in NAME.findall(text)}
    told = errors(said, part)
    lost = {it[1] or it[2] for text in told for it in GONE.finditer(text)}
    there = {name for text in told for found in FIELDS.finditer(text) for name in NAME.findall(found[1])}
    there |= {name for found in map(HELP.match, said) if found and found[1] in lost for name in NAME.findall(found[2])}
    turns = {gone: nearest(gone, there - used) for gone in lost}
    for file, text in files.items():
        file.write_text(NAME.sub(lambda word: turns.get(word[0]) or word[0], text))
    return any(turns.values())


def tried(edit, top):
    """Checks the crate with a file's wrong answers; answers what the prover said of them."""
    crate = edit.parent.parent.name
    place = top / "crates" / crate
    change(edit, place)
    log = LOGS / crate / f"{edit.stem}.log"
    log.parent.mkdir(parents=True, exist_ok=True)
    log.write_text("")
    for _ in range(ROUNDS):
        status, said = rt_check(place, f"edit {crate}/{edit.stem}", "--jobs", "1")
        with log.open("a") as it:
            it.write("\n".join(said))
        if status != 1 or not any(line.startswith("logic=not-proved") for line in said):
            raise Wrong(f"{edit.relative_to(ROOT)}: its check ended with {status}, and not with a refusal:\n" + "\n".join(said[:12]))
        alone, _ = own(said, crate)
        if not [it for it in alone if not facts(said, it, alone) and turn(place, said, it)]:
            break
    return said


# --- the verdict


def judge(edit, parts, said, names, show):
    """Holds one file to what the prover said of it; yields what is wrong."""
    crate = edit.parent.parent.name
    alone, with_others = own(said, crate)
    for name, part in parts:
        one = f"{crate}/{name}"
        if one in names:
            yield f"{one} is the name of two wrong answers"
        names.add(one)
        found = facts(said, part, alone)
        if part in with_others:
            yield f"{one}: {part} calls a function that is refused too, so nothing is shown of it: {edit.name} is not its file"
        elif part not in alone and not (part.endswith(".antt") and errors(said, part)):
            yield f"{one}: {part} was NOT REFUSED"
        elif not found:
            yield f"{one}: refused for the code's shape, and not for a fact: {errors(said, part)[0]}"
        elif show:
            print(f"{one}: {found[0][:400]}")
    if len({part for _, part in parts}) < len(parts):
        yield f"{edit.relative_to(ROOT)}: two wrong answers of one function"
    functions = {part for _, part in parts if not part.endswith(".antt")}
    if functions and set(alone) - functions:
        yield f"{edit.relative_to(ROOT)}: refused too, and not named: {', '.join(sorted(set(alone) - functions))}"


def side_by_side():
    """How many checks run at a time: one for each processor, as far as memory goes."""
    with open("/proc/meminfo", encoding="utf-8") as it:
        free = next(int(line.split()[1]) for line in it if line.startswith("MemAvailable:"))
    return max(1, min(len(os.sched_getaffinity(0)), free // CHECK_KB))


def run(edits, room, faults):
    """Yields each file with its wrong answers and what the prover said of it, in the files' order."""
    known = crates()
    of = lambda edit: edit.parent.parent.name
    needed = []
    for name in sorted({of(it) for it in edits}):
        needed += [it for it in below(name, known) if it not in needed]
    base = room / "base"
    lay(base, ROOT, needed, known, shutil.copy2)
    # a refusal says something only of a crate that is proved as it stands
    unproved = {}
    for name in needed:
        status, said = rt_check(base / "crates" / name, f"check {name}")
        if status:
            unproved[name] = f"{name} is not proved as it stands:\n" + "\n".join(said[-12:])
    faults += unproved.values()

    at_a_time = side_by_side()
    tops = queue.Queue()
    for number in range(at_a_time):
        tops.put(room / str(number))

    def try_one(edit):
        top = tops.get()
        try:
            parts = list(blocks(edit))
            lay(top, base, below(of(edit), known), known, linked)
            return parts, tried(edit, top)
        except Wrong as fault:
            faults.append(str(fault))
        finally:
            tops.put(top)

    whole = [it for it in edits if not set(below(of(it), known)) & set(unproved)]
    with concurrent.futures.ThreadPoolExecutor(at_a_time) as pool:
        for edit, found in zip(whole, pool.map(try_one, whole)):
            if found:
                yield edit, *found


def main():
    words = sys.argv[1:]
    show = words[:1] == ["--errors"]
    chosen = words[1:] if show else words
    if any(it.startswith("-") for it in chosen):
        sys.exit("usage: tests/edits/run.py [--errors] [CRATE..]")
    edits = [it for it in sorted(ROOT.glob("crates/*/must-fail/*.edit")) if not chosen or it.parent.parent.name in chosen]
    names, faults = set(), []
    LOGS.mkdir(parents=True, exist_ok=True)
    (LOGS / "times").write_text("")
    with tempfile.TemporaryDirectory(prefix="edits-") as room:
        for edit, parts, said in run(edits, pathlib.Path(room), faults):
            faults += judge(edit, parts, said, names, show)
    if faults or not names:
        sys.exit("tests/edits: " + "\ntests/edits: ".join(faults or ["there is no edit"]))
    print(f"tests/edits: {len(names)} wrong answers in {len(edits)} files, each refused in its own function")


if __name__ == "__main__":
    main()
