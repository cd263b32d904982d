#!/usr/bin/env python3
"""Writes what bindings/commands.txt says of the calls of a machine: tools/machine_commands.py [--check]

It writes the enum `vmm_kind` of vm_memory.h, the constants of `kind` in raw.rs, and the tables of calls in SCRIPT.md.
With --check it writes nothing and says which of these differ, and whether the kinds of vm_session are others, or the
help of `vmmem` lacks a line; the status is 1 then.
"""

import pathlib
import re
import sys

TOP = pathlib.Path(__file__).resolve().parent.parent
ROWS = "bindings/commands.txt"
HEADER, RAW = "bindings/c/vm_memory.h", "bindings/rust/src/raw.rs"
SCRIPT = "docs/SCRIPT.md"
KINDS, HELP = "crates/vm_session/src/call.rt", "crates/vmmem/src/main.rt"
# How many cells a row of a table of the file has.
CELLS = {"setup": 9, "commands": 9, "marks": 5, "queues": 5, "messages": 5}


def fail(text):
    sys.exit(f"{ROWS}: {text}")


def read_rows():
    """Returns the rows of each table, with their numbers ascending over all tables."""
    tables, rows, name = {it: [] for it in CELLS}, [], None
    for number, line in enumerate((TOP / ROWS).read_text().splitlines(), 1):
        if not line or line.startswith("#"):
            continue
        if line.startswith("["):
            name = line.strip("[]")
            if name not in CELLS:
                fail(f"line {number}: no table is called {name}")
            continue
        cells = [it.strip() for it in line.split("|")]
        if name is None or len(cells) != CELLS[name]:
            fail(f"line {number}: not a row of {CELLS.get(name, 0)} cells")
        tables[name].append(cells)
        rows.append(cells)
    if [row[0] for row in rows] != [str(it) for it in range(len(rows))]:
        fail("the numbers are not those from 0 on, in order")
    for place, what in ((1, "name in C"), (2, "name in Rust")):
        names = [row[place] for row in rows]
        twice = [it for it in names if names.count(it) > 1 or not re.fullmatch(r"[A-Z][A-Z0-9_]*", it)]
        if twice:
            fail(f"{twice[0]} stands twice, or is no name: the {what}")
    return tables, rows


def wrapped(words):
    """Returns words as indented lines of at most 100 columns, a comma after each but the last."""
    lines, line = [], "   "
    for place, word in enumerate(words):
        word += "," if place < len(words) - 1 else ""
        if len(line) + 1 + len(word) > 100:
            lines.append(line)
            line = "   "
        line += f" {word}"
    return lines + [line]


def of_header(rows):
    return wrapped([f"VMM_{row[1]}" for row in rows])


def of_raw(rows):
    return [f"    pub const {row[2]}: u32 = {row[0]};" for row in rows]


def table(head, rows):
    lines = [re.sub(r"  +", " ", f"| {' | '.join(it)} |") for it in rows]
    return [f"| {' | '.join(head)} |", "|" + "---|" * len(head), *lines]


def lines_of(rows, what):
    return table(("Line", what, "Reply", "Refusals"), [row[5:9] for row in rows])


def put_between(path, begin, end, lines):
    """Returns a file's text with these lines between a line that begins a part and the next that ends it."""
    text = (TOP / path).read_text().split("\n")
    try:
        first = text.index(begin) + 1
        last = text.index(end, first)
    except ValueError:
        sys.exit(f"{path}: no part between {begin!r} and {end!r}")
    return "\n".join(text[:first] + lines + text[last:])


def put_table(text, path, heading, lines):
    """Returns a page's text with this table in place of the first of the same head after a heading."""
    text = text.split("\n")
    try:
        first = text.index(lines[0], text.index(heading))
    except ValueError:
        sys.exit(f"{path}: no table {lines[0]!r} after {heading!r}")
    last = next((at for at in range(first, len(text)) if not text[at].startswith("|")), len(text))
    return "\n".join(text[:first] + lines + text[last:])


def written():
    """Returns the texts that the rows ask for, by their paths."""
    tables, rows = read_rows()
    script = (TOP / SCRIPT).read_text()
    script = put_table(script, SCRIPT, "## Setup", lines_of(tables["setup"], "What it makes"))
    script = put_table(script, SCRIPT, "## Commands", lines_of(tables["commands"], "What it does"))
    return {
        HEADER: put_between(HEADER, "enum vmm_kind {", "};", of_header(rows)),
        RAW: put_between(RAW, "pub mod kind {", "}", of_raw(rows)),
        SCRIPT: script,
    }


def differing_lists():
    """Returns what is wrong with lists that are kept by hand: the kinds of vm_session, and the lines of the help."""
    tables, rows = read_rows()
    wrong = []
    kinds = re.search(r"const KINDS: \[Kind; \d+\] = \[(.*?)\];", (TOP / KINDS).read_text(), re.S)
    kinds = re.findall(r"Kind::(\w+)", kinds.group(1)) if kinds else []
    wanted = [row[2].title().replace("_", "") for row in rows]
    if kinds != wanted:
        both = min(len(kinds), len(wanted))
        at = next((at for at in range(both) if kinds[at] != wanted[at]), both)
        wrong.append(f"{KINDS}: the kinds are not those of {ROWS}, from number {at} on")
    text = (TOP / HELP).read_text()
    for row in tables["setup"] + tables["commands"]:
        word = row[5].strip("`").split(" ")[0]
        if not re.search(rf"^  {word}( |$)", text, re.M):
            wrong.append(f"{HELP}: the help has no line that begins with {word}")
    return wrong


def main(words):
    if words not in ([], ["--check"]):
        print(__doc__)
        return int(words not in (["--help"], ["-h"]))
    texts = written()
    wrong = differing_lists()
    for path, text in texts.items():
        if text != (TOP / path).read_text():
            if words:
                wrong.append(f"{path}: not what {ROWS} says: run tools/machine_commands.py")
            else:
                (TOP / path).write_text(text)
                print(f"{path}: written")
    for it in wrong:
        print(it)
    return int(bool(wrong))


sys.exit(main(sys.argv[1:]))
