#!/usr/bin/env python3
"""Checks that every call that another crate can make takes any values and has its contract listed.

    python3 tools/public_calls.py

in the repository's root reads crates/*/src and docs/CONTRACTS.md. It fails, and says why, where a public
function of a library has a `requires`, has no `ensures`, is not listed under its crate in docs/CONTRACTS.md,
or is listed with fewer than two edits, or with an edit that crates/CRATE/must-fail does not have; and where
the page lists a call, or has a section for a crate, that is not there. `pub(crate)` is not public.
"""

import pathlib
import re
import sys

# What stands before a function's name, without the space before it.
FUNCTION = re.compile(r'^[ \t]*pub (?:(?:const|unsafe|extern "C") )*fn (\w+)', re.MULTILINE)
# Comments, texts and characters, in which no word and no brace counts.
UNREAD = re.compile(r"""//[^\n]*|"(?:[^"\\]|\\.)*"|'(?:[^'\\\n]|\\.)'""")
# What stands before the brace of a clause: its kind, with a star where it speaks of memory, and perhaps its name.
CLAUSE = re.compile(r"\b(requires|ensures|ghost)\*?(?:\s+\w+)?\s*:?\s*$")
OPENS, CLOSES = "([{", ")]}"


def clauses_of(text, at):
    """The kinds of the clauses of a function whose parameters come at some place, to its body or its `;`."""
    found, depth, last = [], 0, at
    while at < len(text):
        if text[at] == "{" and depth == 0:
            clause = CLAUSE.search(text, last, at)
            if not clause:
                return found
            found.append(clause[1])
        if text[at] == ";" and depth == 0:
            return found
        if text[at] in OPENS:
            depth += 1
        elif text[at] in CLOSES:
            depth -= 1
            last = at + 1
        at += 1
    return found


def public_functions(crate):
    """The name and the kinds of the clauses of each public function of a crate."""
    for source in sorted((crate / "src").glob("**/*.rt")):
        text = UNREAD.sub(lambda part: '"C"' if part[0] == '"C"' else "", source.read_text())
        for function in FUNCTION.finditer(text):
            yield function[1], clauses_of(text, function.end())


def sections(page):
    """Of each crate that the page has a section for, the rows of its table."""
    found = {}
    for part in page.split("\n## ")[1:]:
        title = part.split("\n", 1)[0]
        found[title.split(": ")[-1]] = [row for row in part.split("\n") if row.startswith("| `")]
    return found


def row_of(rows, name):
    """The row whose first cell names the call."""
    return next((row for row in rows if re.search(rf"\b{name}\(", row.split(" | ")[0])), None)


def faults_of(crate, name, clauses, rows):
    """What is wrong with one public function."""
    if "requires" in clauses:
        yield "has a `requires`"
    if "ensures" not in clauses:
        yield "has no `ensures`"
    row = row_of(rows, name)
    if row is None:
        yield "is not listed in docs/CONTRACTS.md"
        return
    edits = re.findall(r"`(\w+)`", row.split(" | ")[3])
    if len(edits) < 2:
        yield "has fewer than two edits in docs/CONTRACTS.md"
    for edit in edits:
        if not (crate / "must-fail" / f"{edit}.edit").exists():
            yield f"names the edit {edit}, which is not there"


def listed_calls(rows):
    """The calls that the first cells of some rows name."""
    for row in rows:
        yield from re.findall(r"(\w+)\(", row.split(" | ")[0])


def main():
    listed = sections(pathlib.Path("docs/CONTRACTS.md").read_text())
    count, wrong, there = 0, [], {}
    for crate in sorted(pathlib.Path("crates").iterdir()):
        if not (crate / "src" / "lib.rt").exists():
            continue
        there[crate.name] = set()
        for name, clauses in public_functions(crate):
            count += 1
            there[crate.name].add(name)
            for fault in faults_of(crate, name, clauses, listed.get(crate.name, [])):
                wrong.append(f"{crate.name}::{name} {fault}")
    for title, rows in listed.items():
        for name in listed_calls(rows):
            if name not in there.get(title, ()):
                wrong.append(f"{title}::{name} is listed in docs/CONTRACTS.md and is no public call")
    for line in wrong:
        print(line)
    print(f"{count} public calls, {len(wrong)} faults")
    return 1 if wrong or count == 0 else 0


sys.exit(main())
