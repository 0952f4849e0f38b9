#!/usr/bin/env python3
"""Spells the names that specs/ and proofs/ declare as today's Rattle does: words in snake case, facts in camel case.

usage: respell.py [--check] FOLDER     the top of a repository; --check writes nothing

What turns: every name that a file of specs/ or a file of lemmas declares (a definition, a lemma, a field, a constructor, an
alias of a module) and that has a capital behind its first letter or a dash. It turns as a whole word in .antt files, in the
clauses and `ghost use` items of .rt files, and in code spans of .md files. In proofs/F/ of a function F, names behind a dot
are Rattle's and stay. Functions of src/, strings, inputs and outputs are not touched. A name whose new spelling would meet
another name in some file is printed and the script stops.
"""

import os
import re
import sys

WORD = re.compile(r'[^\s(){}.;,@"«»]+')
DECLARED = re.compile(
    r"^ *(?:(?:unfoldable|abbrev|pub|opaque|ruleset|constructor|field|mutual|private)\s+)*"
    r"([^\s(){}.;,@\"«»:]+)((?: \{[^{}\n]*\})*) :(?: |$)"
)
PLAIN = re.compile(r"^ *(?:pub )?(?:data|record|ruleset) ([^\s(){}.;,@\"«»:]+)")
ALIAS = re.compile(r"^ *use .* as ([a-z][^\s{},;]*)$")
FACTS = {"same-as": "SameAs"}
# Lemmas whose new spelling is that of a word of std.
BY_HAND = {"bit-and": "bit_and_lem", "bit-or": "bit_or_lem"}
CLAUSE = re.compile(r"^(\s*)(requires|ensures|ghost use)\b(.*)$")


def spelled(name):
    if name in FACTS:
        return FACTS[name]
    words = re.sub(r"(?<=[a-z0-9])[A-Z]", lambda m: "_" + m[0].lower(), name)
    return words.replace("-", "_")


def of_function(path):
    """Whether the file is part of the proof of one function."""
    return "/proofs/" in path and os.path.basename(path) in ("Proof.antt", "Answers.antt", "Invariants.antt")


def files(root, *endings):
    for folder, dirs, names in os.walk(root):
        dirs[:] = sorted(d for d in dirs if d not in ("out", ".git", "target", "must-fail"))
        for name in sorted(names):
            if name.endswith(endings):
                yield os.path.join(folder, name)


def read(path):
    with open(path, encoding="utf-8") as f:
        return f.read()


def turns(name):
    return name[0].isalpha() and not name[0].isupper() and bool(re.search("[a-z0-9][A-Z]", name) or "-" in name.strip("-"))


def table(root):
    """Old spelling to new, of every name that turns. A lemma or a module that would be called as a definition gets an ending."""
    defined, named, aliases = {}, {}, {}
    for path in files(os.path.join(root, "crates"), ".antt"):
        for line in read(path).split("\n"):
            m = ALIAS.match(line)
            if not m and not of_function(path):
                m = DECLARED.match(line) or PLAIN.match(line)
            if m:
                alias = bool(ALIAS.match(line))
                to = aliases if alias else defined if "/specs/" in path else named
                to.setdefault(spelled(m[1]), set()).add(m[1])
    new = {}
    for n, olds in sorted(defined.items()):
        if len(olds) > 1:
            raise SystemExit(f"definitions fall together: {' and '.join(sorted(olds))}")
        for old in olds:
            if turns(old):
                new[old] = n
    for n, olds in sorted(named.items()):
        # A definition that a file of lemmas makes for itself has capitals, a lemma dashes.
        capital = {old for old in olds if re.search("[a-z0-9][A-Z]", old)}
        for old in sorted(olds):
            if n in defined and old not in defined[n] or n not in defined and capital and old not in capital:
                new[old] = n + "_lem"
            elif n not in defined and turns(old):
                new[old] = BY_HAND.get(old, n)
    for n, olds in sorted(aliases.items()):
        for old in sorted(olds):
            if turns(old):
                new[old] = n + "_module" if n in defined or n in named else n
    return new


def code(text, new, behind):
    """The antt text with each word of the table turned; words behind a dot too where `behind` says so."""

    def turned(part):
        def one(m):
            if not behind and part[m.start() - 1 : m.start()] == ".":
                return m[0]
            return new.get(m[0], m[0])

        return WORD.sub(one, part)

    # Modules keep their names: what stands behind `use` and in a whole path.
    parts = re.split(r"(\buse [^\s{;]+|\bRattle\.[\w.+-]+)", text)
    return "".join(part if k % 2 else turned(part) for k, part in enumerate(parts))


def clauses(text, new):
    """The .rt text with each word of a clause and a `ghost use` item turned."""
    out, depth, inside = [], 0, False
    for line in text.split("\n"):
        at = re.match(r"^\s*(requires|ensures|ghost use)\b", line)
        if inside or at:
            inside = True
            line = code(line, new, True)
            depth += line.count("{") - line.count("}")
            inside = depth > 0
        out.append(line)
    return "\n".join(out)


def spans(text, new):
    """The .md text with each word of a code span turned; a word with an underscore may be an edit's or a function's, and stays."""
    new = {old: to for old, to in new.items() if "_" not in old}
    return re.sub(r"`[^`\n]+`", lambda m: code(m[0].strip("`"), new, True).join("``"), text)


def meetings(root, new):
    """Names that fall together: a file of code where the new spelling stands already."""
    found = []
    for path in files(os.path.join(root, "crates"), ".antt", ".rt"):
        text = read(path)
        if path.endswith(".rt"):
            text = "\n".join(re.findall(r"(?m)^\s*(?:requires|ensures|ghost use)\b.*$", text))
        text = re.sub(r"(?m)^( *use )\S+(?=\.\{)", r"\1", text)
        text = re.sub(r"\bRattle\.[\w.+]+", "", text)
        if of_function(path):
            text = re.sub(r"\.[\w-]+", "", text)
        words = set(WORD.findall(text))
        turned = {}
        for w in words:
            if w in new:
                turned.setdefault(new[w], set()).add(w)
        for n, olds in turned.items():
            if n in words and n not in new:
                olds = olds | {n}
            if len(olds) > 1:
                found.append(f"{path}: {' and '.join(sorted(olds))} meet as {n}")
    return found


def main(argv):
    check = "--check" in argv
    argv = [a for a in argv if a != "--check"]
    if len(argv) != 1:
        print(__doc__)
        return 2
    root = argv[0]
    new = table(root)
    met = meetings(root, new)
    print("\n".join(met))
    if met:
        return 1
    changed = 0
    for path in files(root, ".antt", ".rt", ".md"):
        text = read(path)
        if path.endswith(".antt"):
            turned = code(text, new, not of_function(path))
        elif path.endswith(".rt"):
            turned = clauses(text, new)
        else:
            turned = spans(text, new)
        if turned != text:
            changed += 1
            if not check:
                with open(path, "w", encoding="utf-8") as f:
                    f.write(turned)
    print(f"{len(new)} names, {changed} files")
    return 0


if __name__ == "__main__":
    raise SystemExit(main(sys.argv[1:]))
