#!/usr/bin/env python3
"""Brings the names of definitions and lemmas to snake case, as today's Rattle spells them.

usage: python3 tools/snake_names.py            at the top of the repository, once, right after the port.py of the toolchain

A name is turned where specs/ or proofs/ declares it (the files of one function's proof aside): `fieldFault` becomes
`field_fault`, `first-upward` becomes `first_upward`, and a dash stays after the name of a definition, as in
`applies_at-closed`. Types, modules and functions of src/ keep their names. Where a lemma would fall together with a
definition the lemma gets `_lem`. Comments are turned between backquotes alone; of documents those that speak of the tree as it is.
"""
import os
import re
import sys

PER_FUNCTION = {"Proof.antt", "Answers.antt", "Invariants.antt"}
DECLARED = re.compile(r"\s*(?:(?:abbrev|unfoldable|pub|private)\s+)*([^\s(){}:;,.\"|=]+)\s+:\s")
LETTER = r"\w'?₀-₉\-"


def files(root, ends):
    for folder, dirs, names in os.walk(root):
        dirs[:] = sorted(d for d in dirs if d not in ("out", ".git", "target"))
        for name in sorted(names):
            if name.endswith(ends):
                yield os.path.join(folder, name)


def snake(name):
    def one(part):
        return re.sub(r"(?<=[a-z0-9])([A-Z])", r"_\1", part).lower()

    parts = name.split("-")
    said = one(parts[0])
    for before, part in zip(parts, parts[1:]):
        said += ("-" if re.search(r"[a-z][A-Z]", before) else "_") + one(part)
    return said


def declared(root):
    found = set()
    for path in files(os.path.join(root, "crates"), ".antt"):
        if os.path.basename(path) in PER_FUNCTION:
            continue
        with open(path, encoding="utf-8") as f:
            for line in f:
                m = DECLARED.match(line)
                if m:
                    found.add(m.group(1))
    return found


def renamings(names):
    turned = {}
    for name in sorted(names):
        camel = re.match(r"[a-z]", name) and re.search(r"[a-z0-9][A-Z]", name)
        dashed = "-" in name and re.match(r"[a-zμ]", name)
        if camel or dashed:
            turned[name] = snake(name)
    taken = {}
    for name, new in sorted(turned.items(), key=lambda it: "-" in it[0]):
        if "-" not in name and new in names:
            turned[new] = new + "_lem"
        elif new in taken or new in names:
            turned[name] = new = new + "_lem"
        if new in taken:
            sys.exit(f"{name} and {taken[new]} fall together as {new}")
        taken[new] = name
    return turned


def turn(text, turned, mark):
    """The text with the names turned, outside comments, and in them between backquotes."""
    word = re.compile(rf"(?<![{LETTER}])(?:{'|'.join(re.escape(n) for n in sorted(turned, key=len, reverse=True))})(?![{LETTER}])")
    lemma = re.compile(r"[a-z_]+$")

    def one(m):
        name, before = m.group(0), m.string[: m.start()][-1:]
        # a lemma that makes room for a definition: no step of a proof, and no function of src/, is called so
        return name if lemma.match(name) and (mark != "-- " or before == ".") else turned[name]

    def names(part):
        return word.sub(one, part)

    def quoted(part):
        return re.sub(r"`[^`\n]*`", lambda m: names(m.group(0)), part)

    lines = []
    for line in text.split("\n"):
        if mark is None:
            lines.append(quoted(line))
            continue
        at = line.find(mark)
        lines.append(names(line) if at < 0 else names(line[:at]) + quoted(line[at:]))
    return "\n".join(lines)


def main():
    root = "."
    turned = renamings(declared(root))
    said = []
    for path in files(root, (".antt", ".rt", ".edit", ".md")):
        if "/docs/landings/" in path or path.endswith("CHANGELOG.md"):
            continue
        mark = None if path.endswith(".md") else "-- " if path.endswith(".antt") else "// " if path.endswith(".rt") else "# "
        with open(path, encoding="utf-8") as f:
            old = f.read()
        new = turn(old, turned, mark)
        if new != old:
            with open(path, "w", encoding="utf-8") as f:
                f.write(new)
            said.append(path)
    for name, new in sorted(turned.items()):
        print(f"{name} {new}")
    print(f"{len(turned)} names in {len(said)} files", file=sys.stderr)


main()
