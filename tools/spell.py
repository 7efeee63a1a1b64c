#!/usr/bin/env python3
"""Respells this repository's own definitions and lemmas: words in snake case, types in camel case, and ' for ′.

It is run once, at the top, after Rattle's port.py, and changes nothing when it is run again. A name is the repository's own where
specs/ or a file of lemmas in proofs/ declares it; the proof of a function f is f_spec. A name that a file imports from the kit stays in
that file. Turned: .antt files, the clauses of .rt files, must-fail edits, and the code spans of README and docs/."""

import os
import re
import sys

WORD = re.compile(r"[^\s(){}.;,@\"«»:`|]+")
MARKS = r"(?:(?:abbrev|unfoldable|pub|pattern)\s+)*"
KINDS = r"(?:(?:data|record|ruleset)\s+)?"
TOP = re.compile(r"^" + MARKS + KINDS + MARKS + r"([^\s(){}.;,@\"«»:]+)(?=[\s({:])")
INNER = re.compile(r"^\s+(?:pub\s+)?([^\s(){}.;,@\"«»:]+(?:\s+[^\s(){}.;,@\"«»:]+)*)\s+:(?:\s|$)")
USE = re.compile(r"^(?:pub )?use ([^\s{;]+?)(?:\.\{([^}]*)\})?(?: as [^\s;]+)?;?$", re.M)
SPAN = re.compile(r"(\x60+)(?:[^\n]|\n(?!\s*\n))*?\1")
OWN = re.compile(r"^Rattle\.(?:std|core|std_\w+)\.")


def respelled(name):
    name = name.replace("′", "'")
    if "-" not in name.strip("-"):
        return name
    if name[0].isupper():
        return "".join(part[0].upper() + part[1:] for part in name.split("-"))
    return name.replace("-", "_")


def files(top, *endings):
    for root, folders, names in os.walk(top):
        folders[:] = sorted(f for f in folders if f not in (".git", "out") and (f != "target" or "proofs" in root))
        for name in sorted(names):
            if name.endswith(endings):
                yield os.path.join(root, name)


def text_of(path):
    with open(path, encoding="utf-8") as f:
        return f.read()


def code_of(line):
    return re.split(r"(?:(?<=\s)|^)--", line)[0]


def own_names():
    names = set()
    for path in files("crates", ".antt"):
        parts = path.split(os.sep)[2:]
        of_function = parts[0] == "proofs" and len(parts) > 2
        for line in text_of(path).split("\n"):
            line = code_of(line)
            top = TOP.match(line)
            if top and top[1] not in ("use", "mod"):
                if not of_function or top[1].endswith("-spec"):
                    names.add(top[1])
            inner = INNER.match(line)
            if inner and not of_function:
                names.update(inner[1].split())
    return names


def kits_names(text):
    names = set()
    for use in USE.finditer(text):
        if use[2] and (not use[1].startswith("Rattle.") or OWN.match(use[1])):
            names.update(item.split(" as ")[0].strip() for item in use[2].split(","))
    return names


def turned(text, table):
    def one(match):
        word = match[0]
        if word in table:
            return table[word]
        bare = word.rstrip("'!?")
        return table[bare] + word[len(bare):] if bare in table and bare != word else word

    return WORD.sub(one, text)


def antt(text, table):
    lines = []
    for line in text.split("\n"):
        code = code_of(line)
        comment = SPAN.sub(lambda span: turned(span[0], table), line[len(code):])
        lines.append(turned(code, table) + comment)
    return "\n".join(lines)


def rust(text, table):
    def one(match):
        part = match[0]
        if part.startswith("//"):
            return SPAN.sub(lambda span: turned(span[0], table), part)
        return part if part.startswith('"') else turned(part, table)

    return re.sub(r'//[^\n]*|"(?:\\.|[^"\\])*"|(?:(?!//|")[\s\S])+', one, text)


def edit(text, table):
    lines = []
    for line in text.split("\n"):
        if line.startswith(("old:", "new:")):
            line = turned(line, table).replace("Rattle·", "Rattle.").replace(".the-variants.", ".TheVariants.")
            line = re.sub(r"(?<=Prim\.Native\.Nat\.)_(\S+)_", r"◌\1◌", line)
        lines.append(line)
    return "\n".join(lines)


def page(text, table):
    return SPAN.sub(lambda span: turned(span[0], table), text)


def main():
    os.chdir(sys.argv[1] if len(sys.argv) > 1 else ".")
    names = own_names()
    table = {name: respelled(name) for name in names if respelled(name) != name}
    # what port.py itself has respelled in specs/ and proofs/ still stands in edits and pages as it was
    before = {name.replace("_", "-"): name for name in names if "_" in name.strip("_")} | table
    edits = {os.path.basename(p)[: -len(".edit")] for p in files("crates", ".edit")}
    new = {}
    for old, name in sorted(table.items()):
        if new.setdefault(name, old) != old:
            print("fall together:", old, new[name], "as", name)
    count = 0
    for path in files(".", ".antt", ".rt", ".edit", ".md"):
        old = text_of(path)
        stay = kits_names(old) if path.endswith(".antt") else set()
        if path.endswith(".md"):
            stay = edits
        names_here = before if path.endswith((".edit", ".md")) else table
        own = {name: to for name, to in names_here.items() if name not in stay}
        turn = {".antt": antt, ".rt": rust, ".edit": edit, ".md": page}[os.path.splitext(path)[1]]
        text = turn(old, own)
        if text != old:
            count += 1
            with open(path, "w", encoding="utf-8") as f:
                f.write(text)
    print(f"spell: {len(table)} names, {count} files")


main()
