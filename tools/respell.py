#!/usr/bin/env python3
"""Respells this repository's own definitions, lemmas and fields in snake case, and the must-fail edits as the sources now stand.

usage: python3 tools/respell.py            at the top of the repository, once, right after the kit's port.py

A name is this repository's own where a file of specs/ or proofs/ declares it. A dash or a capital inside it becomes an underscore. Names that
Rattle makes (the goals of a Proof.antt), names of the library, types, modules, functions of src/, exported names, strings, inputs and outputs
stay as they are.
"""

import collections
import os
import re

TOKEN = re.compile(r"[^\s(){}\[\];,.«»\"`]+")
SIGNATURE = re.compile(r"^\s*(?:(?:abbrev|unfoldable|pub|pattern) )*([a-z_«][^\s:(){}\[\];,]*) : ")
CASES = re.compile(r"(?<=[a-z0-9])(?=[A-Z])")


def snake(name):
    words = CASES.sub("_", name).replace("-", "_")
    return "_".join(w.lower() if re.fullmatch(r"[A-Z][a-z0-9]*", w) else w for w in words.split("_"))


def names_of(ours):
    """Each name of ours that changes, with its new spelling. Of names that fall together a definition keeps the plain one, and a lemma gets `_lem`."""
    back = collections.defaultdict(set)
    for n in ours:
        back[snake(n)].add(n)
    names = {}
    for new, olds in sorted(back.items()):
        first = min(olds, key=lambda n: (not CASES.search(n), "-" in n, n))
        for n in sorted(olds):
            to = new if n == first else f"{new}_lem"
            if n != first:
                print(f"look: {n} falls together with {first}, and is {to}")
            if to != n:
                names[n] = to
    return names


def files(ends):
    for folder, dirs, names in os.walk("crates"):
        dirs[:] = sorted(d for d in dirs if d != "out")
        for name in sorted(names):
            if name.endswith(ends):
                yield os.path.join(folder, name)


def text_of(path):
    with open(path, encoding="utf-8") as f:
        return f.read()


def code_of(line):
    """The line without its comment."""
    at = line.find("--")
    while at >= 0:
        if (at == 0 or line[at - 1] in " \t") and (at + 2 == len(line) or line[at + 2] in " \t\n-"):
            return line[:at]
        at = line.find("--", at + 1)
    return line


def declared(text):
    found, made = set(), set()
    for line in text.split("\n"):
        m = SIGNATURE.match(code_of(line))
        if m:
            (made if " : tie." in line else found).add(m[1].strip("«»"))
    return found - made, made


def brought(text):
    """The names that the file takes from the library: those of its `use` lines into no crate of ours."""
    found = set()
    for m in re.finditer(r"^\s*(?:pub |ghost )?use ([\w'+-]+)((?:\.[^\s.{;]+)*)\.\{([^}]*)\}", text, re.M):
        crate = m[2].split(".")[1] if m[1] == "Rattle" and m[2] else ""
        if m[1] == "Rattle" and os.path.isdir(f"crates/{crate}"):
            continue
        for item in m[3].split(","):
            found.add(item.split(" as ")[-1].strip())
    return found


def turn(text, names, keep):
    def other(m):
        word = m[0]
        return names[word] if word in names and word not in keep else word

    return TOKEN.sub(other, text)


def turn_source(text, names):
    """A file of src/: all but what stands in quotes."""
    parts = re.split(r'(b?"(?:[^"\\]|\\.)*")', text)
    return "".join(p if i % 2 else turn(p, names, set()) for i, p in enumerate(parts))


def main():
    texts = {p: text_of(p) for p in files(".antt")}
    ours, made = set(), {}
    for path, text in texts.items():
        found, its = declared(text)
        ours |= found
        made[path] = its
    names = names_of(ours)
    back = {new: old for old, new in names.items()}
    for path, text in texts.items():
        for n in sorted(brought(text) & set(back)):
            if back[n] in TOKEN.findall(text):
                print(f"look: {path}: {n} is a name of the library too, and was {back[n]}")
    for path, text in texts.items():
        keep = brought(text) | made[path]
        new = "\n".join(turn(code_of(l), names, keep) + turn(l[len(code_of(l)) :], names, set()) for l in text.split("\n"))
        if new != text:
            with open(path, "w", encoding="utf-8") as f:
                f.write(new)
    for path in files(".rt"):
        text = text_of(path)
        new = turn_source(text, names)
        if new != text:
            with open(path, "w", encoding="utf-8") as f:
                f.write(new)
    for path in files(".edit"):
        text = text_of(path)
        new = "\n".join(turn_edit(l, names) if l.startswith(("old: ", "new: ")) else l for l in text.split("\n"))
        if new != text:
            with open(path, "w", encoding="utf-8") as f:
                f.write(new)


def turn_edit(line, names):
    head, text = line[:5], line[5:]
    if re.match(r"\s*(pub )?(ghost )?use ", text) or "◌" in text:
        text = re.sub(r"(?<=[{, ])_([^\s,}_]+)_(?=[,}])", r"◌\1◌", text)
        text = re.sub(r"Rattle·(\w+)(·specs\.specs|·proofs\.proofs)?", r"Rattle.\1", text)
    text = re.sub(r"(?<=[\w')\]»}]) \.(?=[a-z«\d])", ".", text)
    return head + turn(text, names, set())


if __name__ == "__main__":
    main()
