#!/usr/bin/env python3
"""The reading order is closed: whoever reads the claims and what must be believed never needs a definition that is not marked.

The first line of a file of definitions, claims or laws marks it. TO BELIEVE: its definitions must be believed. CLAIM or CLAIMS: its statements are proved of them.
BY CONTRACT: what a function's contract is an equation with, of which a claim says what it is; it is named and need not be believed. Any other file is
on the way. A part of a file under a heading `-- ---- working` or `-- ---- by contract` counts as that, up to the next heading.

Of a believed file every name counts, of a file of claims the names in types: what is `pub`, up to its first equation, with the parameters of the
modules around it, and every `pub` record, data and abbrev. Names in proofs do not count, nor does what the code declares, nor the kit's.

Run at the root of the repository. Exit status 1 where a name stands in a place that is not marked, where a name by contract is in no contract,
where a marked file is not in the reading order of docs/ARCHITECTURE.md or the other way round, or where that page quotes other numbers."""
import re
import sys
from pathlib import Path

MAP = Path("docs/ARCHITECTURE.md")
TOKEN = re.compile(r"[^\s(){},;.«»]+")
USE = re.compile(r"^use (Rattle\.\S+?)(?:\.\{(.*)\})?(?: as (\S+))?$")
DEFINES = re.compile(r"^(?:(?:abbrev|unfoldable) )?pub (?:(?:data|record) )?(\S+)")
MEMBER = re.compile(r"^\s+(?:pub )?([^\s:()]+(?: [^\s:()]+)*) : ")
PARTS = {"working": "working", "by contract": "contract"}


def file_of(module):
    """the file of `Rattle.table.specs.Table` or `Rattle.table.proofs.TableLaws`; None for the kit's and for what the code declares"""
    parts = module.split(".")
    if parts[1] == "std" or "declared" in parts or "contracts" in parts:
        return None
    return Path("crates") / parts[1] / parts[2] / ("/".join(parts[3:]) + ".antt")


class File:
    def __init__(self, path):
        self.path = path
        self.lines = path.read_text().splitlines()
        first = self.lines[0] if self.lines else ""
        marks = {"-- TO BELIEVE:": "believe", "-- CLAIM": "claim", "-- BY CONTRACT:": "contract"}
        self.mark = next((kind for begin, kind in marks.items() if first.startswith(begin)), "working")
        self.kinds, self.places = [], {}
        self.names, self.aliases = {}, {}
        kind = self.mark
        for line in self.lines:
            heading = re.match(r" *-- ---- (.*)", line)
            if heading:
                kind = next((k for word, k in PARTS.items() if heading[1].startswith(word)), self.mark)
            self.kinds.append(kind)
            body = line.split("--")[0].strip()
            defined = DEFINES.match(body)
            if defined:
                self.places[defined[1]] = kind
            member = MEMBER.match(line.split("--")[0])
            for name in member[1].split() if member else []:
                self.places.setdefault(name, kind)
            self.imports(line)

    def imports(self, line):
        use = USE.match(line)
        target = file_of(use[1]) if use else None
        if target is None:
            return
        if use[2] is None:
            self.aliases[use[3] or use[1].split(".")[-1]] = target
            return
        for name in use[2].split(","):
            own, _, other = name.strip().partition(" as ")
            self.names[other or own] = (own, target)

    def counted(self):
        """the lines that count, with their numbers"""
        lines = [(i, line.split("--")[0].rstrip()) for i, line in enumerate(self.lines)]
        if self.mark == "believe":
            return [(i, text) for i, text in lines if self.kinds[i] == "believe" and not text.startswith("use ")]
        if self.mark == "claim":
            return list(self.types(lines))
        return []

    def types(self, lines):
        heads, state, name = [], "", ""
        for i, text in lines:
            body = text.strip()
            depth = len(text) - len(text.lstrip())
            if not body:
                state = state if self.lines[i].strip() else ""
                continue
            if body.startswith("use "):
                continue
            if state != "head":
                heads = [h for h in heads if h[0] < depth]
            if re.match(r"pub (record|data)\b|(abbrev|unfoldable) pub\b", body):
                state = "all"
            elif body.startswith("module _"):
                state = "head"
                heads.append((depth, []))
            elif re.match(r"pub \S+ :", body) and state != "all":
                state, name = "type", body.split()[1]
                for h in heads:
                    yield from h[1]
            elif state == "type" and body.split()[0] in (name, "unfolding"):
                state = ""
            if state == "head":
                heads[-1][1].append((i, text))
            elif state:
                yield i, text
            if state == "head" and body.endswith("where"):
                state = ""

    def used(self, text):
        """the imported names of a line, each with the file that it is of"""
        for token in TOKEN.findall(text):
            if token in self.names:
                yield self.names[token]
        for alias, name in re.findall(r"([^\s(){},;.]+)\.([^\s(){},;.]+)", text):
            if alias in self.aliases:
                yield name, self.aliases[alias]


def reading_order():
    """the files that the map lists in its reading order, and what it says of their number"""
    section = MAP.read_text().split("## Reading order", 1)[1].split("\n## ", 1)[0]
    listed, crate = set(), None
    for token in re.findall(r"`([^`\s]+)`", section):
        whole = re.fullmatch(r"crates/(\w+)/(?:specs|proofs)(?:/(\w+)\.antt)?", token)
        if whole and whole[2]:
            listed.add(Path(token))
        elif whole:
            crate = whole[1]
        elif crate:
            # laws and claims that rest on a definition which an edit changes stand in proofs/
            listed.update(path for part in ("specs", "proofs") if (path := Path("crates") / crate / part / f"{token}.antt").exists())
    return listed, " ".join(section.split())


files = {path: File(path) for part in ("specs/**", "proofs") for path in sorted(Path("crates").glob(f"*/{part}/*.antt"))}
failed = False


def fail(text):
    global failed
    failed = True
    print(f"FAILED {text}")


# every name that counts stands in a place that is marked
loose, by_contract = {}, {}
for path, file in files.items():
    for i, text in file.counted():
        for name, target in file.used(text):
            if target not in files:
                continue
            kind = files[target].places.get(name, files[target].mark)
            if kind == "working":
                loose.setdefault((target, name), []).append(f"{path}:{i + 1}")
            elif kind == "contract":
                by_contract[(target, name)] = f"{path}:{i + 1}"
for (target, name), places in sorted(loose.items()):
    fail(f"{name} of {target}, which is not marked there: {', '.join(places[:3])}{' ..' if len(places) > 3 else ''}")

# a name by contract is in a contract, or in a definition by contract
contracts = set()
for path in Path("crates").glob("*/src/**/*.rt"):
    contracts.update(TOKEN.findall(path.read_text()))
for file in files.values():
    for i, line in enumerate(file.lines):
        if file.kinds[i] == "contract" and not line.startswith("use "):
            body = line.split("--")[0]
            own = DEFINES.match(body.strip())
            contracts.update(t for t in TOKEN.findall(body.split(" = ", 1)[-1] if " = " in body else body) if not (own and t == own[1]))
for (target, name), place in sorted(by_contract.items()):
    if name not in contracts:
        fail(f"{name} of {target} is marked as by contract, and no contract names it: {place}")

# the marked files are those of the reading order
listed, section = reading_order()
marked = {path for path, file in files.items() if file.mark in ("believe", "claim")}
for path in sorted(marked - listed):
    fail(f"{path} is marked and is not in the reading order")
for path in sorted(listed - marked):
    fail(f"{path} is in the reading order and is not marked")


def lines_of(kind):
    """the lines of all files of this mark, but for imports, empty ones and parts that are on the way"""
    return sum(1 for f in files.values() if f.mark == kind for k, line in zip(f.kinds, f.lines) if k == kind and line.strip() and not line.startswith("use "))


numbers = [
    f"{sum(f.mark == 'believe' for f in files.values())} files with {lines_of('believe'):,} lines to believe",
    f"{sum(f.mark == 'claim' for f in files.values())} files with {lines_of('claim'):,} lines of claims",
]
for number in numbers:
    if number not in section:
        fail(f"the reading order does not say '{number}'")
print("reading: " + ", ".join(numbers))
sys.exit(1 if failed else 0)
