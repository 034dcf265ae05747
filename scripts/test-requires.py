#!/usr/bin/env python3
"""No public operation asks anything of its caller: every `pub` function of a library with a `requires` is one that docs/ARCHITECTURE.md names.

The list is the first column of the table under 'Functions that ask something of their caller', each name with its crate, as `write::Writer::byte`. Run
at the root of the repository. Exit status 1 where a function asks and is not named, or is named and does not ask."""
import re
import sys
from pathlib import Path

HEADING = "## Functions that ask something of their caller"
FUNCTION = re.compile(r"^ *pub (?:extern \"C\" )?fn (\w+)")


def asking(source):
    """the public functions of a file that have a `requires`: what stands between `pub fn` and the body's brace"""
    name, found = None, []
    for line in source.read_text().splitlines():
        begins = FUNCTION.match(line)
        if begins:
            name = begins[1]
        if name and re.match(r" *requires\b", line):
            found.append(name)
        if name and (line.strip() == "{" or line.rstrip().endswith(" {")):
            name = None
    return found


def named(text):
    """(crate, function) of every name in the first column of the table"""
    section = text.split(HEADING, 1)[1].split("\n## ", 1)[0]
    for row in re.findall(r"^\| (`.*?) \|", section, re.M):
        for name in re.findall(r"`([\w:]+)`", row):
            parts = name.split("::")
            yield parts[0], parts[-1]


libraries = [root.parent for root in sorted(Path("crates").glob("*/src/lib.rt"))]
asks = {(source.parts[1], name) for source in libraries for path in source.glob("**/*.rt") for name in asking(path)}
names = set(named(Path("docs/ARCHITECTURE.md").read_text()))
for crate, name in sorted(asks - names):
    print(f"FAILED {crate}::{name} is public and has a `requires`, and docs/ARCHITECTURE.md does not name it")
for crate, name in sorted(names - asks):
    print(f"FAILED docs/ARCHITECTURE.md names {crate}::{name}, which is not public or has no `requires`")
if asks != names:
    sys.exit(1)
print(f"contracts: {len(asks)} public functions have a `requires`, and all of them are named")
