#!/usr/bin/env python3
"""Looks that `crates.txt` is the map of this repository, or prints the table of crates that stands in `docs/ARCHITECTURE.md`.

    tools/map.py [--write]

`crates.txt` has the crates by layers, each under a comment that names it, from the lowest on; crates of tests stand behind them. A crate
uses those of its own layer and of lower ones alone, and its line has those whose names it uses, and no others: what these stand on is
found through them. The table has a row for each crate, in the same order, with those of its line; what a crate holds is written by hand
there. With `--write` the table is written anew. The status is 1 where something of this is not so.
"""

from __future__ import annotations

import re
import sys
from pathlib import Path

ROOT = Path(__file__).resolve().parents[1]
TABLE = ROOT / "docs/ARCHITECTURE.md"
HEAD = "| Crate | What it holds | Uses |\n|---|---|---|\n"
TESTS = "Tests"
PARTS = ("src", "specs", "proofs", "must-fail")
SUFFIXES = (".rt", ".antt", ".edit")


def read_layers() -> list[tuple[str, dict[str, list[str]]]]:
    """Returns the layers in their order: the name of each, and its crates with the names on their lines."""
    layers: list[tuple[str, dict[str, list[str]]]] = []
    for line in (ROOT / "crates.txt").read_text().splitlines():
        if line.startswith("# "):
            layers.append((line[2:], {}))
        elif line:
            head, _, names = line.partition(":")
            layers[-1][1][head.split()[0]] = names.split()
    return layers


def text_of(crate: str) -> str:
    """Returns all sources, proofs and wrong bodies of a crate."""
    folder = ROOT / "crates" / crate
    files = [it for part in PARTS for it in (folder / part).rglob("*") if it.suffix in SUFFIXES]
    return "\n".join(it.read_text() for it in sorted(files))


def uses(text: str, name: str) -> bool:
    """Whether a text names a crate: in a path, or in a name of its specifications and proofs."""
    return re.search(rf"\b{name}::|\buse {name}\b|\bRattle\.{name}\b", text) is not None


def find_faults(layers: list[tuple[str, dict[str, list[str]]]]) -> list[str]:
    """Returns what is wrong with the map."""
    faults = []
    place = {crate: rank for rank, (_, crates) in enumerate(layers) for crate in crates}
    folders = {it.parent.name for it in (ROOT / "crates").glob("*/src")}
    faults += [f"{crate} stands in no layer" for crate in sorted(folders - place.keys())]
    faults += [f"{crate} has no folder" for crate in sorted(place.keys() - folders)]
    for layer, crates in layers:
        for crate, names in crates.items():
            text = text_of(crate)
            for name in names:
                if place.get(name, -1) > place[crate]:
                    faults.append(f"{crate} is below {name}, which it uses")
                if layer != TESTS and name in place and layers[place[name]][0] == TESTS:
                    faults.append(f"{crate} uses {name}, which has tests alone")
                if not uses(text, name):
                    faults.append(f"{crate} has {name} on its line, and does not use it")
            faults += [f"{crate} uses {name}, which is not on its line" for name in place if name not in (crate, *names) and uses(text, name)]
    return faults


def held(table: str) -> dict[str, str]:
    """Returns what each crate holds, by the rows of a table."""
    return dict(re.findall(r"^\| `(\w+)` \| (.*?) \|[^|]*\|$", table, re.MULTILINE))


def print_table(layers: list[tuple[str, dict[str, list[str]]]], holds: dict[str, str]) -> str:
    """Returns the table."""
    rows = []
    for layer, crates in layers:
        rows.append(f"| **{layer}** | | |\n")
        for crate, names in crates.items():
            used = ", ".join(f"`{name}`" for name in names)
            rows.append(f"| `{crate}` | {holds.get(crate, '')} | {used} |\n" if used else f"| `{crate}` | {holds.get(crate, '')} | |\n")
    return HEAD + "".join(rows)


def main() -> int:
    layers = read_layers()
    faults = find_faults(layers)
    document = TABLE.read_text()
    found = re.search(r"^\| Crate \| What it holds \|.*\n(?:\|.*\n)*", document, re.MULTILINE)
    if not found:
        sys.exit("docs/ARCHITECTURE.md has no table of crates")
    holds = held(found.group())
    faults += [f"docs/ARCHITECTURE.md does not say what {crate} holds" for _, crates in layers for crate in crates if not holds.get(crate)]
    table = print_table(layers, holds)
    if "--write" in sys.argv[1:]:
        TABLE.write_text(document[: found.start()] + table + document[found.end() :])
    elif table != found.group():
        faults.append("the table of crates in docs/ARCHITECTURE.md is not that of crates.txt (tools/map.py --write)")
    for fault in faults:
        print(fault)
    return 1 if faults else 0


sys.exit(main())
