#!/usr/bin/env python3
"""How wide contracts are, and how many parameters functions have: no clause is wider than 120 columns, and no function has more than
eight parameters, but for those that tools/clauses.txt lists. The list may only shrink: it has each file with its number of wide lines of
clauses, and each function with its number of parameters, exactly as they are.

    tools/clauses.py            fails where a file or a function is not as the list says
    tools/clauses.py --write    writes the list anew, where no number in it rises and none comes to it
"""

from __future__ import annotations

import re
import sys
from pathlib import Path

TOP = Path(__file__).resolve().parent.parent
LIST = TOP / "tools" / "clauses.txt"
WIDEST = 120
MOST_PARAMETERS = 8
CLAUSE = re.compile(r"(?:requires|ensures)\*?\b[^{]*\{")


def closing(text: str, opening: int) -> int:
    """The place of the bracket that closes the one at `opening`."""
    depth = 0
    for place in range(opening, len(text)):
        if text[place] in "([{":
            depth += 1
        elif text[place] in ")]}":
            depth -= 1
            if depth == 0:
                return place
    raise ValueError("a bracket is not closed")


def wide_lines(text: str) -> int:
    """How many lines of clauses are too wide."""
    lines: set[int] = set()
    for clause in CLAUSE.finditer(text):
        first = text.count("\n", 0, clause.start())
        last = text.count("\n", 0, closing(text, clause.end() - 1))
        lines.update(range(first, last + 1))
    whole = text.split("\n")
    return sum(len(whole[line]) > WIDEST for line in lines)


def parameters(inside: str) -> int:
    """How many parameters stand between the brackets of a function, its receiver left out."""
    depth, parts, part = 0, [], ""
    for letter in inside.replace("->", "  "):
        depth += (letter in "([{<") - (letter in ")]}>")
        if letter == "," and depth == 0:
            parts.append(part)
            part = ""
        else:
            part += letter
    parts.append(part)
    named = [part.strip() for part in parts if part.strip()]
    return sum(re.fullmatch(r"&?\s*('\w+\s+)?(mut\s+)?self", part) is None for part in named)


def found() -> dict[str, int]:
    """Each file with too wide lines, and each function with too many parameters."""
    numbers: dict[str, int] = {}
    for file in sorted(TOP.glob("crates/*/src/**/*.rt")):
        text = re.sub(r"//[^\n]*", lambda comment: " " * len(comment[0]), file.read_text())
        name = str(file.relative_to(TOP))
        if wide := wide_lines(text):
            numbers[name] = wide
        for function in re.finditer(r"\bfn (\w+)\s*(?:<[^(]*>)?\(", text):
            opening = function.end() - 1
            count = parameters(text[opening + 1 : closing(text, opening)])
            if count > MOST_PARAMETERS:
                numbers[f"{name} {function[1]}"] = count
    return numbers


def listed() -> dict[str, int]:
    """The numbers of the list."""
    numbers = {}
    for line in LIST.read_text().splitlines():
        number, name = line.split(" ", 1)
        numbers[name] = int(number)
    return numbers


def main() -> int:
    numbers = found()
    if "--write" in sys.argv[1:]:
        before = listed() if LIST.exists() else numbers
        risen = [name for name, number in numbers.items() if number > before.get(name, 0)]
        for name in risen:
            print(f"{name}: {numbers[name]}, where the list has {before.get(name, 0)}")
        if risen:
            return 1
        LIST.write_text("".join(f"{number} {name}\n" for name, number in numbers.items()))
        return 0
    wanted = listed()
    differ = sorted(name for name in numbers.keys() | wanted.keys() if numbers.get(name) != wanted.get(name))
    for name in differ:
        print(f"{name}: {numbers.get(name, 0)}, where tools/clauses.txt has {wanted.get(name, 0)}")
    return 1 if differ else 0


if __name__ == "__main__":
    sys.exit(main())
