#!/usr/bin/env python3
"""Draws a proof: each line as a box, each reference as an arrow, and the line that is at fault red.

    clients/python/proof_picture.py [--answer LINE] [--dot] < TEXT > PICTURE.svg

TEXT is one of these:

- the text of a proof (docs/FORMATS.md, "Proof text"), on one line as `nexus prove` prints it, or on many;
- the input of `nexus check`, of which the proof is drawn;
- an explanation of a call: a line `allowed AT`, `denied AT ..` or `refused AT NAME`, lines of the object, the goal and the proof's entry,
  and the lines of the proof, each with what was found of it behind ` ; `: its fault, `held N M`, `missing`, or how its question was answered.

LINE is what `nexus check` or a service answered to the proof, as `denied Line 3 WrongShape` or `denied 4 LabelMissing 2`.

An arrow goes from a line to those that stand on it; where these have several references, it has the place of this one. It is dashed where
the line is a hypothesis that the other takes away. A label's box tells who said it, and a question's who is asked. The last line, which shows the goal, has a thick border. The SVG is made by `dot` of
Graphviz; with `--dot` what it is given is written instead. What is no such text ends it with 2, and a word on standard error.
"""
from __future__ import annotations

import argparse
import re
import subprocess
import sys
import textwrap
from dataclasses import dataclass
from html import escape
from pathlib import Path
from typing import Optional

sys.path.insert(0, str(Path(__file__).resolve().parent))

from nexus_client import CAUSES, FAULTS

__all__ = ["Line", "Picture", "dot_of", "read_text"]

# A formula is broken into rows of about so many characters.
WIDTH = 38
# Which references of a rule are hypotheses that it takes away, counted from 0.
TAKEN_AWAY = {"imp_i": (0,), "or_e": (1, 3), "exists_e": (1,)}
# A statement and who makes it; and the form of a proof's line.
STATEMENT = re.compile(r"(?P<who>(?:\"[^\"]*\"|\??[A-Za-z0-9_]+)(?:[ \t]*\.[ \t]*[A-Za-z0-9_]+)*)[ \t]+says\b[ \t]*(?P<what>.+)", re.DOTALL)
LINE = re.compile(
    r"(?P<number>[0-9]+)[ \t]+(?P<rule>[a-z_]+)(?P<references>(?:[ \t]+[0-9]+)*)"
    r"[ \t]*(?:\[(?P<term>(?:\"[^\"]*\"|[^\]\"])*)\])?[ \t]*:[ \t]*(?P<formula>.+)",
    re.DOTALL,
)


@dataclass
class Line:
    """A line of a proof, and what was found of it: a word or two, and whether that is why the proof shows nothing."""

    number: int
    rule: str
    references: tuple[int, ...]
    term: Optional[str]
    formula: str
    found: str = ""
    is_wrong: bool = False
    is_asked: bool = True


@dataclass
class Picture:
    """The lines of a proof, and what stands above them."""

    lines: list[Line]
    heading: str = ""


# Reading


def line_of(text: str) -> Line:
    """The line of a proof. A `ValueError` where it is none."""
    found = LINE.fullmatch(text)
    if found is None:
        raise ValueError(f"{text[:60]!r} is no line of a proof")
    references = tuple(int(word) for word in found["references"].split())
    return Line(int(found["number"]), found["rule"], references, found["term"], found["formula"].rstrip())


def numbered(lines: list[Line]) -> list[Line]:
    """The lines, which are numbered from 1 without a gap. A `ValueError` where they aren't, and where there are none."""
    if not lines or [line.number for line in lines] != list(range(1, len(lines) + 1)):
        raise ValueError("the lines of a proof are numbered from 1")
    return lines


def read_proof(text: str) -> list[Line]:
    """The lines of a proof's text."""
    header, *segments = [segment.strip(" \t") for segment in re.split(r"[\n;]", text)]
    if segments and segments[-1] == "":
        segments.pop()
    if header not in ("proof 1", "proof 2") or not segments or segments[-1] != "end":
        raise ValueError("a proof begins with `proof 2` and ends with `end`")
    return numbered([line_of(segment) for segment in segments[:-1]])


def read_found(line: Line, found: str) -> None:
    """Takes what an explanation says of a line behind the semicolon."""
    held = re.fullmatch(r"held ([0-9]+) ([0-9]+)", found)
    asked = re.fullmatch(r"([0-9]+) (yes|no|not asked)", found)
    if held:
        line.found = f"entry {held[1]}" + f", handed over by {held[2]}" * (held[1] != held[2])
    elif asked:
        line.found = f"port {asked[1]}: {asked[2]}"
        line.is_wrong, line.is_asked = asked[2] == "no", asked[2] != "not asked"
    elif found in ("missing", "not bound") or found in FAULTS:
        line.found, line.is_wrong = found, True
    else:
        raise ValueError(f"{found[:60]!r} says nothing of a line")


def read_explanation(rows: list[str]) -> Picture:
    """The picture of an explanation. It has no lines where the call came to no proof."""
    heading = [row for row in rows if re.match(r"(allowed|denied|refused|object|goal) ", row)]
    lines: list[Line] = []
    for row in rows[len(heading) :]:
        if re.fullmatch(r"proof ([0-9]+|-)", row) and not lines:
            heading.append(row)
            continue
        text, sign, found = row.partition(" ; ")
        lines.append(line_of(text))
        if sign:
            read_found(lines[-1], found)
    return Picture(numbered(lines) if lines else [], "\n".join(heading))


def read_text(text: str) -> Picture:
    """The picture of a text of one of the three kinds. A `ValueError` where it is none of them."""
    rows = text.removesuffix("\n").split("\n")
    if re.match(r"(allowed|denied|refused) [0-9]+\b", rows[0]):
        return read_explanation(rows)
    if rows[0] == "nexus check 1":
        goals = [at for at, row in enumerate(rows) if row.startswith("goal ")]
        if not goals:
            raise ValueError("the input of `check` has a goal")
        return Picture(read_proof("\n".join(rows[goals[0] + 1 :])), rows[goals[0]])
    return Picture(read_proof(text))


def take_answer(picture: Picture, answer: str) -> None:
    """Marks the line that an answer tells. A `ValueError` where it is no answer, or tells a line that isn't there."""
    picture.heading = "\n".join(filter(None, [picture.heading, answer]))
    if re.fullmatch(r"allowed( [0-9]+ [0-9]+ [0-9]+)?|denied ([0-9]+ )?(GoalUnset|NoProof)", answer):
        return
    told = re.fullmatch(r"denied (?:[0-9]+ )?(?:Line (?P<line>[0-9]+) (?P<fault>\w+)|(?P<cause>\w+) (?P<at>[0-9]+))|down [0-9]+ (?P<down>[0-9]+)", answer)
    if told is None or told["cause"] not in (None, *CAUSES) or told["fault"] not in (None, *FAULTS):
        raise ValueError(f"{answer!r} is no answer to a proof")
    number = int(told["line"] or told["at"] or told["down"])
    if not 1 <= number <= len(picture.lines):
        raise ValueError(f"there is no line {number}")
    line = picture.lines[number - 1]
    line.found, line.is_wrong = told["fault"] or told["cause"] or "no answer", True


# Drawing


def rows_of(text: str) -> list[str]:
    """The rows into which a text is broken, at blanks alone."""
    return textwrap.wrap(text, WIDTH, break_long_words=False, break_on_hyphens=False) or [text]


def box_of(line: Line, is_last: bool) -> str:
    """The node of a line."""
    told = STATEMENT.fullmatch(line.formula) if line.rule in ("label", "ask") else None
    head = f"{line.number} {line.rule}" + f" [{line.term}]" * (line.term is not None)
    rows = [f"<FONT COLOR=\"#555555\">{escape(head)}</FONT>"]
    if told:
        rows.append(f"<B>{escape(told['who'])} {'says' if line.rule == 'label' else 'is asked'}</B>")
    rows += [escape(row) for row in rows_of(told["what"] if told else line.formula)]
    if line.found:
        rows.append(f"<FONT COLOR=\"{'#b00000' if line.is_wrong else '#555555'}\"><B>{escape(line.found)}</B></FONT>")
    fill = {"label": "#e3eefb", "ask": "#fdf3d0", "hyp": "#f0f0f0"}.get(line.rule, "white")
    styles = ["filled", "rounded"] + ["dashed"] * (line.rule == "hyp" or not line.is_asked)
    drawn = f'fillcolor="{"#fbdcdc" if line.is_wrong else fill}", color="{"#b00000" if line.is_wrong else "#333333"}", style="{",".join(styles)}"'
    return f"    line{line.number} [label=<{'<BR/>'.join(rows)}>, {drawn}, penwidth={2.5 if is_last or line.is_wrong else 1}];"


def arrows_of(line: Line, count: int) -> list[str]:
    """The edges to a line, one for each line that it refers to, and what stands in the place of one that there is not."""
    taken_away = TAKEN_AWAY.get(line.rule, ())
    arrows = []
    for number in dict.fromkeys(line.references):
        places = [at for at, reference in enumerate(line.references) if reference == number]
        told = f'label="{",".join(str(at + 1) for at in places)}"' if len(line.references) > 1 else 'label=""'
        style = ', style="dashed"' if all(at in taken_away for at in places) else ""
        source = f"line{number}"
        if not 1 <= number <= count:
            source = f"none{line.number}_{number}"
            arrows.append(f'    {source} [label="{number}", shape="plaintext", fontcolor="#b00000"];')
        arrows.append(f"    {source} -> line{line.number} [{told}{style}];")
    return arrows


def dot_of(picture: Picture) -> str:
    """The graph, in the language of Graphviz."""
    heading = "<BR ALIGN=\"LEFT\"/>".join(escape(row) for row in picture.heading.splitlines())
    rows = [
        "digraph proof {",
        '    graph [fontname="monospace", fontsize=12, labelloc="t", labeljust="l", ranksep=0.35, nodesep=0.3, bgcolor="white"];',
        '    node [fontname="monospace", fontsize=11, shape="box", margin="0.15,0.08"];',
        '    edge [fontname="monospace", fontsize=9, fontcolor="#555555", arrowsize=0.7, color="#333333"];',
        *([f"    label=<{heading}<BR ALIGN=\"LEFT\"/>>;"] if heading else []),
        *[box_of(line, line.number == len(picture.lines)) for line in picture.lines],
        *[arrow for line in picture.lines for arrow in arrows_of(line, len(picture.lines))],
        "}",
    ]
    return "\n".join(rows) + "\n"


def main() -> int:
    parser = argparse.ArgumentParser(description="Draws a proof as an SVG, by Graphviz.")
    parser.add_argument("--answer", metavar="LINE", help="what was answered to the proof, as `denied Line 3 WrongShape`")
    parser.add_argument("--dot", action="store_true", help="write what Graphviz is given")
    given = parser.parse_args()
    try:
        picture = read_text(sys.stdin.buffer.read().decode("ascii"))
        if given.answer is not None:
            take_answer(picture, given.answer)
    except ValueError as error:
        print(f"proof_picture: {error}", file=sys.stderr)
        return 2
    graph = dot_of(picture)
    if given.dot:
        print(graph, end="")
        return 0
    try:
        return subprocess.run(["dot", "-Tsvg"], input=graph.encode()).returncode
    except FileNotFoundError:
        print("proof_picture: there is no `dot`; Debian's package is graphviz", file=sys.stderr)
        return 1


if __name__ == "__main__":
    sys.exit(main())
