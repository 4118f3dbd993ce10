#!/usr/bin/env python3
"""Writes the inputs that measure.sh runs `nexus check` on into the folder that is named."""
import pathlib
import sys

folder = pathlib.Path(sys.argv[1])


def long_statement(speaker, number):
    """A statement whose text has about a kilobyte, told apart from the others by its last argument alone."""
    filler = ", ".join('"' + "x" * 136 + '"' for _ in range(7))
    return f"{speaker} says p({filler}, {number})"


def many_parts(speaker, number):
    """A statement of about a kilobyte and two hundred parts, told apart from the others by its leftmost part alone."""
    return f"{speaker} says (a{number}" + " or p" * 196 + ")"


def check_form(labels, yes, statement):
    """A proof of 256 lines and close to 32,768 bytes: 239 label lines, 16 ask lines, and their conclusion."""
    held = 'fs says ok("' + "y" * 93 + '")'
    asked = 'ntp says ok("' + "y" * 94 + '")'
    lines = ["nexus check 1", "subject fs"]
    lines += [f"label {statement('fs', k)}" for k in range(labels - 1)] + [f"label {held}"]
    lines += [f"yes {statement('ntp', k)}" for k in range(yes - 1)] + [f"yes {asked}"]
    lines += [f"goal {held}", "proof 2"]
    for k in range(1, 257):
        lines.append(f"{k} ask : {asked}" if k <= 16 else f"{k} label : {held}")
    lines.append("end")
    return "\n".join(lines) + "\n"


(folder / "policy").write_text(check_form(4096, 4096, long_statement))
(folder / "parts").write_text(check_form(4096, 4096, many_parts))
(folder / "proof").write_text(check_form(1, 1, long_statement))
most = 64 * 1024 * 1024
(folder / "one-line").write_bytes(b"nexus check 1\nsubject fs\nlabel " + b"(" * (most - 31))
(folder / "line-feeds").write_bytes(b"nexus check 1\nsubject fs\n" + b"\n" * (most - 25))
(folder / "semicolons").write_bytes(b"nexus check 1\nsubject fs\ngoal p\nproof 2\n" + b";" * (most - 40))
