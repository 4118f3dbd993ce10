#!/usr/bin/env python3
"""Checks the documents: that each link and each quoted path leads to a file, that the README has at most 150 lines and what is
guaranteed at most 300, that the README of a crate begins with the head of the crate's root, that each decision is dated, and that
prose has at most 120 columns.

    docs/check.py      prints what is wrong, and then ends with 1
    docs/check.py --heads
                       writes the heads of the crates' READMEs anew
"""

import re
import subprocess
import sys
import textwrap
from pathlib import Path

ROOT = Path(__file__).resolve().parents[1]
# The most lines of some documents.
MOST_LINES = {"README.md": 150, "docs/GUARANTEES.md": 300}
# A quoted path begins with one of these. What stands for a name is in capitals, or has a sign of a pattern.
TOPS = ("bench/", "clients/", "crates/", "docs/", "examples/", "man/", "release/", "tools/", ".ci/")


def documents():
    listed = subprocess.run(["git", "ls-files", "--cached", "--others", "--exclude-standard", "*.md"], cwd=ROOT, capture_output=True, text=True)
    return sorted({it for it in listed.stdout.split() if "/bench/" not in it and (ROOT / it).is_file()})


def paths_of(text, folder):
    """Returns each path that the text links to or quotes, and where it leads."""
    for target in re.findall(r"\]\(([^)#\s]+)[^)]*\)", text):
        if "://" not in target:
            yield target, folder / target
    for quoted in re.findall(r"`([^`\s]+)`", text):
        if quoted.startswith(TOPS) and not re.search(r"[*{}<>$]|\.\.|/out\b|[A-Z]{4}", quoted.removesuffix(".md")):
            yield quoted, ROOT / quoted


def wrong_of(name):
    """Says what is wrong with a document."""
    text = (ROOT / name).read_text()
    for path, leads_to in paths_of(text, (ROOT / name).parent):
        if not leads_to.exists():
            yield f"{name}: there is no {path}"
    if text.count("\n") > MOST_LINES.get(name, sys.maxsize):
        yield f"{name} has more than {MOST_LINES[name]} lines"
    if name == "docs/DECISIONS.md":
        for lead in re.findall(r"^\*\*[^*]+\*\*(?! \*\d{4}-\d\d-\d\d\.\*)", text, re.MULTILINE):
            yield f"{name}: no day stands behind {lead}"
    for number, line in enumerate(text.splitlines(), 1):
        if len(line) > 120 and not line.startswith(("|", "    ")):
            yield f"{name}:{number}: more than 120 columns"


def head_of(crate):
    """Returns the head of a crate's README: its name, and what the root of its code begins with."""
    root = next(file for file in (crate / "src" / "lib.rt", crate / "src" / "main.rt") if file.exists())
    comment = re.match(r"(//![^\n]*\n)*", root.read_text())[0]
    paragraphs = re.sub(r"^//! ?", "", comment, flags=re.MULTILINE).strip().split("\n\n")
    return f"# {crate.name}\n\n" + "\n\n".join(textwrap.fill(it, 120, break_long_words=False, break_on_hyphens=False) for it in paragraphs)


def crates():
    """Returns the folders of the crates that are no tests: each has a README."""
    return sorted(it for it in (ROOT / "crates").iterdir() if it.is_dir() and not it.name.endswith("_rows"))


def heads_wrong():
    """Says which crates have no README, or one with another head."""
    for crate in crates():
        file = crate / "README.md"
        if not file.exists() or not file.read_text().startswith(head_of(crate) + "\n\n## "):
            yield f"{file.relative_to(ROOT)} does not begin with the head of the crate"


def write_heads():
    """Writes each head anew, and leaves what stands behind it."""
    for crate in crates():
        file = crate / "README.md"
        if file.exists():
            file.write_text(head_of(crate) + "\n\n## " + file.read_text().split("\n## ", 1)[1])


def main():
    if "--heads" in sys.argv[1:]:
        write_heads()
    wrong = [*heads_wrong(), *(it for name in documents() for it in wrong_of(name))]
    print("".join(f"{it}\n" for it in wrong), end="")
    return 1 if wrong else 0


if __name__ == "__main__":
    sys.exit(main())
