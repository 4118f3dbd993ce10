#!/usr/bin/env python3
"""Runs `rt` on one crate in a folder of its own, over libraries that were built in another copy of this repository.

    tools/lane.py TREE CRATE [VERB [ARGUMENT ..]]

`rt` keeps other calls of it out of a crate and of all crates below, so a second one waits; in lanes several crates are worked on at once,
each over the same libraries. TREE is a copy in which `tools/build.py` has built the crates below. VERB is check, where none is given, or
another one of `rt`. The lane is kept, so the next call proves only what changed. `fmt`, `tidy` and `check --fix-imports` write the crate's
files back; `lib` puts its library and its files into TREE, for the crates above. The status is that of `rt`.
"""

from __future__ import annotations

import os
import shutil
import subprocess
import sys
import tempfile
from pathlib import Path

from build import PARTS, ROOT, read_crates

OWN = (*PARTS, "must-fail")


def link(source: Path, to: Path) -> None:
    """Copies a file by a link to it, or as it is where there are no such links."""
    try:
        os.link(source, to)
    except OSError:
        shutil.copy2(source, to)


def follow(source: Path, to: Path, linked: bool = False) -> None:
    """Makes a folder hold the files of another one, and leaves alone those that it has already."""
    wanted = {it.relative_to(source) for it in source.rglob("*") if it.is_file()}
    for it in list(to.rglob("*")):
        if it.is_file() and it.relative_to(to) not in wanted:
            it.unlink()
    for name in wanted:
        old, new = to / name, source / name
        if old.exists():
            if os.path.samefile(old, new) or not linked and old.read_bytes() == new.read_bytes():
                continue
            old.unlink()
        old.parent.mkdir(parents=True, exist_ok=True)
        if linked:
            link(new, old)
        else:
            shutil.copy2(new, old)


def follow_parts(source: Path, to: Path, parts: tuple[str, ...]) -> None:
    """The same for some folders of a crate."""
    for part in parts:
        if (source / part).is_dir():
            follow(source / part, to / part)
        elif (to / part).is_dir():
            shutil.rmtree(to / part)


def main() -> int:
    if len(sys.argv) < 3:
        print(__doc__)
        return 2
    tree, name, *words = Path(sys.argv[1]).resolve(), *sys.argv[2:]
    verb, arguments = (words[0], words[1:]) if words else ("check", [])
    crates = read_crates([name])
    lane = Path(tempfile.gettempdir()) / "nexus-lanes" / tree.name / name
    (lane / "crates").mkdir(parents=True, exist_ok=True)
    (lane / "crates.txt").write_text("".join(f"{crates[it].line}\n" for it in sorted(crates)))
    shutil.copy(ROOT / "HANDLES", lane)
    for it in sorted(crates[name].below):
        follow_parts(tree / "crates" / it, lane / "crates" / it, PARTS)
        follow(tree / "crates" / it / "out/rlib", lane / "crates" / it / "out/rlib", linked=True)
    here = lane / "crates" / name
    follow_parts(crates[name].folder, here, OWN)
    # `rt must-fail` is called at the top.
    call = ["rt", verb, name, *arguments] if verb == "must-fail" else ["rt", verb, *arguments]
    status = subprocess.run(call, cwd=lane if verb == "must-fail" else here).returncode
    if verb in ("fmt", "tidy") or "--fix-imports" in arguments:
        follow_parts(here, crates[name].folder, OWN)
    if verb == "lib" and status == 0:
        follow_parts(here, tree / "crates" / name, OWN)
        follow(here / "out/rlib", tree / "crates" / name / "out/rlib")
    return status


if __name__ == "__main__":
    sys.exit(main())
