#!/usr/bin/env python3
"""Prints where the time of a crate's check went: what it kept is written as it goes, so a long time before a file is what that took.

    bench/gate/slow.py CRATE/out [SECONDS]

prints each file that came SECONDS (10) or more behind the one before. It tells something of a check from nothing alone: one that went on
with what an earlier one had kept leaves files of both.
"""

import sys
from pathlib import Path


def main() -> None:
    folder, least = Path(sys.argv[1]), float(sys.argv[2]) if len(sys.argv) > 2 else 10
    files = sorted((it.stat().st_mtime, it.name, it.stat().st_size) for it in (folder / "incremental").rglob("*") if it.is_file())
    if not files:
        sys.exit(f"{folder} has nothing that a check kept")
    print(f"{files[-1][0] - files[0][0]:.0f} seconds from the first file to the last")
    for (before, _, _), (now, name, size) in zip(files, files[1:]):
        if now - before >= least:
            print(f"{now - before:6.0f} s before {name} ({size >> 10} KB)")


if __name__ == "__main__":
    main()
