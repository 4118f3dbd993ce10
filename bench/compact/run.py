#!/usr/bin/env python3
"""Times `nexus compact` beside `nexus recover` on the same texts of 262,144 entries: one of which 1,000 still matter, and one of which all
do. `recover` reads and prints a policy too, so what `compact` takes beyond it is the compacting. What reading alone takes is seen from
`nexus export` of a name that nobody has.

    bench/compact/run.py PROGRAM [RUNS]

prints for each the medians in seconds, what `compact` takes more than `recover`, and the ratio of its greatest memory to that of reading.
At most 3 seconds more, and a ratio of 1.2, are aimed at.
"""
from __future__ import annotations

import os
import statistics
import subprocess
import sys
import tempfile
import time

PRINCIPALS, EACH = 64, 4096


def head() -> list[str]:
    return ["nexus 2", *(f"principal p{number} secret_{number}" for number in range(PRINCIPALS))]


def text(lines: list[str]) -> bytes:
    return "\n".join([*head(), *lines, "end", ""]).encode()


def all_matter() -> bytes:
    """Each principal says 4,096 labels and keeps them."""
    return text([f"1 p{principal} say p{principal} : built(image_{turn}, {principal})" for turn in range(EACH) for principal in range(PRINCIPALS)])


def few_matter() -> bytes:
    """Labels are said and deleted, but for 500, which are said and transferred."""
    lines: list[str] = []
    kept = 0
    for turn in range(EACH // 2):
        for principal in range(PRINCIPALS):
            lines.append(f"1 p{principal} say p{principal} : built(image_{turn}, {principal})")
            if turn < 16 and kept < 500:
                kept += 1
                lines.append(f"1 p{principal} transfer {len(lines)} p{principal}")
            else:
                lines.append(f"1 p{principal} delete {len(lines)}")
    return text(lines)


# The words of each command, and the status with which it ends.
COMMANDS = {"read": (["export", "nobody"], 1), "recover": (["recover"], 0), "compact": (["compact"], 0)}


def run(program: str, command: str, file: str) -> tuple[float, int]:
    """The seconds and the kilobytes of a run."""
    words, wanted = COMMANDS[command]
    with open(file, "rb") as given, open(os.devnull, "wb") as output:
        began = time.monotonic()
        process = subprocess.Popen([program, *words], stdin=given, stdout=output, stderr=output)
        _, status, used = os.wait4(process.pid, 0)
        process.returncode = os.waitstatus_to_exitcode(status)
        took = time.monotonic() - began
    if process.returncode != wanted:
        raise SystemExit(f"{words} ended with {process.returncode}")
    return took, used.ru_maxrss


def main() -> None:
    program, runs = sys.argv[1], int(sys.argv[2]) if len(sys.argv) > 2 else 5
    for name, policy in [("1,000 of 262,144 entries matter", few_matter()), ("all of 262,144 entries matter", all_matter())]:
        with tempfile.NamedTemporaryFile() as file:
            file.write(policy)
            file.flush()
            taken = {command: [run(program, command, file.name) for _ in range(runs)] for command in COMMANDS}
        seconds = {command: statistics.median(took for took, _ in them) for command, them in taken.items()}
        memory = {command: max(held for _, held in them) for command, them in taken.items()}
        print(
            f"{name}: read {seconds['read']:.2f} s, recover {seconds['recover']:.2f} s, compact {seconds['compact']:.2f} s,"
            f" {seconds['compact'] - seconds['recover']:+.2f} s; memory {memory['compact'] / memory['read']:.2f}"
        )


if __name__ == "__main__":
    main()
