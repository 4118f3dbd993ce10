#!/usr/bin/env python3
"""Runs each command that stands in a document behind `$ `, as a reader would type them one after another, and compares what it
prints with the lines below it.

    examples/documents.py DOCUMENT ..

A command is run in a folder of its own that shows the repository's `nexus`, `examples` and `clients`. One that is left running
writes to a file, and the next is typed once something stands there. A port of this machine that is free takes the place of 4000.
Only what goes to standard output is compared; a command below which nothing stands may print what it likes.
"""

import re
import shlex
import socket
import subprocess
import sys
import tempfile
from pathlib import Path

ROOT = Path(__file__).resolve().parents[1]
SHOWN = ("nexus", "examples", "clients")


def commands_of(text):
    """Returns the document's commands, each with the lines that stand below it."""
    found, is_open = [], False
    for line in text.splitlines():
        if line.startswith("    $ "):
            found.append((line[6:], []))
            is_open = True
        elif line.startswith("    ") and is_open:
            found[-1][1].append(line[4:])
        else:
            is_open = False
    return found


def free_port():
    with socket.socket() as it:
        it.bind(("127.0.0.1", 0))
        return it.getsockname()[1]


def script_of(commands):
    """Returns a script that runs the commands, and keeps the output of each in a file."""
    lines = ["set -m"]
    for number, (command, _) in enumerate(commands):
        file = re.search(r"> (\S+) &$", command)
        if file:
            lines += [command, f"for _ in $(seq 200); do [ -s {shlex.quote(file[1])} ] && break; sleep 0.05; done"]
        else:
            lines.append(f"{{ {command}; }} >.output.{number}")
    return "\n".join([*lines, "kill $(jobs -p) 2>/dev/null", "wait", ""])


def play(name):
    """Returns how many commands of a document print what it says, and says which do not."""
    commands = commands_of(Path(name).read_text().replace("127.0.0.1:4000", f"127.0.0.1:{free_port()}"))
    right = 0
    with tempfile.TemporaryDirectory() as folder:
        for it in SHOWN:
            (Path(folder) / it).symlink_to(ROOT / it)
        subprocess.run(["bash", "-c", script_of(commands)], cwd=folder, stdin=subprocess.DEVNULL, stderr=subprocess.DEVNULL, timeout=120)
        for number, (command, due) in enumerate(commands):
            kept = Path(folder) / f".output.{number}"
            told = kept.read_text().splitlines() if kept.is_file() else []
            if due and told != due:
                print(f"{name}: differs: {command}: wanted {due}, got {told}")
            else:
                right += 1
    return right, len(commands)


def main():
    results = [play(it) for it in sys.argv[1:]]
    print(f"{sum(right for right, _ in results)} commands of documents print what stands there")
    return 0 if all(right == count for right, count in results) else 1


if __name__ == "__main__":
    sys.exit(main())
