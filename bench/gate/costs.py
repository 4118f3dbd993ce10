#!/usr/bin/env python3
"""What the gate costs: runs `.ci/run`, or the command that is given, and prints the processor seconds that each crate's proof, tests
and must-fail edits took, with the greatest memory of one check, and the chain of crates, each standing on the one before, whose
proofs take longest together.

    bench/gate/costs.py [COMMAND ..]

The seconds are those of the checks that `rt ci` starts, as the system counts them; where more checks run than there are cores, or
where several processes share one check, each takes longer. The first edit of a crate pays for a check of the whole crate.
"""

import os
import re
import subprocess
import sys
import tempfile
from pathlib import Path

# Python reads a module of this name when it starts, so `rt`, which is written in Python, logs each process that it waited for.
HOOK = """
import os, subprocess

def wait(self, flags):
    try:
        found, status, used = os.wait4(self.pid, flags)
    except ChildProcessError:
        return self.pid, 0
    if found:
        words = self.args if isinstance(self.args, str) else " ".join(map(str, self.args))
        with open(os.environ["GATE_COSTS"], "a") as log:
            log.write(f"{used.ru_utime + used.ru_stime:.1f}\\t{used.ru_maxrss}\\t{words}\\n")
    return found, status

subprocess.Popen._try_wait = wait
"""


def kind_of(words):
    """Returns which of a crate's checks a command is, or None for another command."""
    if " --test " in words:
        return "tests"
    if "rt-edits-" in words:
        return "edits"
    return "proof"


def read(log):
    """Returns the seconds of each crate's checks by their kind, and the greatest memory in MB of one."""
    costs, memory = {}, {}
    for line in log.read_text(errors="replace").splitlines():
        seconds, kilobytes, words = line.split("\t", 2)
        name = re.search(r"--crate-name (\S+)", words)
        if name and "--crate-checked" not in words:
            costs.setdefault(name[1], {}).setdefault(kind_of(words), []).append(float(seconds))
            memory[name[1]] = max(memory.get(name[1], 0), int(kilobytes) // 1024)
    return costs, memory


def read_crates(root):
    """Returns which crates of the repository each one names."""
    below = {}
    for line in (root / "crates.txt").read_text().splitlines():
        head, colon, names = line.partition("#")[0].partition(":")
        if colon:
            below[head.split()[0]] = names.split()
    return {name: [it for it in names if it in below] for name, names in below.items()}


def longest_chain(below, seconds):
    """Returns the crates of the chain that takes longest, lowest first, and its seconds."""
    found = {}

    def chain(name):
        if name not in found:
            longest = max((chain(it) for it in below[name]), key=lambda it: it[1], default=([], 0))
            found[name] = [*longest[0], name], longest[1] + seconds.get(name, 0)
        return found[name]

    return max((chain(name) for name in below), key=lambda it: it[1], default=([], 0))


def main():
    root = Path(__file__).resolve().parents[2]
    with tempfile.TemporaryDirectory() as room:
        (Path(room) / "sitecustomize.py").write_text(HOOK)
        log = Path(room) / "log"
        log.touch()
        env = {**os.environ, "PYTHONPATH": room, "GATE_COSTS": str(log)}
        status = subprocess.run(sys.argv[1:] or [root / ".ci/run"], cwd=root, env=env).returncode
        costs, memory = read(log)
    print(f"{'crate':16}{'proof':>8}{'tests':>8}{'edits':>8}{'number':>8}{'all':>8}{'MB':>8}")
    total = 0
    for name, kinds in sorted(costs.items(), key=lambda it: -sum(map(sum, it[1].values()))):
        parts = [sum(kinds.get(kind, [])) for kind in ("proof", "tests", "edits")]
        # The last check of a crate's edits is of the crate itself.
        number = max(len(kinds.get("edits", [])) - 1, 0)
        total += sum(parts)
        print(f"{name:16}{parts[0]:8.0f}{parts[1]:8.0f}{parts[2]:8.0f}{number:8}{sum(parts):8.0f}{memory[name]:8}")
    print(f"processor minutes: {total / 60:.0f}")
    names, seconds = longest_chain(read_crates(root), {name: sum(kinds.get("proof", [])) for name, kinds in costs.items()})
    print(f"longest chain: {seconds:.0f} seconds: {' '.join(names)}")
    return status


if __name__ == "__main__":
    sys.exit(main())
