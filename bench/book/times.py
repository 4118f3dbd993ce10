"""Writes a policy, or times a book over two: times.py policy ENTRIES FILE, or times.py PROGRAM FEW MANY RUNS.

The entries are labels of 64 principals, but for an object with a goal and a proof of four lines of the first one.
"""
import os
import subprocess
import sys

PROOF = "proof 2 ; 1 label : p0 says ok ; 2 label : p0 says ok ; 3 and_i 1 2 : p0 says ok and p0 says ok ; 4 and_l 3 : p0 says ok ; end"


def write_policy(entries, path):
    """Writes a policy of so many entries."""
    lines = ["nexus 2", *(f"principal p{number} s{number}" for number in range(64))]
    lines += ["1 p0 object f", "1 p0 goal read f : p0 says ok", "1 p0 say p0 : ok", f"1 p0 proof read f : {PROOF}"]
    for number in range(4, entries):
        lines.append(f"1 p{number % 64} say p{number % 64} : ok({number % 4096})")
    with open(path, "w") as file:
        file.write("\n".join([*lines, "end", ""]))


def run(program, policy):
    """Returns the entries and the nanoseconds of a write and of a snap."""
    with open(policy) as file:
        told = subprocess.run([program], stdin=file, stdout=subprocess.PIPE, check=True, text=True).stdout.split()
    if len(told) != 7 or told[6] != "20000":
        sys.exit(f"{os.path.basename(program)} told {told}")
    return int(told[0]), int(told[2]), int(told[4])


def main():
    if sys.argv[1] == "policy":
        write_policy(int(sys.argv[2]), sys.argv[3])
        return
    program, few, many, runs = sys.argv[1], sys.argv[2], sys.argv[3], int(sys.argv[4])
    turns = [(run(program, few), run(program, many)) for _ in range(runs)]
    for place, call in ((1, "write of a short label"), (2, "snap of a proof of 4 lines")):
        least = [min(turn[side][place] for turn in turns) for side in (0, 1)]
        entries = [turns[0][side][0] for side in (0, 1)]
        print(f"{call}: {least[0]} ns with {entries[0]} entries, {least[1]} ns with {entries[1]}, ratio {least[1] / least[0]:.2f}")


main()
