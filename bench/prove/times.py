"""Prints how long the search for a chain takes, beside the one written by hand: times.py PROGRAM BY_HAND INPUTS RUNS."""
import pathlib
import subprocess
import sys

program, by_hand, inputs, runs = sys.argv[1], sys.argv[2], pathlib.Path(sys.argv[3]), int(sys.argv[4])


def run(side, path):
    """Nanoseconds of reading and of the search, and the lines of the proof."""
    with open(path) as given:
        words = subprocess.run([side], stdin=given, stdout=subprocess.PIPE, check=True, text=True).stdout.split()
    return [int(word) for word in words]


print(f"{'milliseconds':<12} {'lines':>5} {'search':>8} {'by hand':>8} {'ratio':>6} {'read':>8} {'by hand':>8}")
for path in sorted(inputs.iterdir()):
    taken = {side: [] for side in (program, by_hand)}
    for _ in range(runs):
        for side in taken:
            taken[side].append(run(side, path))
    lines = {told[2] for side in taken for told in taken[side]}
    if len(lines) != 1:
        sys.exit(f"{path.name}: the proofs have {lines} lines")
    (read, found), (read_by_hand, found_by_hand) = ([min(told[k] for told in taken[side]) / 1e6 for k in (0, 1)] for side in taken)
    print(
        f"{path.name:<12} {lines.pop():>5} {found:>8.3f} {found_by_hand:>8.3f} {found / found_by_hand:>6.2f} {read:>8.3f} {read_by_hand:>8.3f}"
    )
