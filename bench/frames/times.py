"""Runs both programs in turns and prints frames a second and their ratio: times.py PROGRAM HAND RUNS."""
import subprocess
import sys


def rate(program, words):
    """Returns the frames a second of one run."""
    told = subprocess.run([program, *words], check=True, capture_output=True, text=True).stdout.split()
    if int(told[0]) != int(words[1]) * int(words[2]):
        sys.exit(f"{program} answered {told[0]} frames")
    return int(told[0]) / int(told[1]) * 1e9


def main():
    program, hand, runs = sys.argv[1], sys.argv[2], int(sys.argv[3])
    for kind, frames, links in (("call", "10000", "100"), ("proof", "1000", "200")):
        rates = [(rate(program, [kind, frames, links]), rate(hand, [kind, frames, links])) for _ in range(runs)]
        ours, theirs = (sorted(it[k] for it in rates) for k in (0, 1))
        middle = sorted(a / b for a, b in rates)[runs // 2]
        print(f"{kind}: at best {ours[-1] / 1e6:.2f} million frames a second, by hand {theirs[-1] / 1e6:.2f}, ratio {ours[-1] / theirs[-1]:.2f}; middle ratio of a turn {middle:.2f}")


main()
