"""Prints how long a call takes through `nexus script`, and through the same decision written by hand.

usage: times.py PROGRAM BY_HAND CALLS RUNS
"""
import pathlib
import resource
import subprocess
import sys
import tempfile

program, by_hand, calls, runs = sys.argv[1], sys.argv[2], int(sys.argv[3]), int(sys.argv[4])
here = pathlib.Path(__file__).parent
work = pathlib.Path(tempfile.mkdtemp())


def made(entries, count):
    path = work / f"{entries}-{count}"
    with open(path, "w") as out:
        subprocess.run([sys.executable, here / "input.py", str(entries), str(count)], stdout=out, check=True)
    return path


def processor_seconds(words, path):
    best = None
    for _ in range(runs):
        before = resource.getrusage(resource.RUSAGE_CHILDREN).ru_utime
        with open(path) as source:
            subprocess.run(words, stdin=source, stdout=subprocess.DEVNULL, check=True)
        spent = resource.getrusage(resource.RUSAGE_CHILDREN).ru_utime - before
        best = spent if best is None else min(best, spent)
    return best


def a_call(words, entries):
    without = processor_seconds(words, made(entries, 0))
    with_calls = processor_seconds(words, made(entries, calls))
    return (with_calls - without) / calls


few = a_call([program, "script"], 10)
many = a_call([program, "script"], 100_000)
hand = a_call([by_hand], 10)
print(f"a call, 10 entries: {few * 1e6:.2f} microseconds; 100,000 entries: {many * 1e6:.2f}, ratio {many / few:.2f}")
print(f"by hand in Rust: {hand * 1e6:.2f} microseconds; nexus takes {few / hand:.2f} times that")
