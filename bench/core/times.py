"""Prints how fast `nexus core` takes steps, and what memory it needs, beside the same machine written by hand.

usage: times.py PROGRAM BY_HAND RUNS
"""
import resource
import subprocess
import sys

program, by_hand, runs = sys.argv[1], sys.argv[2], int(sys.argv[3])
sides = {"nexus": [program, "core"], "by hand": [by_hand]}


def seconds_of(words):
    """The line that is written, and the processor seconds of the run."""
    before = resource.getrusage(resource.RUSAGE_CHILDREN)
    line = subprocess.run(words, stdin=subprocess.DEVNULL, stdout=subprocess.PIPE, check=True).stdout
    after = resource.getrusage(resource.RUSAGE_CHILDREN)
    return line, after.ru_utime + after.ru_stime - before.ru_utime - before.ru_stime


def peak_of(words):
    """The peak of memory in MB. GNU time is small itself, so what is told is the program's own peak."""
    timed = ["/usr/bin/time", "-f", "%M", *words]
    told = subprocess.run(timed, stdin=subprocess.DEVNULL, stdout=subprocess.DEVNULL, stderr=subprocess.PIPE, check=True).stderr
    return int(told.split()[-1]) * 1024 / 1e6


def seconds_at(steps):
    """The least seconds of each side over the runs, which are taken in turn. All have to write one line."""
    seconds = {}
    for _ in range(runs):
        lines = set()
        for name, words in sides.items():
            line, spent = seconds_of([*words, "1", str(steps)])
            lines.add(line)
            seconds[name] = min(spent, seconds.get(name, spent))
        if len(lines) != 1:
            sys.exit(f"the lines differ at {steps} steps: {sorted(lines)}")
    return seconds


for steps in (250_000, 500_000, 1_000_000):
    seconds = seconds_at(steps)
    for name, words in sides.items():
        rate = steps / max(seconds[name], 1e-6) / 1e6
        print(f"{steps} steps, {name}: {rate:.2f} million a second, peak {peak_of([*words, '1', str(steps)]):.1f} MB")
    print(f"{steps} steps: nexus takes {seconds['nexus'] / seconds['by hand']:.1f} times as long as the machine by hand")
