"""Runs the program of journal_bench.txt and prints ratios: times.py PROGRAM RUNS.

At 262,080 entries each of the 64 principals may add one more, so that a change is still accepted; 262,144 is the most.
"""
import os
import subprocess
import sys

CALLS = 10_000


def run(program, words):
    """Returns the numbers that a run prints, by their names, and its peak memory in bytes."""
    read, write = os.pipe()
    child = os.posix_spawn(program, [program, *words], os.environ, file_actions=[(os.POSIX_SPAWN_DUP2, write, 1)])
    os.close(write)
    with os.fdopen(read) as it:
        told = it.read().replace(":", "").split()
    _, status, used = os.wait4(child, 0)
    if status:
        sys.exit(f"{program} {' '.join(words)} ended with status {status}")
    numbers = {"entries": int(told[0]), "refused": int(told[2]), "accepted": int(told[4])}
    numbers.update((name, int(number)) for name, number in zip(told[6::2], told[7::2]))
    return numbers, used.ru_maxrss * 1024


def best(program, words, runs):
    """Returns the least time of each call in nanoseconds, the entries, and the peak memory."""
    all_runs = [run(program, words) for _ in range(runs)]
    entries = all_runs[0][0]["entries"]
    times = {
        "reserve and append": min(it["append"] for it, _ in all_runs) / entries,
        "decide": min(it["decide"] for it, _ in all_runs) / CALLS,
        "case_of": min(it["case_of"] for it, _ in all_runs) / CALLS,
    }
    if all_runs[0][0]["accepted"] not in (0, CALLS):
        sys.exit("decide was not answered alike")
    return times, entries, max(peak for _, peak in all_runs)


def main():
    program, runs = sys.argv[1], int(sys.argv[2])
    few, few_entries, few_peak = best(program, ["1000"], runs)
    many, many_entries, many_peak = best(program, ["262080"], runs)
    for call, time in few.items():
        print(f"{call}: {time:.0f} ns with {few_entries} entries, {many[call]:.0f} ns with {many_entries}, ratio {many[call] / time:.2f}")
    full, full_entries, _ = best(program, ["262147"], runs)
    print(f"a journal of {full_entries} entries is built in {full['reserve and append'] * full_entries / 1e9:.2f} s")
    print(f"an entry of a short label takes at most {(many_peak - few_peak) / (many_entries - few_entries):.0f} bytes, the change itself among them")
    _, long_entries, long_peak = best(program, ["34000", "long"], 1)
    print(f"{long_entries} entries of labels of 200 parts, which are all that the quotas admit, take {long_peak / 2**20:.0f} MiB")


main()
