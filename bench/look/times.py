"""Times the programs of run.sh: times.py FOLDER LOOKS PAUSE RUNS."""
import os
import subprocess
import sys
import time

folder, looks, pause, runs = sys.argv[1], int(sys.argv[2]), sys.argv[3], int(sys.argv[4])


def run(words):
    """Seconds of processor time, of all threads, and of wall time."""
    start = time.perf_counter()
    program = subprocess.Popen([f"{folder}/{words[0]}", *words[1:]], stdout=subprocess.DEVNULL)
    used = os.wait4(program.pid, 0)[2]
    return used.ru_utime + used.ru_stime, time.perf_counter() - start


def hand(threads, *more):
    return ["hand", str(threads), str(looks), *more]


programs = {
    "look 1": ["look"],
    "hand 1": hand(1),
    "look 2": ["look", "2"],
    "hand 2": hand(2),
    "look 4": ["look", "4", "threads"],
    "hand 4": hand(4),
    "look 4 beside": ["look", "4", "threads", "beside"],
    "hand 4 beside": hand(4, pause),
    "look publisher": ["look", "the", "publisher", "alone", "here"],
    "hand publisher": ["hand", "0", "0", pause],
}
taken = {name: [] for name in programs}
for _ in range(runs):
    for name, words in programs.items():
        taken[name].append(run(words))
best = {name: (min(t[0] for t in times), min(t[1] for t in times)) for name, times in taken.items()}


def told(name, threads, less=0.0):
    """Nanoseconds of processor time of one look, and of wall time: the least, and in brackets the middle and the most."""
    columns = []
    for k, take in ((0, less), (1, 0.0)):
        turns = looks * (threads if k == 0 else 1)
        times = sorted((t[k] - take) / turns * 1e9 for t in taken[name])
        columns.append(f"{times[0]:.2f} ({times[len(times) // 2]:.2f}, {times[-1]:.2f})")
    return f"{name}: processor {columns[0]}, wall {columns[1]}"


for threads in (1, 2, 4):
    print(told(f"look {threads}", threads))
    print(told(f"hand {threads}", threads))
print(told("look 4 beside", 4, best["look publisher"][0]))
print(told("hand 4 beside", 4, best["hand publisher"][0]))
one, four = best["look 1"], best["look 4"]
beside = best["look 4 beside"][0] - best["look publisher"][0]
print(f"one thread, beside the look by hand: {one[0] / best['hand 1'][0]:.2f}")
print(f"4 threads beside one: {16 * one[0] / four[0]:.2f} times by processor time, {4 * one[1] / four[1]:.2f} by wall time")
print(f"beside a publisher, of 4 threads alone: {four[0] / beside:.2f} by processor time, {four[1] / best['look 4 beside'][1]:.2f} by wall time")
