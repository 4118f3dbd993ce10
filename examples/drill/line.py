"""The line of `nexus drill NUMBER WORKERS CALLS`, worked out from docs/FORMATS.md, "Generated load", without the program.

    python3 examples/drill/line.py NUMBER WORKERS CALLS
"""

import sys


def draws(start, count):
    x = start
    for _ in range(count):
        x = (x * 6364136223846793005 + 1442695040888963407) % 2**64
        yield x // 2**32


def worker(start, calls):
    """The calls that are allowed and denied, and the accepted changes, of the worker whose generator starts there."""
    allowed, denied, changes = 0, 0, 6
    has_goal = True
    for draw in draws(start, calls):
        kind = draw % 8
        if kind == 0:
            changes += 1
        elif kind == 1:
            changes += 1
            has_goal = not has_goal
        elif kind <= 4 or has_goal:
            allowed += 1
        else:
            denied += 1
    return allowed, denied, changes


def main():
    number, workers, calls = map(int, sys.argv[1:])
    parts = [worker((number + k) % 2**64, calls) for k in range(workers)]
    allowed, denied, changes = (sum(column) for column in zip(*parts))
    requests = workers * (7 + calls)
    print(f"workers {workers} requests {requests} allowed {allowed} denied {denied} length {changes}")


if __name__ == "__main__":
    main()
