"""Runs `nexus script` on the text of a policy and prints its times: times.py PROGRAM TEXT RUNS."""
import os
import shutil
import subprocess
import sys
import time

LIBRARY = "/usr/share/metamath/databases/set.mm"


def run(program, text):
    """Returns the seconds of a run, and its peak memory in bytes; what it writes has to be the text."""
    written = text + ".written"
    start = time.monotonic()
    with open(text) as source, open(written, "w") as sink:
        actions = [(os.POSIX_SPAWN_DUP2, source.fileno(), 0), (os.POSIX_SPAWN_DUP2, sink.fileno(), 1)]
        child = os.posix_spawn(program, [program, "script"], os.environ, file_actions=actions)
        _, status, used = os.wait4(child, 0)
    seconds = time.monotonic() - start
    if status or open(text, "rb").read() != open(written, "rb").read():
        sys.exit(f"{program} ended with status {status}, or wrote another text")
    return seconds, used.ru_maxrss * 1024


def library_rate(runs):
    """Returns the megabytes a second at which `metamath` verifies its library."""
    best = min(timed_library() for _ in range(runs))
    return os.path.getsize(LIBRARY) / 1e6 / best


def timed_library():
    """Returns the seconds that `metamath` takes to read and verify its library."""
    start = time.monotonic()
    words = ["metamath", f'read "{LIBRARY}"', "verify proof *", "exit"]
    subprocess.run(words, check=True, stdout=subprocess.DEVNULL)
    return time.monotonic() - start


def main():
    program, text, runs = sys.argv[1], sys.argv[2], int(sys.argv[3])
    size = os.path.getsize(text)
    told = [run(program, text) for _ in range(runs)]
    seconds = min(it for it, _ in told)
    peak = max(it for _, it in told)
    print(f"{size} bytes: read and written in {seconds:.2f} s, {size / 1e6 / seconds:.1f} MB/s")
    print(f"peak memory {peak / 2**20:.0f} MiB, {peak / size:.1f} times the text")
    if shutil.which("metamath") and os.path.exists(LIBRARY):
        peer = library_rate(runs)
        print(f"metamath verifies set.mm at {peer:.1f} MB/s: {size / 1e6 / seconds / peer:.1f} times that")


main()
