#!/usr/bin/env python3
"""Proves and builds crates, those beside each other that do not stand on one another.

    tools/build.py [CRATE ..]

Without a name it builds the program. A crate waits for those that it stands on, as `crates.txt` has them; so many are proved at once
as there are processors and free memory. `rt` keeps other calls of it out of a crate and of all crates below, so each crate is proved
in a folder of its own, where the libraries below it stand as links to the files that were built. What was proved is kept, so a run
that was interrupted goes on where it stopped. Standard error tells what is done, how long it took, and a guess of what is left.
"""

import os
import re
import shutil
import signal
import subprocess
import sys
import tempfile
import threading
import time
from concurrent.futures import FIRST_COMPLETED, ThreadPoolExecutor, wait
from contextlib import contextmanager
from pathlib import Path

ROOT = Path(__file__).resolve().parents[1]
PROGRAM = "nexus_main"
EXAMPLE = ROOT / "examples/check/first/input"
PARTS = ("src", "specs", "proofs")
# What a check takes at most, as bytes and as bytes a line of the crate: measured on the crates of this repository.
LEAST, A_LINE = 2_200_000_000, 150_000


def say(text):
    print(f"nexus: {text}", file=sys.stderr, flush=True)


class Crate:
    """A crate of the repository: its line of `crates.txt`, the crates of the repository that it stands on, and its lines of text."""

    def __init__(self, name, line, below):
        self.name, self.line, self.direct = name, line, below
        self.folder = ROOT / "crates" / name
        self.is_program = (self.folder / "src/main.rt").is_file()
        files = [it for part in PARTS for it in (self.folder / part).rglob("*") if it.suffix in (".rt", ".antt")]
        self.lines = sum(it.read_bytes().count(b"\n") for it in files)
        # Those below it, and the lines on the longest way from it to a crate on which none stands: set once all are read.
        self.below, self.behind = set(), 0


def read_crates(wanted):
    """Returns the wanted crates and those that they stand on, by their names."""
    lines = {}
    for line in (ROOT / "crates.txt").read_text().splitlines():
        head, colon, _ = line.partition("#")[0].partition(":")
        if colon:
            lines[head.split()[0]] = line
    crates, left = {}, list(wanted)
    while left:
        name = left.pop()
        if name not in crates:
            words = lines[name].partition("#")[0].partition(":")[2].split()
            crates[name] = Crate(name, lines[name], [it for it in words if it in lines])
            left += crates[name].direct
    for crate in crates.values():
        left = list(crate.direct)
        while left:
            name = left.pop()
            if name not in crate.below:
                crate.below.add(name)
                left += crates[name].direct
    for crate in sorted(crates.values(), key=lambda it: -len(it.below)):
        crate.behind = crate.lines + max((it.behind for it in crates.values() if crate.name in it.below), default=0)
    return crates


def link(source, to):
    """Copies a folder by links to its files, or as it is where there are no such links."""
    try:
        shutil.copytree(source, to, copy_function=os.link)
    except (OSError, shutil.Error):
        shutil.rmtree(to, ignore_errors=True)
        shutil.copytree(source, to)


def lay_out(crate, crates, lane):
    """Makes a repository in the lane that holds the crate's sources, and the built libraries below it."""
    used = [crates[it] for it in sorted({crate.name, *crate.below})]
    (lane / "crates").mkdir(parents=True)
    (lane / "crates.txt").write_text("".join(f"{it.line}\n" for it in used))
    shutil.copy(ROOT / "HANDLES", lane)
    for it in used:
        folder = lane / "crates" / it.name
        for part in PARTS:
            if (it.folder / part).is_dir():
                shutil.copytree(it.folder / part, folder / part)
        if it is not crate:
            link(it.folder / "out/rlib", folder / "out/rlib")


class Calls:
    """The calls of `rt` that are running. Each has a process group of its own, so that none is left behind where this one is stopped."""

    def __init__(self):
        self.running, self.stopped, self.lock = set(), False, threading.Lock()

    def run(self, words, **where):
        """Runs one and returns its status, or a status of failure where all were stopped."""
        with self.lock:
            if self.stopped:
                return 1
            call = subprocess.Popen(words, start_new_session=True, **where)
            self.running.add(call)
        try:
            return call.wait()
        finally:
            with self.lock:
                self.running.discard(call)

    def stop(self):
        """Ends those that are running, and lets none begin any more."""
        with self.lock:
            self.stopped = True
            for call in self.running:
                os.killpg(call.pid, signal.SIGTERM)


CALLS = Calls()


def build(crate, crates, jobs, room):
    """Proves and builds a crate by so many processes, and returns how long it took, or None where that failed."""
    began, lane = time.monotonic(), Path(room) / crate.name
    lay_out(crate, crates, lane)
    kept, out = crate.folder / "out", lane / "crates" / crate.name / "out"
    if kept.is_dir():
        shutil.move(kept, out)
    words = ["run", "--jobs", str(jobs), "--", "check"] if crate.is_program else ["lib", "--jobs", str(jobs)]
    try:
        with open(EXAMPLE if crate.is_program else os.devnull, "rb") as given, open(f"{lane}.log", "wb") as said:
            status = CALLS.run(["rt", *words], cwd=out.parent, stdin=given, stdout=said, stderr=said)
    finally:
        if out.is_dir():
            shutil.move(out, kept)
        shutil.rmtree(lane)
    return None if status else time.monotonic() - began


class Machine:
    """The processors and the memory, and what the crates take of them that are being built."""

    def __init__(self):
        free = re.search(r"^MemAvailable:\s+(\d+)", Path("/proc/meminfo").read_text(), re.M)
        self.processors, self.memory, self.taken = len(os.sched_getaffinity(0)), 0.85 * 1024 * int(free[1]), {}

    def jobs_for(self, crate, waiting):
        """Returns by how many processes a crate may be checked while so many wait for their turn, or 0 where it waits too."""
        idle = self.processors - sum(jobs for jobs, _ in self.taken.values())
        room = self.memory - sum(held for _, held in self.taken.values())
        needs = LEAST + A_LINE * crate.lines
        if idle <= 0 or self.taken and needs > room:
            return 0
        return max(1, min(4, idle // waiting, 1 + int((room / needs - 1) / 0.6)))

    def take(self, crate, jobs):
        self.taken[crate.name] = jobs, (LEAST + A_LINE * crate.lines) * (1 + 0.6 * (jobs - 1))

    def give_back(self, crate):
        del self.taken[crate.name]


class Progress:
    """What is done of the work, and a guess of the rest: what is left takes as long a line as what was done."""

    def __init__(self, crates):
        self.began, self.crates, self.done, self.proved = time.monotonic(), crates, 0, 0
        self.left = sum(it.lines for it in crates)

    def ended(self, crate, seconds):
        self.done, self.left = self.done + 1, self.left - crate.lines
        # What was built before is no measure of the rest.
        self.proved += crate.lines if seconds > 5 else 0
        passed = time.monotonic() - self.began
        guess = f", about {clock(passed * self.left / self.proved)} left" if self.proved and self.left else ""
        say(f"{self.done} of {len(self.crates)} crates are there, after {clock(passed)}{guess}: {crate.name}")


def clock(seconds):
    return f"{int(seconds) // 60}:{int(seconds) % 60:02}"


@contextmanager
def stopping_calls():
    """Stops what runs within where that is left by an exception."""
    try:
        yield
    except BaseException:
        CALLS.stop()
        raise


def build_all(crates, room):
    """Builds the crates, those first that have most behind them. Returns the name of one that failed, or None."""
    left = sorted(crates.values(), key=lambda it: -it.behind)
    machine, progress, running, built = Machine(), Progress([*left]), {}, set()
    with ThreadPoolExecutor(machine.processors) as pool, stopping_calls():
        while left or running:
            ready = [it for it in left if it.below <= built]
            for at, crate in enumerate(ready):
                jobs = machine.jobs_for(crate, len(ready) - at)
                if jobs:
                    left.remove(crate)
                    machine.take(crate, jobs)
                    running[pool.submit(build, crate, crates, jobs, room)] = crate
            for ended in wait(running, return_when=FIRST_COMPLETED).done:
                crate, seconds = running.pop(ended), ended.result()
                machine.give_back(crate)
                if seconds is None:
                    return crate.name
                built.add(crate.name)
                progress.ended(crate, seconds)
    return None


def main():
    begun = time.time()
    crates = read_crates(sys.argv[1:] or [PROGRAM])
    say(f"proving and building {len(crates)} crates; what is interrupted goes on at the next call")
    # On the file system of what was built, so that its files can be linked, and where no other `rt` looks for sources.
    beside = ROOT / ".git" if (ROOT / ".git").is_dir() else None
    with tempfile.TemporaryDirectory(prefix="nexus-build-", dir=beside) as room:
        failed = build_all(crates, room)
        if failed:
            sys.stderr.write((Path(room) / f"{failed}.log").read_text(errors="replace"))
            say(f"{failed} was not built; what rt said stands above")
            return 70
    # A source that was saved meanwhile is newer than the program.
    program = ROOT / "crates" / PROGRAM / "out" / PROGRAM
    if PROGRAM in crates and program.is_file():
        os.utime(program, (begun, begun))
    return 0


if __name__ == "__main__":
    signal.signal(signal.SIGTERM, signal.default_int_handler)
    try:
        sys.exit(main())
    except KeyboardInterrupt:
        say("interrupted")
        sys.exit(130)
