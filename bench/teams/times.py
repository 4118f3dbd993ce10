#!/usr/bin/env python3
"""Measures a service of a large team beside one of a small team; run.sh says what is printed.

    times.py PROGRAM LOAD FOLDER
"""

import os
import statistics
import subprocess
import sys
import time

CALLS, RUNS, PORT = int(os.environ.get("CALLS", 32_000)), int(os.environ.get("RUNS", 3)), int(os.environ.get("PORT", 42_931))
WRITES, HELLOS = 3_000, 4_000
# The first word of a load, and how many requests it makes.
KINDS = {"hello": ("a hello", HELLOS), "call": ("a kept call", CALLS), "miss": ("a call checked anew", CALLS), "say": ("a change", WRITES)}
WORDS = 70_145


def policy(principals: int, objects: int) -> str:
    """The text of a policy whose last principal, p0, has the last object, o0, two goals and two proofs."""
    lines = ["nexus 2", *(f"principal t{k} u{k}" for k in range(principals - 1)), "principal p0 s0"]
    lines += [f"1 t{k // 4096} object x{k}" for k in range(objects - 1)]
    lines.append("1 p0 object o0")
    for goal, last in (("read", "b"), ("miss", "c")):
        both = f"p0 says a and p0 says {last}"
        lines.append(f"1 p0 goal {goal} o0 : {both} or false")
        proof = f"1 label : p0 says a ; 2 label : p0 says {last} ; 3 and_i 1 2 : {both} ; 4 or_l 3 : {both} or false"
        lines.append(f"1 p0 proof {goal} o0 : proof 2 ; {proof} ; end")
    lines += ["1 p0 say p0 : a", "1 p0 say p0 : b", "end"]
    return "".join(f"{line}\n" for line in lines)


def seconds_to_read(program: str, text: str) -> float:
    begun = time.monotonic()
    done = subprocess.run([program, "recover"], input=text.encode(), stdout=subprocess.PIPE, check=True)
    if done.stdout != text.encode():
        sys.exit("the policy was not written as it was read")
    return time.monotonic() - begun


def rates(program: str, load: str, text: str) -> dict[str, float]:
    """The requests a second of each kind, of a service of its own."""
    told = {}
    for kind, (_, count) in KINDS.items():
        sessions = HELLOS + 1 if kind == "hello" else 1
        words = [program, "serve", f"127.0.0.1:{PORT}", "1", str(sessions)]
        with subprocess.Popen(words, stdin=subprocess.PIPE, stdout=subprocess.DEVNULL) as service:
            service.stdin.write(text.encode())
            service.stdin.close()
            printed = subprocess.run([load, str(PORT), "1", str(count), "1", kind], stdout=subprocess.PIPE, check=True).stdout
            told[kind] = float(printed.split()[0])
            service.kill()
    return told


def main() -> None:
    program, load = sys.argv[1:3]
    small, large = policy(10, 1), policy(16_384, 65_536)
    reads = [seconds_to_read(program, large) for _ in range(RUNS)]
    print(f"a policy of 16,384 principals and 65,536 objects is read and written in {statistics.median(reads):.2f} s")
    runs = [(rates(program, load, small), rates(program, load, large)) for _ in range(RUNS)]
    for kind, (name, _) in KINDS.items():
        few, many = (statistics.median(run[side][kind] for run in runs) for side in (0, 1))
        print(f"{name:22} {few:9.0f} a second with 10 principals, {many:9.0f} with 16,384: {few / many:.2f} times as long")
    print(f"a board has {WORDS} words, {8 * WORDS} bytes")


if __name__ == "__main__":
    main()
