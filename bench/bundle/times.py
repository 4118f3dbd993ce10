"""Prints how bundles are read, printed and imported: times.py BENCH PROGRAM RUNS."""
import os
import re
import socket
import subprocess
import sys
import tempfile
import time

LABELS = 262_144
# A principal makes 4,096 entries at most, and in those of all 64 each label that is given away takes two.
GIVEN, OWN, OTHERS = 2_048, 4_096, 63
SAID = 4_000

bench, program, runs = sys.argv[1], sys.argv[2], int(sys.argv[3])


def label(number):
    return f"siteA says built(application_{number:06})"


def bundle(count):
    return "nexus bundle 1\n" + "".join(f"label {label(number)}\n" for number in range(count)) + "end\n"


def policy():
    """A policy whose first principal holds as many labels as one can."""
    lines, number = ["nexus 2\nprincipal siteA s\n", *(f"principal p{k} s\n" for k in range(OTHERS))], 0
    lines += [f"1 siteA say siteA : built(application_{k:06})\n" for k in range(OWN)]
    number = OWN
    for k in range(OTHERS):
        for turn in range(GIVEN):
            lines.append(f"1 p{k} say p{k} : built(application_{turn:06})\n")
            lines.append(f"1 p{k} transfer {number + 1} siteA\n")
            number += 2
    return "".join(lines) + "end\n"


def run(word, text):
    """Returns the first number that the program prints, the microseconds, and its peak memory in bytes."""
    with tempfile.TemporaryFile() as source, tempfile.TemporaryFile() as told:
        source.write(text.encode())
        source.seek(0)
        process = subprocess.Popen([bench, word], stdin=source, stdout=told)
        _, status, used = os.wait4(process.pid, 0)
        process.returncode = os.waitstatus_to_exitcode(status)
        told.seek(0)
        found = re.fullmatch(r"(\d+) (?:labels|bytes) in (\d+) us\n", told.read().decode())
    if process.returncode != 0 or not found:
        sys.exit(f"{word} ended with {process.returncode}, or wrote something else")
    return int(found[1]), int(found[2]), used.ru_maxrss * 1024


def best(word, text, wanted):
    made = [run(word, text) for _ in range(runs)]
    if any(count != wanted for count, _, _ in made):
        sys.exit(f"{word} found {made[0][0]}, and {wanted} is wanted")
    return min(it for _, it, _ in made) / 1e6, min(it for _, _, it in made)


def free_port():
    with socket.socket() as it:
        it.bind(("127.0.0.1", 0))
        return it.getsockname()[1]


def talk(command, given):
    """Returns the seconds of a run of a command at a fresh service, to which it says so many labels."""
    address = f"127.0.0.1:{free_port()}"
    with tempfile.TemporaryFile() as source, tempfile.TemporaryFile() as written:
        source.write(b"nexus 2\nprincipal siteA s\nend\n")
        source.seek(0)
        with subprocess.Popen([program, "serve", address, "1", "1"], stdin=source, stdout=written) as service:
            while b"principal" not in os.pread(written.fileno(), 100, 0):
                time.sleep(0.01)
            start = time.monotonic()
            done = subprocess.run([program, command, address], input=given.encode(), stdout=subprocess.PIPE)
            seconds = time.monotonic() - start
            if done.returncode or done.stdout.count(b"\ndone ") != SAID or service.wait(20):
                sys.exit(f"{command} ended with {done.returncode} and wrote {done.stdout[-80:]}")
    return seconds


def main():
    text = bundle(LABELS)
    seconds, peak = best("bundle", text, LABELS)
    _, least = best("formulas", text, LABELS)
    print(f"a bundle of {LABELS} labels in {len(text)} bytes is read in {seconds:.2f} s")
    print(f"peak memory {peak / 2**20:.0f} MiB, {peak / least:.2f} times that of its formulas and its text alone")
    held = OWN + OTHERS * GIVEN
    wanted = len("nexus bundle 1\nend\n") + OWN * len(f"label {label(0)}\n") + GIVEN * sum(len(f"label p{k} says built(application_000000)\n") for k in range(OTHERS))
    seconds, _ = best("print", policy(), wanted)
    print(f"a bundle of {held} labels is printed in {seconds:.3f} s, so one of {LABELS} would be in {seconds * LABELS / held:.3f} s")
    says = "hello siteA s\n" + "".join(f"say siteA : {label(number)}\n" for number in range(SAID))
    pairs = [(talk("client", says), talk("import", f"peer siteA s\n{bundle(SAID)}")) for _ in range(runs)]
    client, imported = (min(times) for times in zip(*pairs))
    print(f"{SAID} labels are said by `client` in {client:.3f} s and by `import` in {imported:.3f} s: {client / imported:.2f} of its rate")


main()
