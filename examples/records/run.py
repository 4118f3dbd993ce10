#!/usr/bin/env python3
"""Plays a service that records its calls: a day of three sessions at once, whose records the auditor finds right, in whatever order, and
finds wrong where a byte of one was changed; a kill under load, behind which every allowed reply that was read has its record; and a
standard error that is full, closed, or a pipe whose reader is gone. What is wanted stands here, and comes from docs/LOGIC.md, "Records
of a service", and docs/FORMATS.md.

    examples/records/run.py PROGRAM

prints what differs first and ends with 1, or prints `N checks of records pass` and ends with 0.
"""
from __future__ import annotations

import os
import random
import subprocess
import sys
import tempfile
import threading
import time
from collections import Counter
from pathlib import Path
from typing import IO, Union

sys.path.insert(0, str(Path(__file__).resolve().parents[1] / "serve"))
sys.path.insert(0, str(Path(__file__).resolve().parents[2] / "clients" / "python"))

import run as services
from client import Ended
from run import Differs, Service, Session, check, head

SERVE = Path(services.__file__).resolve().parent


class Recorded(Service):
    """A service with the word `records`, whose standard error is a file, or what is handed in."""

    def __init__(self, policy: str, workers: int, sessions: int, errors: Union[IO[bytes], int, None] = None) -> None:
        self.records = tempfile.NamedTemporaryFile()
        self.errors = self.records if errors is None else errors
        super().__init__(policy, workers, sessions)

    def start(self, words: list[str]) -> subprocess.Popen[bytes]:
        return subprocess.Popen([*words, "records"], stdin=subprocess.PIPE, stdout=self.output, stderr=self.errors)

    def lines(self) -> list[str]:
        """What was recorded."""
        return Path(self.records.name).read_text().splitlines(keepends=True)


def audit(text: str, lines: list[str]) -> tuple[int, str]:
    """The status and the answer of the auditor, of these records behind this policy text."""
    given = "nexus audit 1\n" + text + "".join(lines) + "end\n"
    ended = subprocess.run([services.program, "audit"], input=given.encode(), stdout=subprocess.PIPE, timeout=60)
    return ended.returncode, ended.stdout.decode()


def recovered(text: str) -> str:
    """The policy text of the whole lines of one that was cut."""
    ended = subprocess.run([services.program, "recover"], input=text.encode(), stdout=subprocess.PIPE, timeout=60)
    check("the status of recover", ended.returncode, 0)
    return ended.stdout.decode()


# A day


def recorded_of(line: str) -> str:
    """The record of a call of the day, by hand: with the answer of the clock, which is asked where `open` is called."""
    name, _, rest = line.partition(": ")
    request, _, reply = rest.rpartition("->")
    _, operation, thing, _ = request.split()
    word, at, *told = reply.split()
    answers = "y" if operation == "open" else "-"
    return f"{at} {name} {operation} {thing} {answers} : " + " ".join([word, *(told if word == "denied" else [])]) + "\n"


def play_day() -> tuple[str, list[str]]:
    """The day of `examples/serve`. Each call has its record, in the order in which they were answered."""
    with Recorded((SERVE / "policy").read_text(), 3, 1) as service:
        text = services.ask_day(service.address)
        check("the end of a recorded day", service.end(), (0, text))
        calls = [line for line in services.DAY.strip().splitlines() if ": call " in line]
        lines = service.lines()
        check("the records of the day", lines, [recorded_of(line) for line in calls])
    check("the audit of the day", audit(text, lines), (0, f"audited {len(lines)}\n"))
    mixed = random.Random(7).sample(lines, len(lines))
    check("the audit of the day in another order", audit(text, mixed), (0, f"audited {len(lines)}\n"))
    return text, lines


def play_changed_bytes(text: str, lines: list[str]) -> None:
    """A record that is right at its point alone, with one byte that was changed, at each of its places, is found."""
    place = next(number for number, line in enumerate(lines) if line == "7 bob read report - : allowed\n")
    line = lines[place]
    for index in range(len(line) - 1):
        for byte in "0x -":
            if line[index] == byte:
                continue
            other = line[:index] + byte + line[index + 1 :]
            status, answer = audit(text, [*lines[:place], other, *lines[place + 1 :]])
            wanted = [f"wrong record {place + 1}\n", f"refused line {1 + text.count(chr(10)) + place + 1}\n"]
            if status not in (1, 3) or answer not in wanted:
                raise Differs(f"a changed record is not found: {other!r}: {status} {answer!r}")
    check("each changed byte of a record is found", True, True)


# Without the word


def play_quiet() -> None:
    """Without the word nothing is written to standard error."""
    with tempfile.TemporaryFile() as errors:

        class Quiet(Service):
            def start(self, words: list[str]) -> subprocess.Popen[bytes]:
                return subprocess.Popen(words, stdin=subprocess.PIPE, stdout=self.output, stderr=errors)

        with Quiet(head(["alice"]) + "end\n", 1, 1) as service:
            with Session(service.address, "alice") as alice:
                check("a call that is not recorded", alice.ask("call read thing 0"), "refused 0 NoSuchObject")
            check("the status without records", service.end()[0], 0)
        check("what stands on standard error without the word", errors.seek(0, os.SEEK_END), 0)


def play_words() -> None:
    """The word stands last, behind the patience, and once."""
    for words in (["records", "5"], ["records", "records"], ["5", "records", "records"], ["record"]):
        ended = subprocess.run(
            [services.program, "serve", "127.0.0.1:1", "1", "1", *words], stdin=subprocess.DEVNULL, stdout=subprocess.PIPE, stderr=subprocess.PIPE, timeout=60
        )
        check(f"the words {' '.join(words)}", (ended.returncode, ended.stdout, ended.stderr), (2, b"", b""))


# A kill


OPEN = """1 alice object thing
1 alice goal read thing : true
1 alice goal add thing : true
1 alice proof read thing : proof 2 ; 1 true_i : true ; end
1 alice proof add thing : proof 2 ; 1 true_i : true ; end
"""


def call_on(address: str, told: list[str], changes: bool) -> None:
    """Calls, and changes the policy now and then, until the service is gone. The records of the replies that were read."""
    try:
        with Session(address, "alice") as alice:
            for number in range(1_000_000):
                operation = ["read", "add"][number % 2]
                word, at, *_ = alice.ask(f"call {operation} thing 1").split()
                if word != "allowed":
                    raise Differs(f"a call under load: {word}")
                told.append(f"{at} alice {operation} thing - : allowed\n")
                if changes and number % 50 == 0:
                    alice.ask("say alice : more")
    except (Ended, OSError):
        pass


def play_kill() -> None:
    """A service is killed under load. Each allowed reply that a client has read has its record, and all whole records are right."""
    with Recorded(head(["alice"]) + OPEN + "end\n", 4, 10) as service:
        told: list[list[str]] = [[] for _ in range(4)]
        clients = [threading.Thread(target=call_on, args=(service.address, told[index], index == 0)) for index in range(4)]
        for client in clients:
            client.start()
        time.sleep(1.5)
        service.process.kill()
        service.process.wait()
        for client in clients:
            client.join()
        read = Counter(line for lines in told for line in lines)
        whole = [line for line in service.lines() if line.endswith("\n")]
        check("calls were answered before the kill", sum(read.values()) > 1000, True)
        missing = read - Counter(whole)
        check("allowed replies that have no record", list(missing)[:3], [])
        check("records of calls that nobody has read", sum((Counter(whole) - read).values()) <= 4, True)
        policy = recovered(service.text())
        for first in range(0, len(whole), 65536):
            part = whole[first : first + 65536]
            check("the audit behind a kill", audit(policy, part), (0, f"audited {len(part)}\n"))


# Standard error fails


def play_full(what: str, errors: Union[IO[bytes], int]) -> None:
    """No record can be written. Calls are refused and step on no register, changes are answered, and the status is 5, with a whole text."""
    front = head(["alice"]) + OPEN
    with Recorded(front + "end\n", 2, 2, errors) as service:
        for number in range(2):
            with Session(service.address, "alice") as alice:
                at = 5 + number
                check(f"a call, {what}", alice.ask("call add thing 5"), f"refused {at} NotRecorded")
                check(f"the call behind it, {what}", alice.ask("call read thing 0"), f"refused {at} NotRecorded")
                check(f"a change, {what}", alice.ask(f"say alice : p({number})"), f"done {at + 1} {at + 1}")
        for _ in range(2):
            Session(service.address, "alice").close()
        status, text = service.end()
        check(f"the status, {what}", status, 5)
        check(f"the text, {what}", text.count("\n"), front.count("\n") + 3)
        check(f"the last line, {what}", text.endswith("end\n"), True)


def play_closed() -> None:
    """Standard error is closed. What the service opens next must not get its place."""
    front = head(["alice"]) + OPEN
    address = f"127.0.0.1:{services.free_port()}"
    with tempfile.NamedTemporaryFile() as output:
        process = subprocess.Popen(
            ["sh", "-c", 'exec "$0" serve "$1" 1 1 records 2>&-', services.program, address], stdin=subprocess.PIPE, stdout=output
        )
        try:
            process.stdin.write((front + "end\n").encode())
            process.stdin.close()
            with Session(address, "alice") as alice:
                check("a call, where standard error is closed", alice.ask("call add thing 5"), "refused 5 NotRecorded")
                check("a change, where standard error is closed", alice.ask("say alice : p"), "done 6 6")
            check("the status, where standard error is closed", process.wait(timeout=60), 5)
        finally:
            process.kill()
            process.wait()
        text = Path(output.name).read_text()
        check("the text, where standard error is closed", (text.count("\n"), text.endswith("end\n")), (front.count("\n") + 2, True))


def play_failures() -> None:
    """Each way in which no record can be written."""
    with open("/dev/full", "wb") as full:
        play_full("where standard error is full", full)
    reader, writer = os.pipe()
    os.close(reader)
    try:
        play_full("where its reader is gone", writer)
    finally:
        os.close(writer)
    play_closed()


def play() -> None:
    text, lines = play_day()
    play_changed_bytes(text, lines)
    play_quiet()
    play_words()
    play_kill()
    play_failures()


def main() -> int:
    if len(sys.argv) != 2:
        print(__doc__)
        return 2
    services.program = os.path.abspath(sys.argv[1])
    try:
        play()
    except (Differs, Ended, OSError, subprocess.TimeoutExpired) as differs:
        print(f"records: {differs}")
        return 1
    print(f"{len(services.passed)} checks of records pass")
    return 0


if __name__ == "__main__":
    sys.exit(main())
