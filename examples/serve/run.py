#!/usr/bin/env python3
"""Plays `nexus serve` over loopback TCP: a day of three sessions, a client that is killed, hostile peers, a service that is killed under
load, each status, and rights that are taken away and given 10,000 times under kept verdicts. What is wanted stands here and in
day.after, and comes from docs/FORMATS.md and docs/LOGIC.md.

    examples/serve/run.py PROGRAM

prints what differs first and ends with 1, or prints `N checks of the service pass` and ends with 0.
"""
from __future__ import annotations

import multiprocessing
import os
import random
import socket
import string
import struct
import subprocess
import sys
import tempfile
import threading
import time
from collections.abc import Callable, Iterable
from concurrent.futures import ThreadPoolExecutor
from pathlib import Path
from typing import IO, NamedTuple, TypeVar

from client import Client, Ended, frame, frame_of_line, line_of

S = TypeVar("S", bound="Service")
FOLDER = Path(__file__).parent
program = ""
passed: set[str] = set()


class Differs(Exception):
    """Something is not as it is wanted."""


def check(what: str, got: object, wanted: object) -> None:
    """Checks that the two are equal. One that is made again and again counts once, so the count is the same at each run."""
    if got != wanted:
        raise Differs(f"{what}: differs: wanted {str(wanted)[:400]!r}, got {str(got)[:400]!r}")
    passed.add(what)


def free_port() -> int:
    """A port on which nobody listens."""
    with socket.socket() as free:
        free.bind(("127.0.0.1", 0))
        return free.getsockname()[1]


def head(names: Iterable[str]) -> str:
    """The first lines of a policy of these principals."""
    return "nexus 2\n" + "".join(f"principal {name} {name}-secret\n" for name in names)


class Service:
    """A running service, which reads a policy and writes the policy text to a file. It is killed where it has not ended."""

    def __init__(self, policy: str, workers: int, sessions: int, *patience: int, address: str = "", folder: str | None = None) -> None:
        self.address = address or f"127.0.0.1:{free_port()}"
        self.output = tempfile.NamedTemporaryFile(dir=folder)
        self.process = self.start([program, "serve", self.address, str(workers), str(sessions), *map(str, patience)])
        self.process.stdin.write(policy.encode())
        self.process.stdin.close()

    def start(self, words: list[str]) -> subprocess.Popen[bytes]:
        """The process of these words. Its standard input is a pipe."""
        return subprocess.Popen(words, stdin=subprocess.PIPE, stdout=self.output)

    def __enter__(self: S) -> S:
        return self

    def __exit__(self, *_: object) -> None:
        self.kill()
        self.output.close()

    def kill(self) -> None:
        self.process.kill()
        self.process.wait()

    def text(self) -> str:
        """What was written."""
        return Path(self.output.name).read_text()

    def end(self) -> tuple[int, str]:
        """The status with which it ends, and what it wrote."""
        return self.process.wait(timeout=60), self.text()


class Session(Client):
    """A session of a principal. It keeps the line of each of its changes that was done, under the number of its entry."""

    def __init__(self, address: str, name: str) -> None:
        super().__init__(address, patience=20)
        self.name = name
        word, number, _ = self.ask(f"hello {name} {name}-secret").split()
        check("a hello", word, "welcome")
        self.number = int(number)
        self.lines: dict[int, str] = {}

    def change(self, line: str, canonical: str | None = None) -> int:
        """Asks for a change, which is to be done. The number of the reply."""
        return self.done(self.ask(line), canonical or line)

    def done(self, reply: str, line: str) -> int:
        """Keeps the line of a change with this reply."""
        word, at, number = (reply + " -").split()[:3]
        check(f"{self.name} is told that it is done: {line.split()[0]}", word, "done")
        self.lines[int(at)] = f"{self.number} {self.name} {line}\n"
        return int(number)

    def call(self, operation: str, thing: str, wanted: str) -> None:
        """Calls, and compares the reply without the length of the journal."""
        word, _, rest = self.ask(f"call {operation} {thing} 0").split(" ", 2)
        check(f"{self.name} calls {operation} {thing}", f"{word} {rest}", wanted)


def text_of(names: Iterable[str], sessions: Iterable[Session]) -> str:
    """The policy text that holds what these sessions were told to be done, and nothing else."""
    lines = {at: line for session in sessions for at, line in session.lines.items()}
    check("the numbers of the entries", sorted(lines), list(range(1, len(lines) + 1)))
    return head(names) + "".join(lines[at] for at in sorted(lines)) + "end\n"


# A day


DAY = """
storage: object report                          -> done 1 0
storage: goal read report : storage says may_read(?subject) -> done 2 0
storage: say storage : alice speaksfor storage on may_read -> done 3 3
storage: transfer 3 bob                         -> done 4 0
alice: say alice : may_read(bob)                -> done 5 5
bob: call read report 0                         -> denied 5 NoProof
bob: proof read report : proof 1;1 label:storage says(alice speaksfor storage on(may_read));2 handoff_on 1:alice speaksfor storage on may_read;3 label:alice says may_read(bob);4 sf_on_e 2 3:storage says may_read(bob);end -> done 6 0
bob: call read report 0                         -> denied 6 LabelMissing 3
alice: goal read report : true                  -> refused 6 NotOwner
bob: say alice : may_read(bob)                  -> refused 6 NotYourPrincipal
bob: transfer 5 bob                             -> refused 6 NotHolder
alice: transfer 5 bob                           -> done 7 0
bob: call read report 0                         -> allowed 7 0 0
bob: call read report 0                         -> allowed 7 1 0
alice: say alice : note                         -> done 8 8
bob: call read report 0                         -> allowed 8 1 0
alice: call read report 0                       -> denied 8 NoProof
storage: goal write report : true               -> done 9 0
storage: proof write report : proof 2;1 true_i:true;end -> done 10 1
storage: call write report 7                    -> allowed 10 0 0
bob: call read report 0                         -> allowed 10 0 7
bob: call read report 0                         -> allowed 10 1 7
storage: bind storage.clock 0                   -> done 11 0
storage: goal open report : storage.clock says TimeNow<4102444800 -> done 12 0
bob: proof open report : proof 2;1 ask:storage.clock says TimeNow<4102444800;end -> done 13 2
bob: call open report 0                         -> allowed 13 0 0
bob: call open report 0                         -> allowed 13 0 0
storage: goal read report : storage says may_audit(?subject) -> done 14 0
bob: call read report 0                         -> denied 14 Line 4 NotGoal
bob: call read report 0                         -> denied 14 Line 4 NotGoal
bob: delete 5                                   -> done 15 0
alice: delete 5                                 -> refused 15 NoSuchLabel
bob: noproof read report                        -> done 16 0
bob: call read report 0                         -> denied 16 NoProof
"""


def ask_day(address: str) -> str:
    """Three sessions, each request behind the reply to the one before. The first goal is shown by a label of the owner that hands reading
    to alice; a clock answers for the owner until the year 2100. The policy text that is written of it."""
    sessions = {name: Session(address, name) for name in ["storage", "alice", "bob"]}
    check("the sessions", sorted(session.number for session in sessions.values()), [1, 2, 3])
    for number, line in enumerate(DAY.strip().splitlines(), 1):
        name, _, rest = line.partition(": ")
        request, _, wanted = rest.rpartition("->")
        check(f"line {number} of the day, {request.strip()}", sessions[name].ask(request.rstrip()), wanted.strip())
    for session in sessions.values():
        session.close()
    numbers = {name: str(session.number) for name, session in sessions.items()}
    return string.Template((FOLDER / "day.after").read_text()).substitute(numbers)


def play_day() -> None:
    """The day over TCP."""
    with Service((FOLDER / "policy").read_text(), 3, 1) as service:
        text = ask_day(service.address)
        check("the end of the day", service.end(), (0, text))


# A client that is killed


def write_half(address: str, pipe: "multiprocessing.connection.Connection") -> None:
    """Makes one change, sends half of another one, and waits to be killed."""
    session = Session(address, "bob")
    session.change("say bob : whole")
    session.send(frame_of_line("say bob : half")[:12])
    pipe.send((session.number, session.lines))
    pipe.recv()


def play_killed_client() -> None:
    """Of two workers one has a client that is killed, and one that resets its connection, in the middle of a frame."""
    names = ["alice", "bob"]
    with Service(head(names) + "end\n", 2, 2) as service:
        steady = Session(service.address, "alice")
        steady.change("say alice : first")
        here, there = multiprocessing.Pipe()
        killed = multiprocessing.Process(target=write_half, args=(service.address, there))
        killed.start()
        number, lines = here.recv()
        steady.change("say alice : second")
        killed.kill()
        killed.join()
        reset = Session(service.address, "bob")
        reset.change("say bob : other")
        reset.send(frame_of_line("say bob : half")[:5])
        reset.socket.setsockopt(socket.SOL_SOCKET, socket.SO_LINGER, struct.pack("ii", 1, 0))
        reset.close()
        steady.change("say alice : third")
        steady.close()
        later = Session(service.address, "bob")
        later.change("say bob : later")
        later.lines |= lines
        later.close()
        check("the sessions", sorted([steady.number, number, reset.number, later.number]), [1, 2, 3, 4])
        check("the end of a killed client's service", service.end(), (0, text_of(names, [steady, reset, later])))


# Hostile peers


class Worst(NamedTuple):
    """A case at the limits: the operation, changes before it, its goal and its proof, each as it is sent and as it is written, and the
    verdict of a call."""

    operation: str
    before: list[tuple[str, str]]
    goal: tuple[str, str]
    proof: tuple[str, str]
    verdict: str


def twice(text: str) -> tuple[str, str]:
    """A text that is canonical as it is sent."""
    return text, text


def worst_cases() -> list[Worst]:
    """The largest and the deepest that the limits let through."""
    parts = "p" + " or p" * 202
    allowed = "allowed {} 0"
    levels = "(" * 64
    says = "worst says " * 63 + "p"
    name = "worst" + ".b" * 505
    nots = "not " * 64 + "p", "(" * 63 + "p" + " => false)" * 63 + " => false"
    half = "p" + " and p" * 15
    choice = f"1 hyp : {half} or {half} ; 2 hyp : {half} ; 3 or_e 1 2 2 2 2 : {half}"
    for k in range(4, 256):
        choice += f" ; {k} or_e 1 2 {k - 1} 2 {k - 1} : {half}"
    choice += f" ; 256 imp_i 1 255 : {half} or {half} => {half}"
    return [
        Worst("parts", [twice(f"say worst : {parts}")], twice(f"{parts} or true"), twice(f"1 true_i : true ; 2 or_r 1 : {parts} or true"), allowed),
        Worst(
            "brackets",
            [(f"say worst : {levels}p{')' * 64}", "say worst : p")],
            (f"{levels}true{')' * 64}", "true"),
            (f"1 true_i : {levels}true{')' * 64}", "1 true_i : true"),
            allowed,
        ),
        Worst("speech", [twice(f"say worst : {says}")], twice(f"worst says {says}"), twice(f"1 label : worst says {says}"), allowed),
        Worst("names", [twice(f"say {name} : p")], twice(f"{name} says p"), twice(f"1 label : {name} says p"), allowed),
        Worst("nots", [], nots, (f"1 hyp : {nots[0]}", f"1 hyp : {nots[1]}"), "denied Line 1 StillOpen"),
        Worst("choices", [], twice(f"{half} or {half} => {half}"), twice(choice), allowed),
    ]


def play_worst(address: str) -> Session:
    """Formulas of 204 parts, of 64 levels and of 505 subprincipals, and a proof of 256 lines with five references each."""
    session = Session(address, "worst")
    session.change("object heavy")
    for case in worst_cases():
        for sent, written in case.before:
            session.change(sent, written)
        session.change(f"goal {case.operation} heavy : {case.goal[0]}", f"goal {case.operation} heavy : {case.goal[1]}")
        proof = f"proof {case.operation} heavy : proof 2 ; "
        session.change(f"{proof}{case.proof[0]} ; end", f"{proof}{case.proof[1]} ; end")
        session.call(case.operation, "heavy", case.verdict.format(0))
        session.call(case.operation, "heavy", case.verdict.format(1))
    for line, refusal in [
        ("say worst : p" + " or p" * 203, "BadFormula"),
        (f"goal parts heavy : {'(' * 65}p{')' * 65}", "BadFormula"),
        ("proof parts heavy : proof 2" + "".join(f";{k} true_i:true" for k in range(1, 258)) + ";end", "BadProof"),
    ]:
        check(f"the refusal of {line[:40]}", session.ask(line).split()[2], refusal)
    session.close()
    return session


def play_slow(address: str) -> Session:
    """Sends a change a byte every 50 milliseconds."""
    session = Session(address, "slow")
    for byte in frame_of_line("say slow : ok"):
        session.send(bytes([byte]))
        time.sleep(0.05)
    session.done(line_of(session.read()), "say slow : ok")
    session.close()
    return session


def play_silent(address: str) -> None:
    """Says nothing for a second."""
    with Client(address, patience=20):
        time.sleep(1)


def play_deaf(address: str) -> None:
    """Reads no reply, sends calls until the service takes no more of them or three seconds have passed, and closes."""
    with Client(address, patience=20) as client:
        client.socket.setsockopt(socket.SOL_SOCKET, socket.SO_RCVBUF, 4096)
        client.send(frame_of_line("hello deaf deaf-secret"))
        client.socket.settimeout(0.5)
        end = time.monotonic() + 3
        try:
            while time.monotonic() < end:
                client.send(frame_of_line("call read nothing 0") * 100)
        except TimeoutError:
            pass


# What is no frame of a request, and its reply: that with the place of the first wrong byte, or none where the frame is cut.
HELLO = frame(1, "bob", "pw")
GARBAGE: list[tuple[str, bytes, str | None]] = [
    ("a length that is too large", bytes.fromhex("00008401"), "bad 0"),
    ("a length of 0", bytes(4), "bad 4"),
    ("an unknown kind", frame(14), "bad 4"),
    ("a name that is none", frame(1, "1ob", "pw"), "bad 5"),
    ("a field that runs past the end", bytes.fromhex("0000000501") + bytes.fromhex("0003626f"), "bad 5"),
    ("a byte behind the last field", bytes([0, 0, 0, HELLO[3] + 1]) + HELLO[4:] + b"!", "bad 14"),
    ("a cut frame", bytes(3), None),
    ("random bytes", b"\xff" + random.Random(1).randbytes(70000), "bad 0"),
]


def play_garbage(address: str, what: str, data: bytes, wanted: str | None) -> None:
    """Sends what is no frame, and reads the reply. A connection may be reset where bytes were sent that nobody took."""
    with Client(address, patience=20) as client:
        try:
            client.send(data)
            client.socket.shutdown(socket.SHUT_WR)
            reply = line_of(client.read())
        except Ended:
            reply = None
        except ConnectionError:
            reply = "bad 0" if len(data) > 4096 else "reset"
        check(what, reply, wanted)


def play_steady(address: str, name: str, is_over: Callable[[], bool]) -> Session:
    """Makes changes and calls until it is over. A label that is deleted puts an end to the verdict that is kept."""
    session = Session(address, name)
    session.change(f"object {name}")
    session.change(f"goal read {name} : true")
    session.change(f"proof read {name} : proof 2 ; 1 true_i : true ; end")
    while True:
        number = session.change(f"say {name} : ok")
        session.change(f"delete {number}")
        session.call("read", name, "allowed 0 0")
        session.call("read", name, "allowed 1 0")
        if is_over():
            session.close()
            return session
        time.sleep(0.02)


def play_hostile() -> None:
    """Eight workers with two sessions each: two clients are served while hostile ones hold or use up all other workers, and two behind them."""
    names = ["worst", "slow", "deaf", "ann", "ben"]
    with Service(head(names) + "end\n", 8, 2) as service, ThreadPoolExecutor(16) as pool:
        address = service.address
        over = threading.Event()
        steady = [pool.submit(play_steady, address, name, over.is_set) for name in ["ann", "ben"]]
        try:
            peers = [pool.submit(play, address) for play in [play_worst, play_slow, play_silent, play_deaf]]
            peers += [pool.submit(play_garbage, address, *garbage) for garbage in GARBAGE]
            told = [peer.result() for peer in peers]
        finally:
            over.set()
        sessions = [peer.result() for peer in steady] + [session for session in told if session is not None]
        for name in ["ann", "ben"]:
            late = Session(address, name)
            late.change(f"say {name} : late")
            late.close()
            sessions.append(late)
        check("the numbers of the sessions", len({session.number for session in sessions} & set(range(1, 17))), len(sessions))
        check("the end of a service with hostile peers", service.end(), (0, text_of(names, sessions)))


# A service that is killed


def write_until_killed(session: Session, turns: list[int]) -> None:
    """Makes changes until the service is gone. Keeps in `turns` how many it asked for."""
    try:
        for turn in range(1, 4000):
            turns.append(turn)
            session.change(f"say {session.name} : ok({turn})")
    except (Ended, ConnectionError):
        pass


def play_killed_service(delay: float) -> int:
    """A service is killed under the load of four clients. Each change that was done stands in what was written, which is whole lines
    of changes that were asked for, each client's in their order, and a part of one more. How many changes were done."""
    names = ["ann", "ben", "carol", "dave"]
    with Service(head(names) + "end\n", 4, 1) as service, ThreadPoolExecutor(4) as pool:
        sessions = [Session(service.address, name) for name in names]
        turns: list[list[int]] = [[] for _ in sessions]
        writers = [pool.submit(write_until_killed, session, asked) for session, asked in zip(sessions, turns)]
        time.sleep(delay)
        service.kill()
        for writer in writers:
            writer.result()
        text = service.text()
        front = head(names)
        check("the front of a killed service's text", text[: len(front)], front)
        written = text[len(front) :].splitlines(keepends=True)
        whole = [line for line in written if line.endswith("\n")]
        for session, asked in zip(sessions, turns):
            for at, line in session.lines.items():
                check("a change that was done", whole[at - 1 : at], [line])
            mine = [line for line in whole if line.startswith(f"{session.number} ")]
            wanted = [f"{session.number} {session.name} say {session.name} : ok({turn})\n" for turn in asked]
            check("the lines of a session", mine, wanted[: len(mine)])
            session.close()
        check("the lines of nobody", len(whole), sum(line.startswith(f"{s.number} {s.name} ") for line in whole for s in sessions))
    play_restart(names, text, front + "".join(whole) + "end\n")
    return sum(len(session.lines) for session in sessions)


def play_restart(names: list[str], cut: str, whole: str) -> None:
    """What a killed service had written is made a policy text again, from which a service starts that goes on behind it."""
    recovered = subprocess.run([program, "recover"], input=cut.encode(), stdout=subprocess.PIPE, timeout=60)
    check("what is recovered of a killed service", (recovered.returncode, recovered.stdout.decode()), (0, whole))
    with Service(whole, 1, 1) as service:
        session = Session(service.address, names[0])
        at = whole.count("\n") - len(names) - 2
        session.change("object later")
        check("the first change behind a restart", list(session.lines), [at + 1])
        session.close()
        check("the end of a service that was started again", service.end()[0], 0)


def play_kills() -> None:
    """A service is killed fifty times, at moments that are drawn from a seed."""
    draw = random.Random(20110319)
    done = sum(play_killed_service(draw.uniform(0, 0.2)) for _ in range(50))
    check("that changes were done before the kills", done > 50, True)


# Statuses


def run(words: list[str], policy: str, output: IO[bytes] | int = subprocess.PIPE) -> tuple[int, str]:
    """The status with which `serve` ends, and what it writes."""
    ended = subprocess.run([program, "serve", *words], input=policy.encode(), stdout=output, timeout=60)
    return ended.returncode, (ended.stdout or b"").decode()


def play_statuses() -> None:
    """The statuses of services that serve nobody."""
    one = head(["alice"])
    here = f"127.0.0.1:{free_port()}"
    start = [here, "1", "1"]
    for words in [
        [], [here], [here, "1"], [here, "0", "1"], [here, "1025", "1"], [here, "1", "0"], [here, "1", "65537"], [here, "01", "1"], [here, "1", "+1"],
        [here, "1", "-1"], [here, "1", ""], [here, "1", "1", "0"], [here, "1", "1", "86401"], [here, "1", "1", "01"], [here, "1", "1", "1.5"],
        [here, "1", "1", ""], [here, "1", "1", "1", "1"], ["", "1", "1"], ["help", "1", "1"], ["-" + here, "1", "1"], ["a" * 65, "1", "1"],
        ["a b", "1", "1"],
    ]:  # fmt: skip
        check(f"the words serve {words}", run(words, one + "end\n"), (2, ""))
    for what, policy, line in [
        ("an empty policy", "", 1),
        ("a principal without a secret", "nexus 2\nprincipal alice\nend\n", 2),
        ("a policy without its end", one, 3),
        ("a line behind the end", one + "end\n\n", 4),
        ("an entry that is refused", one + "1 alice goal read f : true\nend\n", 3),
        ("a session's number that leaves none", one + f"{2**64 - 2} alice object f\nend\n", 3),
    ]:
        check(what, run(start, policy), (3, f"refused line {line}\n"))
    folder = os.open("/", os.O_RDONLY)
    check("an input that cannot be read", subprocess.run([program, "serve", *start], stdin=folder, timeout=60).returncode, 4)
    os.close(folder)
    with open("/dev/full", "wb") as full:
        check("an output that takes nothing", run(start, one + "end\n", full), (5, ""))
        check("a refusal that cannot be written", run(start, "", full), (5, ""))
    with socket.create_server(("127.0.0.1", 0)) as taken:
        check("an address that is taken", run([f"127.0.0.1:{taken.getsockname()[1]}", "1", "1"], one + "end\n"), (7, ""))
    check("an address without a port", run(["127.0.0.1", "1", "1"], one + "end\n"), (7, ""))
    check("an authority that is not there", run(start, one + f"authority 3 127.0.0.1:{free_port()}\nend\n"), (8, ""))


def play_broken_output() -> None:
    """Nobody reads the policy text any more: each change is refused from then on, calls are answered, and the status is 5."""
    here = f"127.0.0.1:{free_port()}"
    policy = head(["alice"]) + "end\n"
    process = subprocess.Popen([program, "serve", here, "1", "1"], stdin=subprocess.PIPE, stdout=subprocess.PIPE)
    try:
        process.stdin.write(policy.encode())
        process.stdin.close()
        with Client(here, patience=20) as client:
            for line, wanted in [("hello alice alice-secret", "welcome 1 0"), ("object f", "done 1 0")]:
                check(line, client.ask(line), wanted)
            process.stdout.close()
            for line, wanted in [
                ("object g", "refused 1 NotRecorded"),
                ("goal read f : true", "refused 1 NotRecorded"),
                ("object f", "refused 1 NameTaken"),
                ("call read f 0", "denied 1 GoalUnset"),
            ]:
                check(f"{line}, which is not written", client.ask(line), wanted)
        check("the status of a service whose text is not written", process.wait(timeout=60), 5)
    finally:
        process.kill()
        process.wait()


# The client of the program


def talk(address: str, lines: str, output: IO[bytes] | int = subprocess.PIPE) -> tuple[int, str]:
    """The status with which `client` ends, and what it writes."""
    ended = subprocess.run([program, "client", address], input=lines.encode(), stdout=output, timeout=60)
    return ended.returncode, (ended.stdout or b"").decode()


def talk_when_ready(address: str, lines: str) -> tuple[int, str]:
    """The same, once somebody listens there."""
    for _ in range(500):
        told = talk(address, lines)
        if told[0] != 7:
            return told
        time.sleep(0.02)
    return told


def answer_with(data: bytes) -> tuple[str, threading.Thread]:
    """The address of a peer that takes one connection, reads something, sends these bytes and closes it."""
    taken = socket.create_server(("127.0.0.1", 0))

    def answer() -> None:
        link, _ = taken.accept()
        with taken, link:
            link.recv(1)
            link.sendall(data)
            link.shutdown(socket.SHUT_WR)
            while link.recv(4096):
                pass

    thread = threading.Thread(target=answer)
    thread.start()
    return f"127.0.0.1:{taken.getsockname()[1]}", thread


def play_client() -> None:
    """The program's own client against a service, with the tour's request lines; and its other ends."""
    with Service((FOLDER / "policy").read_text(), 1, 3) as service:
        told = talk_when_ready(service.address, (FOLDER / "storage.requests").read_text())
        check("what the storage service is told", told, (0, "welcome 1 0\ndone 1 0\ndone 2 0\ndone 3 3\ndone 4 0\n"))
        told = talk(service.address, (FOLDER / "bob.requests").read_text())
        check("what bob is told", told, (0, "welcome 2 4\ndenied 4 NoProof\ndone 5 0\nallowed 5 0 0\nallowed 5 1 0\n"))
        with open("/dev/full", "wb") as full:
            check("replies that cannot be written", talk(service.address, "hello bob bob-secret\n", full), (5, ""))
        check("the end of a service of clients", service.end()[0], 0)
    check("a line that is no request", talk("127.0.0.1:1", "hello bob pb\nhello\n"), (3, "refused line 2\n"))
    check("nobody listens", talk(f"127.0.0.1:{free_port()}", "hello bob pb"), (7, ""))
    welcome = bytes.fromhex("0000001141" + "0000000000000001" + "0000000000000000")
    for what, data, lines, wanted in [
        ("a reply", welcome, "hello bob pw", (0, "welcome 1 0\n")),
        ("a part of a reply", welcome[:3], "hello bob pw", (9, "")),
        ("one reply to two requests", welcome, "hello bob pw\nobject f\n", (9, "welcome 1 0\n")),
        ("what is no reply", bytes.fromhex("0000000100"), "hello bob pw", (9, "")),
    ]:
        address, thread = answer_with(data)
        check(what, talk(address, lines), wanted)
        thread.join()
    for words in [[], ["a", "b"], ["help"], ["-a"], [""], ["a b"]]:
        ended = subprocess.run([program, "client", *words], input=b"", stdout=subprocess.PIPE, timeout=60)
        check(f"the words client {words}", (ended.returncode, ended.stdout), (2, b""))


# What is told is fresh


OWNERS, ROUNDS = 8, 1250
READERS = ["bob", "carol", "dave"]
OPEN, CLOSE, READ = "goal read {0} : {0} says open", "nogoal read {0}", "call read {0} 0"


def ask_each(sessions: list[Session], data: bytes) -> list[str]:
    """Sends the same to each session, and then takes a reply from each."""
    for session in sessions:
        session.send(data)
    return [line_of(session.read()) for session in sessions]


def welcome_readers(owner: Session, readers: list[Session]) -> None:
    """Makes an object with the owner's name, which who has the owner's word may read, and all may write. Each reader gets that word."""
    name = owner.name
    owner.change(f"object {name}")
    owner.change(f"goal write {name} : true")
    owner.change(OPEN.format(name))
    for reader in readers:
        label = owner.change(f"say {name} : open")
        owner.change(f"transfer {label} {reader.name}")
        reader.change(f"proof read {name} : proof 1;1 label:{name} says open;end")
        reader.change(f"proof write {name} : proof 1;1 true_i:true;end")
        reader.call("read", name, "allowed 0 0")
        reader.call("read", name, "allowed 1 0")


def take_away_and_give(owner: Session, readers: list[Session]) -> None:
    """Takes the right of three readers away and gives it again, many times. A reader that asks behind the `done` of the one is denied,
    though its kept verdict allows it, and behind that of the other it is allowed; and what the register is told to hold is what the last
    reader wrote."""
    name = owner.name
    opening, closing, reading = (frame_of_line(line.format(name)) for line in (OPEN, CLOSE, READ))
    for turn in range(ROUNDS):
        owner.send(closing)
        at = owner.read().at
        check("a right that was taken away", ask_each(readers, reading), [f"denied {at} GoalUnset"] * 3)
        owner.send(opening)
        at = owner.read().at
        check("an end of a turn", at, owner.first + 2 * (turn + 1))
        writer = readers[turn % 3]
        check("a write", writer.ask(f"call write {name} {turn + 1}").split()[::3], ["allowed", str(turn)])
        check("a right that was given", ask_each(readers, reading), [f"allowed {at} 0 {turn + 1}"] * 3)
        check("a kept verdict", ask_each(readers, reading), [f"allowed {at} 1 {turn + 1}"] * 3)


def play_fresh() -> None:
    """The text stands in memory, where there is a folder for that: each of 20,000 changes is synced before it is answered."""
    owners = [f"owner{number}" for number in range(OWNERS)]
    folder = "/dev/shm" if os.access("/dev/shm", os.W_OK) else None
    with Service(head(owners + READERS) + "end\n", 4, OWNERS + len(READERS), folder=folder) as service:
        readers = [Session(service.address, name) for name in READERS]
        for name in owners:
            with Session(service.address, name) as owner:
                welcome_readers(owner, readers)
                owner.first = max(at for session in (owner, *readers) for at in session.lines)
                take_away_and_give(owner, readers)
        for reader in readers:
            reader.close()
        check("the lines of many turns", service.text().count("\n"), 1 + OWNERS + 3 + OWNERS * (3 + 4 * 3 + 2 * ROUNDS))


def main() -> int:
    global program
    program = sys.argv[1]
    try:
        for play in [play_day, play_killed_client, play_hostile, play_kills, play_statuses, play_broken_output, play_client, play_fresh]:
            play()
    except Differs as differs:
        print(f"serve: {differs}")
        return 1
    print(f"{len(passed)} checks of the service pass")
    return 0


if __name__ == "__main__":
    sys.exit(main())
