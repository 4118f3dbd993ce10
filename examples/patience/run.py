#!/usr/bin/env python3
"""Plays peers that would hold all workers of `nexus serve`: silent ones, ones that send a byte a second, refused hellos, admitted ones
that sleep or read nothing, and garbage. Others are served meanwhile, and who lets the service wait for too long is given up. And a
service of as many workers and sessions as there may be starts at once, and takes little memory; one whose memory ends has a whole text.
What is wanted stands here, and comes from docs/OPERATING.md, "Peers that are silent, and local sockets", "How to size a service" and
"Status 6".

    examples/patience/run.py PROGRAM

prints what differs first and ends with 1, or prints `N checks of patience pass` and ends with 0.
"""
from __future__ import annotations

import math
import multiprocessing
import re
import resource
import selectors
import signal
import socket
import subprocess
import sys
import tempfile
import time
from concurrent.futures import ThreadPoolExecutor
from multiprocessing.connection import Connection
from pathlib import Path

sys.path.insert(0, str(Path(__file__).resolve().parents[1] / "serve"))

import run as services
from client import Client, Ended, frame, frame_of_line
from run import Differs, Service, Session, check, head

# When a peer is closed that is not admitted: after ten seconds, give or take what clocks and a busy machine do.
SOONEST, LATEST = 9, 13
# So many seconds may 99 of 100 calls take, and a new client until it is welcome.
CALL, WELCOME = 0.05, 5
# For so many seconds a client calls as fast as it is answered, and beside a crowd at least so much of its rate is left.
RUSH, LEFT = 1, 0.5
TRIES, CALLS = 3, 600
# So many files may the service have open, and so many peers of each kind there are where it may.
FILES, WORKERS, SESSIONS = 8192, 1024, 65536
# So many seconds may a largest service take until all of its workers are there, and so many bytes it may then hold in memory.
START, RESIDENT = 1, 64_000_000
CROWD = {"silent": 700, "slow": 100, "wrong": 10, "deaf": 100, "asleep": 64, "garbage": 1}

HELLO = frame_of_line("hello crowd crowd-secret")
WRONG = frame_of_line("hello crowd wrong-secret")
CALLING = frame_of_line("call read nothing 0") * 100
# No request has this kind, which is told once the whole frame was taken. 30 of them a second are a megabyte.
GARBAGE = frame(255, "x" * 33_780)
GARBAGE_EACH = 1 / 30


def link_to(address: str, deaf: bool = False) -> socket.socket:
    """A connection, once somebody listens. A deaf one has little room for what it doesn't read, on both sides."""
    end = time.monotonic() + 20
    while True:
        link = socket.socket()
        if deaf:
            link.setsockopt(socket.SOL_SOCKET, socket.SO_RCVBUF, 4096)
            link.setsockopt(socket.IPPROTO_TCP, socket.TCP_MAXSEG, 536)
        link.settimeout(20)
        host, _, port = address.rpartition(":")
        try:
            link.connect((host, int(port)))
            return link
        except ConnectionRefusedError:
            link.close()
            if time.monotonic() >= end:
                raise
            time.sleep(0.01)


def seconds_until_closed(link: socket.socket, since: float) -> float:
    """How long after this moment a connection is closed, or 20 seconds more than it is looked at. What comes before is passed over."""
    link.settimeout(20)
    try:
        while link.recv(4096):
            pass
    except OSError:
        pass
    link.close()
    return time.monotonic() - since


# A largest service


def number_of(service: Service, name: str) -> int:
    """A number that the system tells of the process: how many threads it has, or how many KiB it holds in memory."""
    status = Path(f"/proc/{service.process.pid}/status").read_text()
    return int(re.findall(rf"^{name}:\s*(\d+)", status, re.MULTILINE)[0])


def start_largest(workers: int, path: Path) -> tuple[float, int]:
    """How many seconds a service took until its policy was written and all of its workers were there, and how many bytes it held then,
    before anybody connected. It is served, and ends when it is told to."""
    policy = head(["alice"])
    since = time.monotonic()
    with Service(policy + "end\n", workers, SESSIONS, address=f"unix:{path}") as service:
        while service.text() != policy or number_of(service, "Threads") < workers:
            check("a largest service goes on", service.process.poll(), None)
            check("a largest service is there within 20 seconds", time.monotonic() - since < 20, True)
            time.sleep(0.005)
        took = time.monotonic() - since
        resident = 1024 * number_of(service, "VmRSS")
        with Session(service.address, "alice") as alice:
            alice.change("say alice : here")
        service.process.terminate()
        check("a largest service ends when it is told to", service.process.wait(timeout=10), -signal.SIGTERM)
        text = policy + "".join(alice.lines.values())
        check("the text of a largest service", service.text(), text)
        ended = subprocess.run([services.program, "recover"], input=text.encode(), stdout=subprocess.PIPE, timeout=60)
        check("what is recovered of a largest service", (ended.returncode, ended.stdout.decode()), (0, text + "end\n"))
    return took, resident


def play_largest(workers: int) -> str:
    """As many workers and sessions as there may be. The soonest of some starts counts, since others work on the machine. What was measured."""
    with tempfile.TemporaryDirectory() as folder:
        best, most = math.inf, 0
        for number in range(TRIES):
            took, resident = start_largest(workers, Path(folder) / str(number))
            best, most = min(best, took), max(most, resident)
            if best < START:
                break
    check("a largest service starts within a second", best < START or best, True)
    check("the memory of a largest service before anybody connects", most < RESIDENT or most, True)
    return f"{workers} workers of {SESSIONS} sessions are there after {best:.2f} s, in {most / 1_000_000:.0f} MB"


def is_answered(address: str) -> bool:
    """Has one more session. Whether anything is answered in it."""
    try:
        with Client(address) as client:
            client.ask("hello alice alice-secret")
        return True
    except (OSError, Ended):
        return False


def play_short() -> None:
    """A service that gets no more memory from the system once it has served a session. It goes on with what it has, until there is none for
    the report of one session more; then it ends by itself, and its text is whole."""
    policy = head(["alice"])
    with tempfile.TemporaryDirectory() as folder, Service(policy + "end\n", 1, SESSIONS, address=f"unix:{folder}/short") as service:
        with Session(service.address, "alice") as alice:
            alice.change("say alice : here")
        size = 1024 * number_of(service, "VmSize")
        resource.prlimit(service.process.pid, resource.RLIMIT_AS, (size, size))
        served = next((number for number in range(SESSIONS) if not is_answered(service.address)), SESSIONS)
        check("a service whose memory ends has served some sessions, and not all", 1 < served < SESSIONS - 1 or served, True)
        text = policy + "".join(alice.lines.values()) + "end\n"
        check("the end of a service whose memory ends", service.end(), (6, text))


# Few peers


def play_few() -> None:
    """As many peers as there are workers connect and say nothing. A client behind them gets in when they are given up."""
    with Service(head(["alice"]) + "end\n", 64, 2) as service:
        silent = [link_to(service.address) for _ in range(64)]
        since = time.monotonic()
        session = Session(service.address, "alice")
        check("a client behind silent peers gets in within 15 seconds", time.monotonic() - since < 15, True)
        session.change("say alice : here")
        lives = [seconds_until_closed(link, since) for link in silent]
        check("all silent peers are closed when one of them is", max(lives) < 20 or lives, True)
        session.change("say alice : later")
        session.close()
        check("the text of a service behind silent peers", service.text(), head(["alice"]) + "".join(session.lines.values()))


def sleep_long(address: str) -> Session:
    """Is admitted, makes a change, and says nothing."""
    session = Session(address, "sleeper")
    session.change("say sleeper : good(night)")
    lived = seconds_until_closed(session.socket, time.monotonic())
    check("one that sleeps is closed after two seconds", 1.9 < lived < 6 or lived, True)
    return session


def ask_each_second(address: str) -> Session:
    """Asks each second, six times."""
    session = Session(address, "waker")
    for _ in range(6):
        time.sleep(1)
        session.change("say waker : here")
    session.close()
    return session


def read_nothing(address: str) -> None:
    """Is admitted, and sends calls until it is closed."""
    link = link_to(address, deaf=True)
    since = time.monotonic()
    try:
        link.sendall(frame_of_line("hello deaf deaf-secret"))
        while time.monotonic() - since < 20:
            link.sendall(CALLING)
    except ConnectionError:
        pass
    link.close()
    lived = time.monotonic() - since
    check("one that reads nothing is closed", lived < 15 or lived, True)


def say_nothing(address: str) -> None:
    """Is not admitted, and is closed no sooner than any such peer."""
    link = link_to(address)
    lived = seconds_until_closed(link, time.monotonic())
    check("one that says nothing is closed after ten seconds", SOONEST <= lived <= LATEST or lived, True)


def play_sleepers() -> None:
    """A service that waits for two seconds. Each of its four workers has one of these peers first, and then takes the next one. Nothing is
    left of what was given up: the text is whole, and the status 0."""
    names = ["sleeper", "waker", "deaf", "late"]
    with Service(head(names) + "end\n", 4, 2, 2) as service, ThreadPoolExecutor(4) as pool:
        peers = [pool.submit(play, service.address) for play in [sleep_long, ask_each_second, read_nothing, say_nothing]]
        sessions = [session for session in (peer.result() for peer in peers) if session is not None]
        for _ in range(4):
            late = Session(service.address, "late")
            late.change("say late : here")
            late.close()
            sessions.append(late)
        check("the end of a service that gave up peers", service.end(), (0, services.text_of(names, sessions)))


# A crowd


class Peer:
    """One connection of the crowd."""

    def __init__(self, kind: str, address: str) -> None:
        self.kind = kind
        self.link = link_to(address, deaf=kind == "deaf")
        self.link.setblocking(False)
        self.since = self.due = time.monotonic()
        self.sent = 0

    @property
    def events(self) -> int:
        """What it waits for. A deaf one hears nothing, not even its end, but as it sends."""
        return selectors.EVENT_WRITE if self.kind == "deaf" else selectors.EVENT_READ

    def send(self, data: bytes) -> None:
        """Sends what the system takes."""
        try:
            self.sent += self.link.send(data)
        except BlockingIOError:
            pass

    def act(self) -> None:
        """Does what its kind does in its time."""
        if self.kind == "slow":
            self.send(HELLO[self.sent : self.sent + 1])
        elif self.kind == "wrong":
            self.send(WRONG)
        elif self.kind in ("asleep", "garbage"):
            data = HELLO if self.kind == "asleep" else GARBAGE
            self.send(data[self.sent :])
        self.due += 1

    def wake(self) -> bool:
        """Reads, or sends where it is a deaf one. Whether it lives on."""
        try:
            if self.kind == "deaf":
                # The rest of a frame that was taken in part comes first.
                data = HELLO + CALLING
                start = self.sent if self.sent < len(HELLO) else len(HELLO) + (self.sent - len(HELLO)) % len(CALLING)
                self.send(data[start:])
                return True
            return self.link.recv(65536) != b""
        except BlockingIOError:
            return True
        except ConnectionError:
            return False


class Crowd:
    """Peers of all kinds, each of which is replaced by another one when the service closes it."""

    def __init__(self, address: str, counts: dict[str, int]) -> None:
        self.address = address
        self.waiting = selectors.DefaultSelector()
        self.lives: dict[str, list[float]] = {kind: [] for kind in counts}
        self.sent = {kind: 0 for kind in counts}
        self.timed: set[Peer] = set()
        for kind, count in counts.items():
            for _ in range(count):
                self.add(kind)

    def add(self, kind: str) -> None:
        peer = Peer(kind, self.address)
        self.waiting.register(peer.link, peer.events, peer)
        if kind in ("slow", "wrong", "asleep", "garbage"):
            self.timed.add(peer)

    def end(self, peer: Peer) -> None:
        """Keeps how long it lived."""
        self.waiting.unregister(peer.link)
        self.timed.discard(peer)
        peer.link.close()
        self.lives[peer.kind].append(time.monotonic() - peer.since)
        self.sent[peer.kind] += peer.sent

    def turn(self) -> None:
        """Does for each peer what is due, for a short time."""
        ended = [key.data for key, _ in self.waiting.select(0.02) if not key.data.wake()]
        now = time.monotonic()
        for peer in self.timed.difference(ended):
            try:
                if peer.due <= now:
                    peer.act()
            except ConnectionError:
                ended.append(peer)
        for peer in ended:
            self.end(peer)
        for peer in ended:
            if peer.kind == "garbage":
                time.sleep(max(0.0, peer.since + GARBAGE_EACH - time.monotonic()))
            self.add(peer.kind)


def run_crowd(address: str, counts: dict[str, int], pipe: Connection) -> None:
    """A crowd until it is told to stop. It tells when all have connected, and at last how many seconds each one lived that was closed."""
    crowd = Crowd(address, counts)
    pipe.send(None)
    while not pipe.poll():
        crowd.turn()
    pipe.send((crowd.lives, crowd.sent))


def slowest_of_99(session: Session) -> float:
    """How many seconds 99 of 100 calls took at most. Half of them ask the clock, and so are checked anew."""
    times = []
    for number in range(CALLS):
        since = time.monotonic()
        session.call(*[("read", "thing", "allowed 1 0"), ("open", "thing", "allowed 0 0")][number % 2])
        times.append(time.monotonic() - since)
        time.sleep(0.003)
    return sorted(times)[math.ceil(0.99 * CALLS) - 1]


def rate_of(session: Session) -> float:
    """How many calls a second one client makes, each when the one before was answered. Half of them are checked anew."""
    calls, since = 0, time.monotonic()
    while time.monotonic() - since < RUSH:
        session.call("read", "thing", "allowed 1 0")
        session.call("open", "thing", "allowed 0 0")
        calls += 2
    return calls / (time.monotonic() - since)


def prepare(session: Session) -> None:
    """An object that its owner may read by a verdict that is kept, and open by one that is not."""
    name = session.name
    for line in [
        "object thing",
        f"bind {name}.clock 0",
        "goal read thing : true",
        f"goal open thing : {name}.clock says 0 < TimeNow",
        "proof read thing : proof 2 ; 1 true_i : true ; end",
        f"proof open thing : proof 2 ; 1 ask : {name}.clock says 0 < TimeNow ; end",
    ]:
        session.change(line)
    session.call("read", "thing", "allowed 0 0")


def judge_crowd(lives: dict[str, list[float]], counts: dict[str, int]) -> None:
    """Who was not admitted lived ten seconds, and who was is still there."""
    for kind, what in [("silent", "say nothing"), ("slow", "send a byte a second"), ("wrong", "send refused hellos")]:
        check(f"peers that {what} were closed", len(lives[kind]) >= counts[kind] or len(lives[kind]), True)
        check(f"when peers that {what} were closed", [life for life in lives[kind] if not SOONEST <= life <= LATEST], [])
    for kind, what in [("deaf", "read nothing"), ("asleep", "sleep")]:
        check(f"admitted peers that {what} are there as long as they may", lives[kind], [])


def welcome_new(address: str, sessions: list[Session]) -> None:
    """A new client gets in at once, and makes a change."""
    since = time.monotonic()
    late = Session(address, "late")
    waited = time.monotonic() - since
    check("a new client gets in at once", waited < WELCOME or waited, True)
    late.change("say late : here")
    late.close()
    sessions.append(late)


def play_crowd(workers: int) -> str:
    """Peers of each kind hold nearly all workers. Calls of others are answered in time, and new clients get in. What was measured."""
    names = ["honest", "late", "crowd"]
    counts = {kind: math.ceil(count * workers / WORKERS) for kind, count in CROWD.items()}
    front = head(names) + "authority 0 clock\n"
    with Service(front + "end\n", workers, SESSIONS, 86400) as service:
        honest = Session(service.address, "honest")
        prepare(honest)
        sessions = [honest]
        alone = max(rate_of(honest) for _ in range(TRIES))
        here, there = multiprocessing.Pipe()
        process = multiprocessing.Process(target=run_crowd, args=(service.address, counts, there), daemon=True)
        process.start()
        try:
            check("the crowd is there", here.poll(30), True)
            here.recv()
            end = time.monotonic() + 14
            best = math.inf
            for _ in range(TRIES):
                welcome_new(service.address, sessions)
                best = min(best, slowest_of_99(honest))
                if best < CALL:
                    break
            beside = 0.0
            for _ in range(TRIES):
                beside = max(beside, rate_of(honest))
                if beside >= LEFT * alone:
                    break
            while time.monotonic() < end:
                welcome_new(service.address, sessions)
                honest.call("open", "thing", "allowed 0 0")
                time.sleep(1)
            here.send(None)
            check("the crowd tells", here.poll(30), True)
            lives, sent = here.recv()
        finally:
            process.kill()
            process.join()
        judge_crowd(lives, counts)
        check("99 of 100 calls beside a crowd", best < CALL or best, True)
        check("the rate of calls beside a crowd", beside >= LEFT * alone or (beside, alone), True)
        service.kill()
        lines = {at: line for session in sessions for at, line in session.lines.items()}
        check("the text of a service with a crowd", service.text(), front + "".join(lines[at] for at in sorted(lines)))
        megabytes = sent["garbage"] / 1_000_000
    crowd = f"beside {sum(counts.values())} peers and {megabytes:.0f} MB of garbage"
    rates = f"{beside:.0f} calls a second, {alone:.0f} without them, ratio {beside / alone:.2f}"
    return f"99 of 100 calls within {1000 * best:.1f} ms {crowd}; {rates}"


def workers_within_limit() -> int:
    """Raises how many files may be open, here and in the service. With how many workers the service can go on."""
    _, hard = resource.getrlimit(resource.RLIMIT_NOFILE)
    files = FILES if hard == resource.RLIM_INFINITY else min(FILES, hard)
    resource.setrlimit(resource.RLIMIT_NOFILE, (files, hard))
    workers = min(WORKERS, files // 4)
    if workers < WORKERS:
        print(f"patience: {workers} workers, and not {WORKERS}, since only {files} files may be open")
    return workers


def main() -> int:
    services.program = sys.argv[1]
    try:
        workers = workers_within_limit()
        print(play_largest(workers))
        play_short()
        with ThreadPoolExecutor(2) as pool:
            for played in [pool.submit(play) for play in [play_few, play_sleepers]]:
                played.result()
        print(play_crowd(workers))
    except Differs as differs:
        print(f"patience: {differs}")
        return 1
    print(f"{len(services.passed)} checks of patience pass")
    return 0


if __name__ == "__main__":
    sys.exit(main())
