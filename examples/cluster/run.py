#!/usr/bin/env python3
"""Plays services whose policy text is kept by a log: what goes to a keeper, byte for byte, and what becomes of a service whose keeper
answers anything else, hangs, is gone or is not there. Then, by clients/python/nexus_log.py over three nodes of etcd: a node is killed, a
service is killed and another one is started from the log, two services are started from it at once, and a quorum is lost. What is wanted
stands here, and comes from docs/FORMATS.md, "Logs", and docs/OPERATING.md, "More than one machine".

    examples/cluster/run.py PROGRAM

prints what differs first and ends with 1, or prints `N checks of logs pass` and ends with 0. Where there is no etcd (Debian's `etcd-server`)
and it could not be installed, it says that the plays with it are skipped.
"""
from __future__ import annotations

import re
import socket
import subprocess
import sys
import tempfile
import threading
import time
from collections.abc import Callable
from concurrent.futures import ThreadPoolExecutor
from contextlib import suppress
from pathlib import Path
from typing import Optional, TypeVar

TOP = Path(__file__).resolve().parents[2]
sys.path.insert(0, str(TOP / "examples" / "serve"))

import run as services
from client import Ended, frame_of_line, line_of
from nodes import Nodes, find_etcd
from run import Differs, Service, Session, check, free_port, head, run, text_of

A = TypeVar("A", bound="Answering")
NAMES = ["ann", "ben"]
# What comes at once takes no longer than this, on a busy machine.
SOON = 3.0


class Logged(Service):
    """A service whose text goes to a log. What it writes to standard output and, with the word `records`, to standard error is in files."""

    def __init__(self, policy: str, log: str, workers: int, sessions: int, *words: str) -> None:
        self.words = [*words, "log", log]
        self.errors = tempfile.NamedTemporaryFile()
        super().__init__(policy, workers, sessions)

    def start(self, words: list[str]) -> subprocess.Popen[bytes]:
        return subprocess.Popen([*words, *self.words], stdin=subprocess.PIPE, stdout=self.output, stderr=self.errors)


def told_by(command: str, text: str) -> tuple[int, str]:
    """The status and the output of a command of the program for this input."""
    ended = subprocess.run([services.program, command], input=text.encode(), stdout=subprocess.PIPE, timeout=60)
    return ended.returncode, ended.stdout.decode()


def in_time(what: str, begun: float, least: float = 0.0, most: float = SOON) -> None:
    """Checks how many seconds have passed."""
    passed = time.monotonic() - begun
    check(f"the seconds of {what}", least <= passed <= most or f"{passed:.1f}", True)


def served_nobody(what: str, log: str, policy: str, status: int, told: str = "", address: str = "", words: tuple[str, ...] = ()) -> None:
    """A service that ends at once with this status, and writes this."""
    begun = time.monotonic()
    check(what, run([address or f"127.0.0.1:{free_port()}", "1", "1", *words, "log", log], policy), (status, told))
    in_time(what, begun)


# Keepers in this process


class Answering:
    """A keeper that answers line N of a connection by this text: not at all where that is none, and by an end where it is empty. It takes one
    connection after another, and keeps what each has sent."""

    def __init__(self, answer: Callable[[int], Optional[str]] = "kept {}\n".format) -> None:
        self.answer = answer
        self.taken: list[list[str]] = []
        self.door = socket.create_server(("127.0.0.1", 0))
        self.address = f"127.0.0.1:{self.door.getsockname()[1]}"
        threading.Thread(target=self.serve, daemon=True).start()

    def __enter__(self: A) -> A:
        return self

    def __exit__(self, *_: object) -> None:
        self.door.shutdown(socket.SHUT_RDWR)
        self.door.close()

    def serve(self) -> None:
        with suppress(OSError):
            while True:
                link, _ = self.door.accept()
                self.taken.append([])
                with link, link.makefile("rb") as lines, suppress(ConnectionError):
                    for number, line in enumerate(lines, 1):
                        self.taken[-1].append(line.decode())
                        told = self.answer(number)
                        if told == "":
                            break
                        link.sendall((told or "").encode())


FRONT = [*head(NAMES).splitlines(), "1 ann object file", "1 ann goal read file : true", "1 ann proof read file : proof 2 ; 1 true_i : true ; end"]
POLICY = "\n".join([*FRONT, "end", ""])


def requests(lines: list[str], changes: list[str]) -> list[str]:
    """What goes over the connection for the lines of the opening text and of changes."""
    return [f"{'have' if number <= len(lines) else 'put'} {number} {line}\n" for number, line in enumerate([*lines, *changes], 1)]


def play_wire() -> None:
    """Lines go out canonically, a change when it is accepted, and `end` never. Standard output stays empty."""
    given = POLICY.replace("nexus 2", "nexus 1").replace("proof 2 ; 1 ", "proof 1;1 ")
    with Answering() as keeper, Logged(given, keeper.address, 2, 1, "300", "records") as service:
        sessions = [Session(service.address, name) for name in NAMES]
        for session, wanted in zip(sessions, ["allowed 4 0 0", "denied 5 NoProof"]):
            session.change(f"say {session.name} : (a and b)", f"say {session.name} : a and b")
            check("a refused change", session.ask("object file").split()[2], "NameTaken")
            check("a call", session.ask("call read file 0"), wanted)
        for session in sessions:
            session.close()
        check("the end", service.end(), (0, ""))
        check("what goes to a keeper", keeper.taken, [requests(FRONT, [line.strip() for session in sessions for line in session.lines.values()])])


def play_nobody_served() -> None:
    """A keeper is not there, and nothing else is asked. Or its answer to a line of the opening text is another one: it is sent no line
    behind that. Or an input, an authority, an address or the words are at fault: a keeper is sent nothing."""
    unheard = head(NAMES) + f"authority 3 127.0.0.1:{free_port()}\nend\n"
    for log in [f"127.0.0.1:{free_port()}", "127.0.0.1", "unix:/nothing/log"]:
        served_nobody("no keeper", log, POLICY, 5)
        served_nobody("no keeper, and an authority that is not there", log, unheard, 5)
    answers = [(1, "kept 7\n"), (1, "no\n"), (1, ""), (1, "kept 1\r\n"), (1, "kept 01\n"), (1, "kept 1\nkept 2\n"), (1, "x" * 40)]
    for number, told in [*answers, (2, "kept 1\n"), (5, "lost 5 taken\n"), (len(FRONT), "no\n")]:
        with Answering(lambda line: told if line == number else f"kept {line}\n") as keeper:
            served_nobody(f"{told!r} to line {number}", keeper.address, POLICY, 5)
            check(f"what was sent up to {told!r}", keeper.taken, [requests(FRONT[:number], [])])
    with Answering() as keeper, socket.create_server(("127.0.0.1", 0)) as taken:
        wrong = head(NAMES) + "1 ann goal read file : true\nend\n"
        for words in [(), ("300",), ("records",), ("300", "records")]:
            served_nobody("a refused input", keeper.address, wrong, 3, "refused line 4\n", words=words)
        served_nobody("an authority that is not there", keeper.address, unheard, 8)
        served_nobody("an address that is taken", keeper.address, POLICY, 7, address=f"127.0.0.1:{taken.getsockname()[1]}")
        served_nobody("no keeper, and an address that is taken", "unix:/nothing/log", POLICY, 5, address=f"127.0.0.1:{taken.getsockname()[1]}")
        for tail in [["log"], ["log", ""], ["log", "-a"], ["log", "help"], ["log", "a b"], ["log", "a" * 65], ["log", keeper.address, "records"]]:
            check(f"the words {tail}", run([f"127.0.0.1:{free_port()}", "1", "1", *tail], POLICY), (2, ""))
        check("what a keeper was sent", [line for lines in keeper.taken for line in lines], [])


def play_lost_change(told: Optional[str]) -> None:
    """The second change is answered by this. It is not recorded, and neither is any later one; calls are answered, also meanwhile."""
    what, lost = f"where {told!r} came to a change", len(FRONT) + 2
    with Answering(lambda number: told if number == lost else f"kept {number}\n") as keeper, Logged(POLICY, keeper.address, 2, 1) as service:
        ann, ben = (Session(service.address, name) for name in NAMES)
        ann.change("say ann : kept")
        begun = time.monotonic()
        ben.send(frame_of_line("say ben : lost"))
        for hit in [0, 1, 1, 1]:
            ann.call("read", "file", f"allowed {hit} 0")
        in_time(f"calls, {what}", begun)
        check(f"the change, {what}", line_of(ben.read()), "refused 4 NotRecorded")
        in_time(f"the change, {what}", begun, *((4.5, 8.0) if told is None else ()))
        begun = time.monotonic()
        for line, wanted in [("say ann : later", "refused 4 NotRecorded"), ("call read file 0", "allowed 4 1 0"), ("see 0", "seen 4")]:
            check(f"{line}, {what}", ann.ask(line), wanted)
        in_time(f"what comes behind it, {what}", begun)
        ann.close()
        ben.close()
        check(f"the end, {what}", service.end(), (5, ""))
        check(f"what was sent, {what}", keeper.taken, [requests(FRONT, [f"{ann.number} ann say ann : kept", f"{ben.number} ben say ben : lost"])])


# Over etcd


def policy_of(log: str) -> str:
    """The policy with which a service is started from a log."""
    check("what is recovered of a log", told_by("recover", log), (0, log + "end\n"))
    return log + "end\n"


def policy_by_document(nodes: Nodes) -> str:
    """The same by the command of the document."""
    folder = Path(tempfile.mkdtemp(dir=nodes.folder))
    (folder / "clients").symlink_to(TOP / "clients")
    (folder / "nexus").symlink_to(Path(services.program).resolve())
    shown = re.findall(r"^    \$ (clients/python/nexus_log.py print .*)$", (TOP / "docs" / "OPERATING.md").read_text(), re.MULTILINE)
    check("the document's commands that print the log", len(shown), 1)
    ended = subprocess.run(["bash", "-c", f"nodes={','.join(nodes.urls)}; {shown[0]}"], cwd=folder, timeout=60)
    check("the status of the document's command", ended.returncode, 0)
    return (folder / "policy").read_text()


def lines_of(log: str) -> list[str]:
    """The lines of the changes of a log."""
    check("the front of the log", log[: len(head(NAMES))], head(NAMES))
    return log[len(head(NAMES)) :].splitlines(keepends=True)


def play_kills(nodes: Nodes, keeper: str) -> None:
    """What was done is in the log, also when the node that leads was killed, and when the service was. Its records are right."""
    with Logged(head(NAMES) + "end\n", keeper, 2, 9, "records") as service, ThreadPoolExecutor(2) as pool:
        sessions = [Session(service.address, name) for name in NAMES]
        for session in sessions:
            for line in ["object {0}", "goal read {0} : true", "proof read {0} : proof 2 ; 1 true_i : true ; end"]:
                session.change(line.format(session.name))
        check("the log of what was done", nodes.printed() + "end\n", text_of(NAMES, sessions))
        nodes.kill_leader()
        for turn in range(3):
            for session in sessions:
                session.change(f"say {session.name} : without({turn})")
                session.call("read", session.name, f"allowed {min(turn, 1)} 0")
        check("the log when a node was killed", nodes.printed() + "end\n", text_of(NAMES, sessions))
        turns: list[list[int]] = [[] for _ in sessions]
        writers = [pool.submit(services.write_until_killed, session, asked) for session, asked in zip(sessions, turns)]
        time.sleep(1)
        service.kill()
        for writer in writers:
            writer.result()
        log = nodes.printed()
        lines, rest = lines_of(log), set(lines_of(log))
        for session in sessions:
            check("that changes were done before the kill", len(session.lines) > 10, True)
            for at, line in session.lines.items():
                check("a change that was done", lines[at - 1 : at], [line])
                rest.remove(line)
        asked = {f"{session.number} {session.name} say {session.name} : ok({turn[-1]})\n" for session, turn in zip(sessions, turns)}
        check("the changes without an answer that are in the log", rest - asked, set())
        records = [line for line in Path(service.errors.name).read_text().splitlines(keepends=True) if line.endswith("\n")]
        check("the audit", told_by("audit", f"nexus audit 1\n{policy_of(log)}{''.join(records)}end\n"), (0, "audited 6\n"))


def play_next(nodes: Nodes, keeper: str) -> None:
    """Another service is started from the log, over another keeper. It has every change, and goes on behind them."""
    log, policy = nodes.printed(), policy_by_document(nodes)
    check("the policy of the document's command", policy, policy_of(log))
    with Logged(policy, keeper, 2, 1) as service:
        at, sessions = len(lines_of(log)), [Session(service.address, name) for name in NAMES]
        for session in sessions:
            check("how far the next service is", session.ask("see 0"), f"seen {at}")
            session.call("read", session.name, "allowed 0 0")
        for number, session in enumerate(sessions, at + 1):
            session.change(f"say {session.name} : next")
            check("the number of its change", list(session.lines), [number])
            session.close()
        check("the end of the next service", service.end(), (0, ""))
    check("the log of the next service", lines_of(nodes.printed())[at:], [line for session in sessions for line in session.lines.values()])


def play_two_at_once(nodes: Nodes, keepers: list[str]) -> None:
    """Of two services that are started from one log the one that changes first goes on. The other one can't change any more; nothing forks."""
    log = nodes.printed()
    policy, at = policy_of(log), len(lines_of(log))
    with Logged(policy, keepers[0], 1, 1) as one, Logged(policy, keepers[1], 1, 1) as two:
        ann, ben = Session(one.address, "ann"), Session(two.address, "ben")
        ann.change("say ann : first")
        for line, wanted in [
            ("say ben : second", f"refused {at} NotRecorded"), ("say ben : third", f"refused {at} NotRecorded"), ("see 0", f"seen {at}"),
            ("call read ben 0", f"allowed {at} 0 0"), ("call read ben 0", f"allowed {at} 1 0"),
        ]:  # fmt: skip
            check(f"{line}, behind another service's change", ben.ask(line), wanted)
        ann.change("say ann : goes_on")
        ann.close()
        ben.close()
        check("the ends of two services", (one.end(), two.end()), ((0, ""), (5, "")))
    log += "".join(ann.lines.values())
    check("the log of two services", nodes.printed(), log)
    served_nobody("another text than the log", keepers[0], log.replace("goes_on", "differs") + "end\n", 5)
    check("the log behind another text", nodes.printed(), log)


def play_no_quorum(nodes: Nodes, keepers: list[str]) -> None:
    """A second node is killed: a change is refused, also when it is there again, and calls go on. Another service goes on from the log, which
    may have that change."""
    log = nodes.printed()
    with Logged(policy_of(log), keepers[0], 1, 1) as service, Session(service.address, "ann") as ann:
        ann.change("say ann : with_a_quorum")
        log += "".join(ann.lines.values())
        at = len(lines_of(log))
        nodes.kill_leader()
        begun = time.monotonic()
        check("a change without a quorum", ann.ask("say ann : lost"), f"refused {at} NotRecorded")
        in_time("a change without a quorum", begun, most=8.0)
        ann.call("read", "ann", "allowed 0 0")
        nodes.start()
        printed = nodes.printed()
        check("a change when the quorum is back", ann.ask("say ann : later"), f"refused {at} NotRecorded")
        ann.close()
        check("the end of a service that was without a quorum", service.end(), (5, ""))
    check("the log when the quorum is back", printed.removesuffix(f"{ann.number} ann say ann : lost\n"), log)
    play_next(nodes, keepers[1])


def play_etcd(etcd: str) -> None:
    shared = "/dev/shm" if Path("/dev/shm").is_dir() else None
    with tempfile.TemporaryDirectory(dir=shared) as folder, Nodes(etcd, folder) as nodes:
        check("a log without a line", nodes.printed(), "")
        keepers = [nodes.keeper(), nodes.keeper(f"unix:{folder}/log")]
        play_kills(nodes, keepers[0])
        play_next(nodes, keepers[1])
        play_two_at_once(nodes, keepers)
        play_no_quorum(nodes, keepers)


def main() -> int:
    services.program = sys.argv[1]
    try:
        with ThreadPoolExecutor(4) as pool:
            plays = [pool.submit(play_lost_change, told) for told in [None, "", "lost 8 taken\n", "kept 7\n"]]
            plays += [pool.submit(play) for play in [play_wire, play_nobody_served]]
            for play in plays:
                play.result()
        etcd = find_etcd()
        if etcd is None:
            print("cluster: the plays with etcd are skipped, since there is no etcd and it could not be installed")
        else:
            play_etcd(etcd)
    except (Differs, Ended, OSError, subprocess.TimeoutExpired) as differs:
        print(f"cluster: {differs}")
        return 1
    print(f"{len(services.passed)} checks of logs pass")
    return 0


if __name__ == "__main__":
    sys.exit(main())
