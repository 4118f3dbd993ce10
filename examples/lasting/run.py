#!/usr/bin/env python3
"""Plays what a change that was answered Done has behind it: its line was written and, in a file, synced. By Debian's strace it is looked
at that the line, the sync and the reply come in this order, and syncs are made to fail and to take long; without strace these parts are
skipped. And whoever reads the policy text stops reading. Changes wait then, and calls are answered. What is wanted stands here, and comes
from docs/OPERATING.md, "What Done means".

    examples/lasting/run.py PROGRAM

prints what differs first and ends with 1, or prints `N checks of what lasts pass` and ends with 0.
"""
from __future__ import annotations

import fcntl
import os
import re
import select
import shutil
import signal
import subprocess
import sys
import tempfile
import threading
import time
from collections.abc import Iterator
from pathlib import Path
from typing import IO, Any, NamedTuple, Optional

sys.path.insert(0, str(Path(__file__).resolve().parents[1] / "serve"))
sys.path.insert(0, str(Path(__file__).resolve().parents[2] / "clients" / "python"))

import run as services
from client import Client, frame_of_line
from nexus_client import decode, line_of
from run import Differs, Service, Session, check, head

SERVE = Path(services.__file__).resolve().parent
EXAMPLES = SERVE.parent
# How large a pipe is made, where the system lets it be made so small.
F_SETPIPE_SZ = 1031
PIPE = 4096


# Traces


class Step(NamedTuple):
    """A call of the system: a `write` of some text to standard output, a `sync` with what it returned, a `reply` that begins to be sent,
    or the `exit` with its status."""

    kind: str
    text: str = ""
    result: int = 0


CALL = re.compile(r"(\d+) +(\w+)\((.*)$")
RESUMED = re.compile(r"(\d+) +<\.\.\. (\w+) resumed>(.*)$")
RESULT = re.compile(r"= (-?\d+)(?: .*)?$")
DATA = re.compile(r'(\d+), "((?:\\x[0-9a-f]{2})*)"')


def data_of(arguments: str) -> tuple[int, bytes]:
    """The number of the file and the bytes of a call that writes."""
    found = DATA.match(arguments)
    if found is None:
        raise Differs(f"a call that writes has other arguments: {arguments[:80]}")
    return int(found[1]), bytes.fromhex(found[2].replace("\\x", ""))


def steps_of(trace: str) -> Iterator[Step]:
    """The steps of a trace, in order. A reply stands where it begins, and what is written or synced where that has returned."""
    begun: dict[str, str] = {}
    for line in trace.splitlines():
        call, resumed = CALL.match(line), RESUMED.match(line)
        if call is not None:
            process, name, arguments = call.groups()
            if name == "exit_group":
                yield Step("exit", result=int(arguments.split(")")[0]))
                continue
            if name != "fdatasync":
                file, data = data_of(arguments)
                if file > 2:
                    yield Step("reply", line_of(decode(data[4:])))
                    continue
            if arguments.endswith("<unfinished ...>"):
                begun[process] = arguments
                continue
        elif resumed is not None and resumed[1] in begun:
            process, name, rest = resumed.groups()
            arguments = begun.pop(process) + rest
        else:
            continue
        found = RESULT.search(arguments)
        result = int(found[1]) if found is not None else -1
        if name == "fdatasync":
            yield Step("sync", result=result)
        elif data_of(arguments)[0] == 1:
            yield Step("write", data_of(arguments)[1][: max(0, result)].decode())


def joined(steps: list[Step]) -> list[Step]:
    """The same, with pieces that were written one after another as one."""
    made: list[Step] = []
    for step in steps:
        if step.kind == "write" and made and made[-1].kind == "write":
            made[-1] = Step("write", made[-1].text + step.text)
        else:
            made.append(step)
    return made


def traced(words: list[str], trace: str, fault: str = "") -> list[str]:
    """The words that trace a program. The fault is what happens to its syncs."""
    calls = "write,writev,sendto,sendmsg,fdatasync,exit_group"
    faults = ["-e", f"inject=fdatasync:{fault}"] if fault else []
    return ["strace", "-f", "-qq", "-xx", "-s", "70000", "-e", "signal=none", "-e", f"trace={calls}", *faults, "-o", trace, *words]


def can_trace() -> bool:
    """Whether there is strace, and it may trace here."""
    if shutil.which("strace") is None:
        return False
    with tempfile.NamedTemporaryFile() as trace:
        return subprocess.run(traced(["true"], trace.name), stderr=subprocess.DEVNULL).returncode == 0


class Traced(Service):
    """A service whose calls are traced."""

    fault = ""

    def start(self, words: list[str]) -> subprocess.Popen[bytes]:
        self.trace = tempfile.NamedTemporaryFile()
        return self.start_traced(traced(words, self.trace.name, self.fault))

    def start_traced(self, words: list[str]) -> subprocess.Popen[bytes]:
        return subprocess.Popen(words, stdin=subprocess.PIPE, stdout=self.output, start_new_session=True)

    def kill(self) -> None:
        """With what traces it."""
        if self.process.poll() is None:
            os.killpg(self.process.pid, signal.SIGKILL)
        self.process.wait()

    def steps(self) -> list[Step]:
        return list(steps_of(Path(self.trace.name).read_text()))


class TracedIntoPipe(Traced):
    """One whose output is a pipe that is read."""

    def start_traced(self, words: list[str]) -> subprocess.Popen[bytes]:
        process = subprocess.Popen(words, stdin=subprocess.PIPE, stdout=subprocess.PIPE, start_new_session=True)
        self.reader = threading.Thread(target=self.read_on, args=(process.stdout,))
        self.reader.start()
        return process

    def read_on(self, pipe: IO[bytes]) -> None:
        shutil.copyfileobj(pipe, self.output)
        self.output.flush()

    def end(self) -> tuple[int, str]:
        status = self.process.wait(timeout=60)
        self.reader.join()
        return status, self.text()


def play_order(kind: type[Traced], what: str, syncs: list[Step]) -> None:
    """A day. Before each reply Done the change's line was written and then synced, where that is due; before any other nothing was."""
    policy = (SERVE / "policy").read_text()
    front = policy.removesuffix("end\n")
    with kind(policy, 3, 1) as service:
        text = services.ask_day(service.address)
        check(f"the end of a day over {what}", service.end(), (0, text))
        lines = text.removeprefix(front).splitlines(keepends=True)
        before: list[Step] = []
        count = 0
        for step in service.steps():
            if step.kind not in ("reply", "exit"):
                before.append(step)
                continue
            count += step.kind == "reply"
            if count == 1:
                told = [it for it in joined(before) if it.kind == "write"]
                check(f"what is written before the first reply, over {what}", told, [Step("write", front)])
            elif step.kind == "exit":
                check(f"what is done at the end, over {what}", joined(before), [Step("write", "end\n"), *syncs])
            else:
                words = step.text.split()
                wanted = [Step("write", lines[int(words[1]) - 1]), *syncs] if words[0] == "done" else []
                check(f"what is done before the reply {step.text}, over {what}", joined(before), wanted)
            before = []
        check(f"the replies over {what}", count, 3 + len(services.DAY.strip().splitlines()))


def play_commands(work: Path) -> None:
    """Each command that writes a policy text into a file syncs it before it ends with 0; where that fails the status is 5."""
    day = (EXAMPLES / "script" / "storage" / "input").read_bytes()
    text = (SERVE / "policy").read_bytes()
    for command, given in [("script", day), ("recover", text), ("compact", text)]:
        for fault, status in [("", 0), ("error=EIO", 5)]:
            trace, output = work / "trace", work / "output"
            with output.open("wb") as file:
                words = traced([services.program, command], str(trace), fault)
                ended = subprocess.run(words, input=given, stdout=file, stderr=subprocess.DEVNULL, timeout=60)
            check(f"the status of {command} {fault}", ended.returncode, status)
            steps = [step.kind if step.kind == "write" else step for step in joined(list(steps_of(trace.read_text())))]
            wanted = subprocess.run([services.program, command], input=given, stdout=subprocess.PIPE, stderr=subprocess.DEVNULL, timeout=60).stdout
            check(f"what {command} {fault} has written", output.read_bytes(), wanted)
            check(f"the steps of {command} {fault}", steps, ["write", Step("sync", result=-1 if fault else 0), Step("exit", result=status)])


def play_fault() -> None:
    """The second sync fails: its change and all behind it are told not to be recorded, and calls are answered at the point before."""
    front = head(["alice"])
    lines = [f"1 alice say alice : ok({number})\n" for number in [1, 2]]

    class Faulty(Traced):
        fault = "error=EIO:when=2"

    with Faulty(front + "end\n", 1, 1) as service:
        with Session(service.address, "alice") as alice:
            for line, wanted in [
                ("say alice : ok(1)", "done 1 1"),
                ("say alice : ok(2)", "refused 1 NotRecorded"),
                ("say alice : ok(3)", "refused 1 NotRecorded"),
                ("transfer 2 alice", "refused 1 NoSuchLabel"),
                ("transfer 1 alice", "refused 1 NotRecorded"),
                ("call read thing 0", "refused 1 NoSuchObject"),
            ]:
                check(f"{line}, where the second sync fails", alice.ask(line), wanted)
        status, text = service.end()
        check("the status where a sync has failed", status, 5)
        whole = front + "".join(lines)
        check("the text where a sync has failed", text.startswith(front + lines[0]) and whole.startswith(text) or text, True)
    recovered = subprocess.run([services.program, "recover"], input=text.encode(), stdout=subprocess.PIPE, timeout=60).stdout.decode()
    check("what is recovered of it", recovered in [front + lines[0] + "end\n", whole + "end\n"] or recovered, True)
    with Faulty(front + "end\n", 1, 1) as service:
        with Session(service.address, "alice") as alice:
            alice.change("say alice : ok(1)")
        check("the end of a service whose last sync fails", service.end(), (5, front + lines[0] + "end\n"))


# A file that can't be opened


def play_unopened(work: Path) -> None:
    """The text's file is one that its user may not open. So no change is recorded, and calls are answered."""
    front = head(["alice"])
    program, output = work / "program", work / "closed"
    shutil.copy(services.program, program)
    work.chmod(0o755)
    other: dict[str, Any] = {"user": 65534, "group": 65534, "extra_groups": []} if os.geteuid() == 0 else {}
    address = f"127.0.0.1:{services.free_port()}"
    with output.open("wb") as file:
        output.chmod(0)
        process = subprocess.Popen([str(program), "serve", address, "1", "1"], stdin=subprocess.PIPE, stdout=file, **other)
    try:
        process.stdin.write((front + "end\n").encode())
        process.stdin.close()
        with Session(address, "alice") as alice:
            check("a change of a text that can't be opened", alice.ask("object thing"), "refused 0 NotRecorded")
            check("a call of its service", alice.ask("call read thing 0"), "refused 0 NoSuchObject")
        check("the status of its service", process.wait(timeout=60), 5)
    finally:
        process.kill()
        process.wait()
    output.chmod(0o600)
    check("a text that can't be opened", (front + "1 alice object thing\n").startswith(output.read_text()), True)


# A reader that stops


class IntoPipe(Service):
    """A service whose output is a small pipe, which is read when that is asked for."""

    def start(self, words: list[str]) -> subprocess.Popen[bytes]:
        process = subprocess.Popen(words, stdin=subprocess.PIPE, stdout=subprocess.PIPE)
        try:
            fcntl.fcntl(process.stdout, F_SETPIPE_SZ, PIPE)
        except OSError:
            # It takes longer until it is full.
            pass
        self.taken = b""
        return process

    def read_front(self, length: int) -> None:
        """Reads so many bytes, and no more."""
        while len(self.taken) < length:
            self.taken += os.read(self.process.stdout.fileno(), length - len(self.taken))

    def read_rest(self) -> None:
        self.taken += self.process.stdout.read()


def answered_within(session: Client, seconds: float) -> Optional[str]:
    """The reply to what was asked, where it comes within these seconds."""
    if not select.select([session.socket], [], [], seconds)[0]:
        return None
    return line_of(session.read())


def asked_within(session: Client, line: str, seconds: float) -> Optional[str]:
    """The reply to this line, where it comes within these seconds."""
    session.send(frame_of_line(line))
    return answered_within(session, seconds)


STOPPED = """authority 0 clock
1 asker object thing
1 asker bind asker.clock 0
1 asker goal open thing : asker.clock says 0 < TimeNow
1 asker goal read thing : asker says may_read(?subject)
1 asker proof open thing : proof 2 ; 1 ask : asker.clock says 0 < TimeNow ; end
1 asker proof read thing : proof 2 ; 1 label : asker says may_read(asker) ; end
"""


def fill(writer: Session) -> str:
    """Makes changes until one waits. Its line."""
    line = "say writer : " + " or ".join(["p"] * 150)
    for _ in range(200):
        reply = asked_within(writer, line, 1)
        if reply is None:
            return line
        writer.done(reply, line)
    raise Differs("changes: none waits, though nobody reads the text")


def ask_meanwhile(asker: Session, at: int, what: str) -> None:
    """Calls that are checked anew each time: one asks the clock, one lacks its label."""
    for _ in range(5):
        for line, wanted in [("call open thing 0", f"allowed {at} 0 0"), ("call read thing 0", f"denied {at} LabelMissing 1")]:
            check(f"{line} while a line waits to be {what}", asked_within(asker, line, 2), wanted)


def play_stopped_reader() -> None:
    """Whoever reads the policy text stops: changes wait. Others' calls, also those that are checked anew, and hellos are answered at the point
    before. When it is read on, what waited is done."""
    names = ["writer", "other", "asker", "late"]
    front = head(names) + STOPPED
    with IntoPipe(front + "end\n", 4, 1) as service:
        service.read_front(len(front))
        writer, other, asker = (Session(service.address, name) for name in names[:3])
        waiting = fill(writer)
        at = max(writer.lines)
        check("a change of another one, behind the one that waits", asked_within(other, "say other : p", 0.5), None)
        ask_meanwhile(asker, at, "written")
        with Client(service.address) as late:
            told = asked_within(late, "hello late late-secret", 2)
            check("a hello while a line waits to be written", (told or "- - -").split()[::2], ["welcome", str(at)])
        check("the change that waits still", answered_within(writer, 0), None)
        reader = threading.Thread(target=service.read_rest)
        reader.start()
        writer.done(answered_within(writer, 5) or "waits", waiting)
        other.done(answered_within(other, 5) or "waits", "say other : p")
        check("a call when all was written", asker.ask("call open thing 0"), f"allowed {at + 2} 0 0")
        for session in (writer, other, asker):
            session.close()
        status = service.process.wait(timeout=60)
        reader.join()
        lines = writer.lines | other.lines
        check("the entries of a text that was read late", sorted(lines), list(range(7, at + 3)))
        text = front + "".join(lines[number] for number in sorted(lines)) + "end\n"
        check("the end of a service whose reader had stopped", (status, service.taken.decode()), (0, text))


def play_slow_disk() -> None:
    """Each sync takes three seconds. Calls are answered at the point before, as long as one goes on."""
    names = ["writer", "asker"]

    class Slow(Traced):
        fault = "delay_enter=3000000"

    with Slow(head(names) + STOPPED + "end\n", 2, 1) as service:
        with Session(service.address, "writer") as writer, Session(service.address, "asker") as asker:
            check("a change whose line is being synced", asked_within(writer, "say writer : p", 0.2), None)
            ask_meanwhile(asker, 6, "synced")
            check("the change whose line is still being synced", answered_within(writer, 0), None)
            check("a change whose line was synced", answered_within(writer, 20), "done 7 7")
            check("a call then", asker.ask("call open thing 0"), "allowed 7 0 0")
        check("the status of a service with a slow disk", service.end()[0], 0)


def main() -> int:
    services.program = sys.argv[1]
    try:
        with tempfile.TemporaryDirectory() as folder:
            if can_trace():
                play_order(Traced, "a file", [Step("sync")])
                play_order(TracedIntoPipe, "a pipe", [])
                play_commands(Path(folder))
                play_fault()
                play_slow_disk()
            else:
                print("lasting: the order of calls is skipped, since there is no strace, or it may not trace")
            play_unopened(Path(folder))
        play_stopped_reader()
    except Differs as differs:
        print(f"lasting: {differs}")
        return 1
    print(f"{len(services.passed)} checks of what lasts pass")
    return 0


if __name__ == "__main__":
    sys.exit(main())
