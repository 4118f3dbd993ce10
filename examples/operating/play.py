#!/usr/bin/env python3
"""Plays what docs/OPERATING.md says and no input alone can show: an authority that is asked each time, how a service is stopped and what
is in its text then, and a denial that is explained. And each reply that the document shows has to be one that an example gives, and
what the examples of man/nexus.1 show has to be what is written.

    examples/operating/play.py PROGRAM

prints what differs first and ends with 1, or prints `N checks of the recipes pass` and ends with 0.
"""
from __future__ import annotations

import os
import re
import shlex
import signal
import socket
import subprocess
import sys
import tempfile
import time
from pathlib import Path

FOLDER = Path(__file__).resolve().parent
TOP = FOLDER.parents[1]
DOCUMENT = TOP / "docs" / "OPERATING.md"
sys.path.insert(0, str(TOP / "clients" / "python"))

from nexus_client import Client, connect, line_of, request_of_line

program = ""
passed = 0


class Differs(Exception):
    """Something is not as it is wanted."""


def check(what: str, got: object, wanted: object) -> None:
    global passed
    if got != wanted:
        raise Differs(f"{what}: differs: wanted {str(wanted)[:800]!r}, got {str(got)[:800]!r}")
    passed += 1


def free_port() -> int:
    """A port on which nobody listens."""
    with socket.socket() as free:
        free.bind(("127.0.0.1", 0))
        port: int = free.getsockname()[1]
        return port


class Peer:
    """A process that listens at an address: the authority, or a service. It is killed where it has not ended."""

    def __init__(self, words: list[str], address: str, policy: str = "", output: Path | None = None) -> None:
        self.address = address
        with tempfile.TemporaryFile() as given, open(output or os.devnull, "wb") as file:
            given.write(policy.encode())
            given.seek(0)
            self.process = subprocess.Popen(words, stdin=given, stdout=file)

    def __enter__(self) -> Peer:
        return self

    def __exit__(self, *_: object) -> None:
        self.kill()

    def kill(self) -> None:
        self.process.kill()
        self.process.wait()


def start_authority(port: int, statements: Path) -> Peer:
    """The authority, once it listens."""
    address = f"127.0.0.1:{port}"
    peer = Peer([sys.executable, "-B", str(FOLDER / "authority.py"), address, str(statements)], address)
    connect(address, patience=20).close()
    return peer


def start_service(policy: str, workers: int, sessions: int, output: Path) -> Peer:
    """A service of the policy, whose text goes into the output."""
    address = f"127.0.0.1:{free_port()}"
    return Peer([program, "serve", address, str(workers), str(sessions)], address, policy, output)


def told(client: Client, line: str) -> str:
    """The reply line to a request line."""
    return line_of(client.ask(request_of_line(line)))


def script(text: str) -> tuple[int, str]:
    """The status and the output of `script`."""
    ended = subprocess.run([program, "script"], input=text.encode(), stdout=subprocess.PIPE, timeout=60)
    return ended.returncode, ended.stdout.decode()


def play_asked() -> None:
    """The recipe whose authority is a peer: the port stands in its files as PORT."""
    recipe = FOLDER / "asked"
    port = free_port()
    with start_authority(port, recipe / "authority"):
        given, wanted = ((recipe / name).read_text().replace("PORT", str(port)) for name in ["input", "output"])
        check("the recipe of an authority", script(given), (int((recipe / "status").read_text()), wanted))


def play_rota(work: Path) -> None:
    """Under `serve`: each call is answered by the rota as it stands then. Without the authority the call is down."""
    rota = work / "rota"
    rota.write_text("on_duty(bob)\n")
    port = free_port()
    policy = (
        f"nexus 2\nprincipal depot pd\nprincipal bob pb\nauthority 1 127.0.0.1:{port}\n1 depot object hall\n"
        "1 depot goal open hall : depot.rota says on_duty(?subject)\n1 depot bind depot.rota 1\n"
        "2 bob proof open hall : proof 2 ; 1 ask : depot.rota says on_duty(bob) ; end\nend\n"
    )
    authority = start_authority(port, rota)
    try:
        with start_service(policy, 1, 1, work / "after") as service, connect(service.address, patience=20) as bob:
            check("a hello", told(bob, "hello bob pb"), "welcome 3 4")
            check("on duty", told(bob, "call open hall 0"), "allowed 4 0 0")
            rota.write_text("on_duty(carol)\n")
            check("off duty", told(bob, "call open hall 0"), "denied 4 AuthorityNo 1")
            rota.write_text("on_duty(bob)\n")
            check("on duty again", told(bob, "call open hall 0"), "allowed 4 0 0")
            authority.kill()
            check("nobody answers", told(bob, "call open hall 0"), "down 4 1")
            authority = start_authority(port, rota)
            check("somebody answers again", told(bob, "call open hall 0"), "allowed 4 0 0")
    finally:
        authority.kill()


HEAD = "nexus 2\nprincipal alice pa\n"


def play_sessions(work: Path) -> None:
    """A service ends when its sessions are over; a connection that says nothing is one of them."""
    after = work / "after"
    with start_service(HEAD + "end\n", 1, 3, after) as service:
        with connect(service.address, patience=20) as alice:
            check("a hello", told(alice, "hello alice pa"), "welcome 1 0")
            check("a change", told(alice, "object f"), "done 1 0")
        check("that it runs", service.process.poll(), None)
        for _ in range(2):
            connect(service.address).close()
        check("a service whose sessions are over", service.process.wait(timeout=60), 0)
    check("its text", after.read_text(), HEAD + "1 alice object f\nend\n")


def shell_of(heading: str) -> str:
    """The indented lines of a section of the document that begin with `$`, as a script. It goes on to the next heading of its level."""
    level = len(heading) - len(heading.lstrip("#"))
    section = re.split(rf"\n#{{1,{level}}} ", DOCUMENT.read_text().split(heading, 1)[1], maxsplit=1)[0]
    return "\n".join(line[6:] for line in section.splitlines() if line.startswith("    $ "))


def play_signal(work: Path) -> None:
    """A service that is ended by a signal leaves what was answered `done`, and no `end`. The document's line makes it a policy again,
    also where its last line was cut."""
    after = work / "after"
    for number in [signal.SIGTERM, signal.SIGKILL]:
        with start_service(HEAD + "end\n", 1, 1, after) as service, connect(service.address, patience=20) as alice:
            check("a hello", told(alice, "hello alice pa"), "welcome 1 0")
            check("a change", told(alice, "object f"), "done 1 0")
            service.process.send_signal(number)
            check(f"the status after signal {number}", service.process.wait(timeout=60), -number)
        check(f"the text after signal {number}", after.read_text(), HEAD + "1 alice object f\n")
    lines = shell_of("### After a signal")
    check("that the document has a line for it", "after" in lines, True)
    whole = HEAD + "1 alice object f\nend\n"
    for cut in ["", "1 ali", "1 alice object", "end"]:
        after.write_text(HEAD + "1 alice object f\n" + cut)
        subprocess.run(["sh", "-e", "-c", lines.replace("./nexus", shlex.quote(program))], cwd=work, check=True)
        check(f"the text that was cut within '{cut}'", (work / "policy").read_text(), whole)
    check("a policy again", script((work / "policy").read_text()), (0, whole))


def play_why() -> None:
    """The denials of a recipe, explained at their points from its policy text, which lacks its last line; first the one that the document
    shows, by its line."""
    recipe = FOLDER / "read_only"
    text = "nexus 2\n" + (recipe / "output").read_text().split("nexus 2\n", 1)[1]
    heading = "## Why was it denied"
    line = shell_of(heading)
    check("that the document has one line for it", (line.count("\n"), "8 bob write ledger -" in line), (0, True))
    answer = DOCUMENT.read_text().split("    $ " + line + "\n", 1)[1].split("\n\n", 1)[0]
    owned = "object 1 owner\n"
    may_write = owned + "goal 3 : owner says may_write(bob)\n"
    with tempfile.TemporaryDirectory() as work:
        (Path(work) / "after").write_text(text.removesuffix("end\n"))
        for words, wanted in [
            ("8 bob write ledger -", "".join(shown.removeprefix("    ") + "\n" for shown in answer.splitlines())),
            ("6 bob write ledger -", "denied 6 NoProof\n" + may_write + "proof -\n"),
            ("7 bob write ledger -", "denied 7 Line 1 NotGoal\n" + may_write + "proof 7\n1 label : owner says may_read(bob) ; NotGoal\n"),
            ("8 bob write ledger -", "denied 8 LabelMissing 1\n" + may_write + "proof 8\n1 label : owner says may_write(bob) ; missing\n"),
            ("8 bob add ledger -", "denied 8 GoalUnset\n" + owned + "goal -\nproof -\n"),
            (
                "11 bob read ledger -",
                "allowed 11\n" + owned + "goal 2 : owner says may_read(bob)\nproof 6\n1 label : owner says may_read(bob) ; held 4 5\n",
            ),
            ("0 bob read ledger -", "refused 0 NoSuchObject\n"),
        ]:
            asked = line.replace("8 bob write ledger -", words).replace("./nexus", shlex.quote(program))
            ended = subprocess.run(["sh", "-c", asked], cwd=work, stdout=subprocess.PIPE, timeout=60)
            check(f"why {words}", (ended.returncode, ended.stdout.decode()), (0 if wanted.startswith("allowed") else 1, wanted))


def shown(section: str) -> list[tuple[str, str]]:
    """The requests of a recipe in the document, each with its reply, which stands behind two spaces or more, or in the next line."""
    text = re.sub(r"\n {10,}", "  ", section)
    return [(m[1], m[2]) for m in re.finditer(r"^    ([0-9]+ (?:[^ \n]| (?! ))+) {2,}(.+)$", text, re.MULTILINE)]


def play_document() -> None:
    """Each request that a recipe of the document shows is one of its example, with its reply; and each line of a proof that it shows
    stands in a proof of the example."""
    recipes = 0
    for section in DOCUMENT.read_text().split("\n### ")[1:]:
        named = re.search(r"`examples/operating/(\w+)`", section)
        if named is None or not (FOLDER / named[1] / "input").exists():
            continue
        recipes += 1
        given = (FOLDER / named[1] / "input").read_text()
        requests = given.split("end\n", 1)[1].splitlines()
        replies = (FOLDER / named[1] / "output").read_text().splitlines()
        example = list(zip(requests, replies))
        pairs = shown(section.split("\n## ", 1)[0])
        check(f"that the recipe {named[1]} shows requests", len(pairs) > 2, True)
        for pair in pairs:
            check(f"the recipe {named[1]} shows {pair}", pair in example, True)
        for line in re.findall(r"^    ([0-9]+ [a-z_]+ [0-9 ]*(?:\[\S+\] )?: .+)$", section, re.MULTILINE):
            check(f"the recipe {named[1]} has the line {line} in a proof", f" ; {line} ; " in given, True)
    check("the recipes of the document", recipes, 10)


def play_manual() -> None:
    """The examples of the manual page that have an input write what it shows."""
    manual = (TOP / "man" / "nexus.1").read_text()
    examples = re.findall(r"^\$ nexus (\w+) << 'END'\n(.*?)^END\n(.*?)^\.Ed", manual, re.MULTILINE | re.DOTALL)
    check("the examples of the manual", [command for command, _, _ in examples], ["check", "script"])
    for command, given, wanted in examples:
        ended = subprocess.run([program, command], input=given.encode(), stdout=subprocess.PIPE, timeout=60)
        check(f"the manual's example of {command}", (ended.returncode, ended.stdout.decode()), (0, wanted))


def main() -> int:
    global program
    program = str(Path(sys.argv[1]).resolve())
    try:
        play_asked()
        with tempfile.TemporaryDirectory() as folder:
            for play in [play_rota, play_sessions, play_signal]:
                play(Path(folder))
        play_why()
        play_document()
        play_manual()
    except Differs as differs:
        print(f"recipes: {differs}")
        return 1
    print(f"{passed} checks of the recipes pass")
    return 0


if __name__ == "__main__":
    sys.exit(main())
