#!/usr/bin/env python3
"""Plays `nexus serve`, `client` and `import` over local sockets, and authorities at such: the day of examples/serve, who may use the socket,
and what may stand at its path before. What is wanted stands here, and comes from docs/OPERATING.md, "Peers that are silent, and local sockets".

    examples/local/run.py PROGRAM

prints what differs first and ends with 1, or prints `N checks of local sockets pass` and ends with 0.
"""
from __future__ import annotations

import os
import socket
import socketserver
import stat
import subprocess
import sys
import tempfile
import threading
from pathlib import Path

sys.path.insert(0, str(Path(__file__).resolve().parents[1] / "serve"))

import run as services
from run import Differs, Service, Session, check, free_port, head, run, talk, talk_when_ready

SERVE = Path(services.__file__).resolve().parent
ASKED = SERVE.parent / "operating" / "asked"
ONE = head(["alice"]) + "end\n"


def mode_of(path: Path) -> int:
    """The mode of what has this path."""
    return stat.S_IMODE(path.lstat().st_mode)


def left_behind(path: Path) -> None:
    """Makes a socket at which nobody listens any more."""
    with socket.socket(socket.AF_UNIX) as door:
        door.bind(str(path))


def play_day(work: Path) -> None:
    """The day over a local socket. It is there at the end, and the next service takes its place, as it does behind one that was killed."""
    path = work / "day"
    for mask in [0o022, 0o077, 0]:
        before = os.umask(mask)
        try:
            with Service((SERVE / "policy").read_text(), 3, 1, address=f"unix:{path}") as service:
                text = services.ask_day(service.address)
                check(f"the end of a day over a local socket, with the umask {mask:o}", service.end(), (0, text))
        finally:
            os.umask(before)
        check(f"what is there at the end, with the umask {mask:o}", (path.is_socket(), mode_of(path)), (True, 0o600))
    with Service(ONE, 1, 1, address=f"unix:{path}") as service:
        with Session(service.address, "alice") as alice:
            alice.change("object f")
            check("who may use the socket", mode_of(path), 0o600)
            service.kill()
    with Service(ONE, 1, 1, 300, address=f"unix:{path}") as service:
        with Session(service.address, "alice") as alice:
            alice.change("object f")
        check("the end of a service behind one that was killed", service.end()[0], 0)


def play_taken(work: Path) -> None:
    """What stands at the path is replaced only where it is a socket at which nobody listens. Else the status is 7, and it stays."""
    target = work / "target"
    left_behind(target)
    path = work / "taken"

    def refuse(what: str) -> None:
        before = os.lstat(path)
        check(f"a service at {what}", run([f"unix:{path}", "1", "1"], ONE), (7, ""))
        after = os.lstat(path)
        check(f"what becomes of {what}", (after.st_ino, after.st_mode), (before.st_ino, before.st_mode))

    path.write_text("mine\n")
    refuse("a file")
    check("the text of the file", path.read_text(), "mine\n")
    path.unlink()
    path.symlink_to(target)
    refuse("a symbolic link to a socket")
    path.unlink()
    path.symlink_to(work / "nothing")
    refuse("a symbolic link to nothing")
    check("what a symbolic link leads to", ((work / "nothing").exists(), target.is_socket()), (False, True))
    path.unlink()
    path.mkdir()
    refuse("a folder")
    path.rmdir()
    os.mkfifo(path)
    refuse("a pipe with a name")
    path.unlink()
    with socket.socket(socket.AF_UNIX) as door:
        door.bind(str(path))
        door.listen(4)
        refuse("a socket at which somebody listens")
    with Service(ONE, 1, 3, address=f"unix:{target}") as service:
        with Session(service.address, "alice") as alice:
            check("a service at a service", run([service.address, "1", "1"], ONE), (7, ""))
            alice.change("object f")
        with Session(service.address, "alice") as alice:
            alice.change("object g")


def play_addresses(work: Path) -> None:
    """Paths at which no socket can be, and addresses that are too long."""
    check("a service in a folder that is not there", run([f"unix:{work}/no/socket", "1", "1"], ONE), (7, ""))
    check("a service at no path", run(["unix:", "1", "1"], ONE), (7, ""))
    longest = f"unix:{work}/".ljust(64, "a")
    with Service(ONE, 1, 1, address=longest) as service:
        with Session(longest, "alice") as alice:
            alice.change("object f")
        check("the end of a service with a longest address", service.end()[0], 0)
    for address in [longest + "a", f"unix:{work}/a b"]:
        check("a service at what is no address", run([address, "1", "1"], ONE), (2, ""))
        check("a client to what is no address", talk(address, "hello alice alice-secret"), (2, ""))
    policy = head(["alice"]) + f"authority 1 {longest}a\nend\n"
    check("an authority at what is no address", run([f"127.0.0.1:{free_port()}", "1", "1"], policy), (3, "refused line 3\n"))


# Clients and peers


def play_client(work: Path) -> None:
    """The program's own client, with the tour's request lines; and a bundle that is said."""
    path = work / "client"
    check("a client at a path that is not there", talk(f"unix:{path}", "hello bob pb"), (7, ""))
    left_behind(path)
    check("a client at a socket that was left behind", talk(f"unix:{path}", "hello bob pb"), (7, ""))
    with Service((SERVE / "policy").read_text(), 1, 3, address=f"unix:{path}") as service:
        told = talk_when_ready(service.address, (SERVE / "storage.requests").read_text())
        check("what the storage service is told", told, (0, "welcome 1 0\ndone 1 0\ndone 2 0\ndone 3 3\ndone 4 0\n"))
        told = talk(service.address, (SERVE / "bob.requests").read_text())
        check("what bob is told", told, (0, "welcome 2 4\ndenied 4 NoProof\ndone 5 0\nallowed 5 0 0\nallowed 5 1 0\n"))
        bundle = "peer alice alice-secret\nnexus bundle 1\nlabel ci says built(app)\nend\n"
        words = [services.program, "import", service.address]
        ended = subprocess.run(words, input=bundle.encode(), stdout=subprocess.PIPE, timeout=60)
        check("what a peer is told", (ended.returncode, ended.stdout), (0, b"welcome 3 5\ndone 6 6\n"))
        status, text = service.end()
        check("the end of a service of clients", (status, text.splitlines()[-2:]), (0, ["3 alice say alice : ci says built(app)", "end"]))
    path.unlink()
    path.write_text("")
    check("a client at a file", talk(f"unix:{path}", "hello bob pb"), (7, ""))


# Authorities


class Questions(socketserver.StreamRequestHandler):
    """One connection of a service: an authority that says yes to the statements that it has."""

    server: Authority

    def handle(self) -> None:
        for line in self.rfile:
            statement = line.decode().rstrip("\n").removeprefix("ask ")
            self.wfile.write(b"yes\n" if statement in self.server.statements else b"no\n")


class Authority(socketserver.ThreadingUnixStreamServer):
    """An authority at a local socket, with a thread for each connection."""

    daemon_threads = True

    def __init__(self, path: Path, statements: list[str]) -> None:
        super().__init__(str(path), Questions)
        self.statements = statements
        self.thread = threading.Thread(target=self.serve_forever, kwargs={"poll_interval": 0.02})
        self.thread.start()

    def end(self) -> None:
        self.shutdown()
        self.thread.join()
        self.server_close()


def play_authority(work: Path) -> None:
    """An authority at a local socket, asked by `script` and by `serve`."""
    path = work / "rota"
    given, wanted = ((ASKED / name).read_text().replace("127.0.0.1:PORT", f"unix:{path}") for name in ["input", "output"])
    check("the recipe has an authority", f"authority 1 unix:{path}\n" in given, True)
    check("an authority that is not there", script(given), (8, ""))
    left_behind(path)
    check("an authority that left its socket behind", script(given), (8, ""))
    path.unlink()
    authority = Authority(path, (ASKED / "authority").read_text().splitlines())
    try:
        check("the recipe of an authority", script(given), (int((ASKED / "status").read_text()), wanted))
        policy = (
            f"nexus 2\nprincipal depot depot-secret\nprincipal bob bob-secret\nauthority 1 unix:{path}\n1 depot object hall\n"
            "1 depot goal open hall : depot.rota says on_duty(?subject)\n1 depot bind depot.rota 1\n"
            "2 bob proof open hall : proof 2 ; 1 ask : depot.rota says on_duty(bob) ; end\nend\n"
        )
        with Service(policy, 2, 1, address=f"unix:{work}/hall") as service, Session(service.address, "bob") as bob:
            check("on duty", bob.ask("call open hall 0"), "allowed 4 0 0")
            authority.statements = []
            check("off duty", bob.ask("call open hall 0"), "denied 4 AuthorityNo 1")
    finally:
        authority.end()


def script(text: str) -> tuple[int, str]:
    """The status and the output of `script`."""
    ended = subprocess.run([services.program, "script"], input=text.encode(), stdout=subprocess.PIPE, timeout=60)
    return ended.returncode, ended.stdout.decode()


def main() -> int:
    services.program = sys.argv[1]
    try:
        with tempfile.TemporaryDirectory(prefix="nx", dir="/tmp") as folder:
            for play in [play_day, play_taken, play_addresses, play_client, play_authority]:
                play(Path(folder))
    except Differs as differs:
        print(f"local: {differs}")
        return 1
    print(f"{len(services.passed)} checks of local sockets pass")
    return 0


if __name__ == "__main__":
    sys.exit(main())
