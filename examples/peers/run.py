#!/usr/bin/env python3
"""Plays two services over loopback: one builds and says what it built, the other rests a goal on that. Each night the first one's labels are
exported and the second one imports what is new. What is wanted stands here, and comes from docs/FORMATS.md and docs/LOGIC.md.

    examples/peers/run.py PROGRAM

prints what differs first and ends with 1, or prints `N checks of peers pass` and ends with 0.
"""
from __future__ import annotations

import socket
import subprocess
import sys
import threading
import time
from pathlib import Path
from typing import Optional

sys.path.insert(0, str(Path(__file__).resolve().parents[1] / "serve"))
sys.path.insert(0, str(Path(__file__).resolve().parents[2] / "clients" / "python"))

import run as services
from nexus_client import connect, line_of, request_of_line
from run import Differs, Service, check

TOP = Path(__file__).resolve().parents[2]

# The service of the builds, and the one of the documents, which knows the first as siteA.
BUILDS = "nexus 2\nprincipal siteA key-of-builds\nprincipal ci key-of-ci\nend\n"
DOCUMENTS = """nexus 2
principal fs key-of-fs
principal siteA key-at-documents
principal bob key-of-bob
1 fs object app
1 fs goal deploy app : fs says built(app_1)
1 fs say fs : siteA speaksfor fs on built
1 fs transfer 3 bob
end
"""

# What bob registers: siteA says what it said at home, on `built` it speaks for fs, and on nothing else.
PROOF = (
    "proof deploy app : proof 2 ; 1 label : siteA says siteA says built(app_1) ; 2 says_join 1 : siteA says built(app_1)"
    " ; 3 label : fs says siteA speaksfor fs on built ; 4 handoff_on 3 : siteA speaksfor fs on built ; 5 sf_on_e 4 2 : fs says built(app_1) ; end"
)

FIRST_NIGHT = """nexus bundle 1
label siteA says built(app_1)
label siteA says built(app_2)
label siteA.nightly says passed(app_1)
end
"""
SECOND_NIGHT = """nexus bundle 1
label siteA says built(app_1)
label siteA.nightly says passed(app_1)
label siteA says built(app_3)
end
"""
# What siteA holds at the documents at last: the first label is bob's.
HELD = """nexus bundle 1
label siteA says siteA says built(app_2)
label siteA says siteA.nightly says passed(app_1)
label siteA says siteA says built(app_3)
label siteA says siteA says built(app_1)
label siteA says siteA.nightly says passed(app_1)
label siteA says siteA says built(app_3)
end
"""


def run(words: list[str], given: str) -> tuple[int, str]:
    """The status and the output of a run of the program."""
    done = subprocess.run([services.program, *words], input=given.encode(), stdout=subprocess.PIPE, timeout=60)
    return done.returncode, done.stdout.decode()


def told(words: list[str], given: str) -> str:
    """What a run of the program tells on standard error."""
    return subprocess.run([services.program, *words], input=given.encode(), stdout=subprocess.DEVNULL, stderr=subprocess.PIPE, timeout=60).stderr.decode()


def exported(service: Service, name: str) -> tuple[int, str]:
    """The bundle of what a service, which may go on, has written so far."""
    status, text = run(["recover"], service.text())
    check("what a running service wrote is recovered", status, 0)
    return run(["export", name], text)


def imported(address: str, secret: str, bundle: str) -> tuple[int, str]:
    """The status and the output of `import`, once the service, which may have just been started, listens."""
    for _ in range(400):
        got = run(["import", address], f"peer siteA {secret}\n{bundle}")
        if got != (7, ""):
            return got
        time.sleep(0.05)
    raise Differs(f"nobody listens at {address}")


def imported_new(address: str, bundle: str, policy: Optional[str] = None) -> tuple[int, str, str]:
    """The same by the Python client, which is told what the service has written."""
    words = [sys.executable, "-B", str(TOP / "clients/python/nexus_import.py"), address]
    if policy is not None:
        words += ["--known", policy]
    given = f"peer siteA key-at-documents\n{bundle}"
    done = subprocess.run(words, input=given, stdout=subprocess.PIPE, stderr=subprocess.PIPE, text=True, timeout=60)
    return done.returncode, done.stdout, done.stderr


def talk(address: str, *lines: str) -> list[str]:
    """The replies to request lines in one session."""
    with connect(address, patience=20) as client:
        return [line_of(client.ask(request_of_line(line))) for line in lines]


def two_nights() -> None:
    """Labels go from one service to the other, and a goal rests on them."""
    with Service(BUILDS, 1, 8) as builds, Service(DOCUMENTS, 1, 16) as documents:
        hello = "hello siteA key-of-builds"
        said = talk(builds.address, hello, "say siteA : built(app_1)", "say siteA : built(app_2)", "say siteA.nightly : passed(app_1)")
        check("the builds are said at home", said, ["welcome 1 0", "done 1 1", "done 2 2", "done 3 3"])
        check("the first night's bundle", exported(builds, "siteA"), (0, FIRST_NIGHT))
        check("a principal without labels", exported(builds, "ci"), (0, "nexus bundle 1\nend\n"))
        check("no principal", exported(builds, "siteB"), (1, "no principal\n"))

        before = talk(documents.address, "hello bob key-of-bob", PROOF, "call deploy app 0")
        check("before the import", before, ["welcome 2 4", "done 5 0", "denied 5 LabelMissing 1"])
        wanted = "welcome 3 5\ndone 6 6\ndone 7 7\ndone 8 8\n"
        check("the first night's import", imported(documents.address, "key-at-documents", FIRST_NIGHT), (0, wanted))
        given = talk(documents.address, "hello siteA key-at-documents", "transfer 6 bob")
        check("the peer hands bob a label", given, ["welcome 4 8", "done 9 0"])
        check("bob deploys", talk(documents.address, "hello bob key-of-bob", "call deploy app 0"), ["welcome 5 9", "allowed 9 0 0"])

        said = talk(builds.address, hello, "delete 2", "say siteA : built(app_3)")
        check("the second day", said, ["welcome 2 3", "done 4 0", "done 5 5"])
        check("the second night's bundle", exported(builds, "siteA"), (0, SECOND_NIGHT))
        there = "known siteA says built(app_1)\nknown siteA.nightly says passed(app_1)\n"
        got = imported_new(documents.address, SECOND_NIGHT, documents.output.name)
        check("the second night's import sends what is new", got, (0, "welcome 6 9\ndone 10 10\n", there))
        again = "welcome 7 10\ndone 11 11\ndone 12 12\ndone 13 13\n"
        check("the service takes what it is told", imported(documents.address, "key-at-documents", SECOND_NIGHT), (0, again))
        check("what the peer holds at the other service", exported(documents, "siteA"), (0, HELD))


def bad_peers() -> None:
    """A wrong secret, a label that is refused, inputs that are refused, and addresses at which nobody answers."""
    with Service(DOCUMENTS, 1, 8) as documents:
        refused = "refused 4 BadSecret\nrefused 4 NotOpen\nrefused 4 NotOpen\nrefused 4 NotOpen\n"
        check("a wrong secret", imported(documents.address, "guess", FIRST_NIGHT), (0, refused))
        # This label has 1,015 bytes, and 1,026 where the peer says it.
        longest = "siteA says (p(" + ", ".join(["a" * 60] * 8) + ")" + " or p" * 101 + ")"
        long = f"nexus bundle 1\nlabel siteA says p\nlabel {longest}\nlabel siteA says q\nend\n"
        got = imported(documents.address, "key-at-documents", long)
        check("a label that the peer can't say is refused, and the next goes on", got, (0, "welcome 3 4\ndone 5 5\nrefused 5 BadFormula\ndone 6 6\n"))
        for what, given, line, flaw in (
            ("no input", "", 1, "byte 1: EndOfInput"),
            ("a peer without a secret", "peer siteA\nnexus bundle 1\nend\n", 1, "byte 1: BadLine"),
            ("a peer whose name is none", "peer says key\nnexus bundle 1\nend\n", 1, "byte 1: BadLine"),
            ("a bundle of another version", "peer siteA key\nnexus bundle 2\nend\n", 2, "byte 1: BadLine"),
            ("a label that is not closed", "peer siteA key\nnexus bundle 1\nlabel siteA says p(?x)\nend\n", 3, "byte 1: BadLine"),
            ("a label that is no formula", "peer siteA key\nnexus bundle 1\nlabel siteA says p(\nend\n", 3, "byte 20: Unexpected"),
            ("a label that nobody says", "peer siteA key\nnexus bundle 1\nlabel siteA says p\nlabel ok\nend\n", 4, "byte 1: BadLine"),
            ("a bundle without its end", "peer siteA key\nnexus bundle 1\nlabel siteA says p\n", 4, "byte 1: EndOfInput"),
            ("something behind the end", "peer siteA key\nnexus bundle 1\nend\n\n", 4, "byte 1: BadLine"),
        ):
            check(what, run(["import", documents.address], given), (3, f"refused line {line}\n"))
            check(f"what is told of {what}", told(["import", documents.address], given), f"line {line}, {flaw}\n")
        many = "peer siteA key\nnexus bundle 1\n" + "label siteA says p\n" * 262_145 + "end\n"
        check("a label too many", run(["import", documents.address], many), (3, "refused line 262147\n"))
        for words in (["import"], ["import", "help"], ["import", "-a"], ["import", documents.address, "x"], ["export"], ["export", "says"], ["export", "a", "b"]):
            check(f"the words {' '.join(words)[:14]}", run(words, DOCUMENTS), (2, ""))
        check("a principal of the name help", run(["export", "help"], DOCUMENTS), (1, "no principal\n"))
        check("a policy that is refused", run(["export", "fs"], DOCUMENTS[:-4]), (3, "refused line 9\n"))
    nobody = f"127.0.0.1:{services.free_port()}"
    check("nobody listens", run(["import", nobody], f"peer siteA key\n{FIRST_NIGHT}"), (7, ""))


def a_link_that_ends() -> None:
    """What was done stands, line by line, and the rest goes on from what the service wrote."""
    with socket.create_server(("127.0.0.1", 0)) as listener:
        address = "127.0.0.1:%d" % listener.getsockname()[1]

        def half() -> None:
            peer, _ = listener.accept()
            with peer:
                for reply in (b"\0\0\0\x11\x41" + bytes(7) + b"\x01" + bytes(8), b"\0\0\0\x11\x42" + bytes(7) + b"\x01" + bytes(7) + b"\x01", b"\0\0\0\x11\x42"):
                    length = int.from_bytes(peer.recv(4, socket.MSG_WAITALL), "big")
                    peer.recv(length, socket.MSG_WAITALL)
                    peer.sendall(reply)

        thread = threading.Thread(target=half)
        thread.start()
        check("a link that ends in the middle", imported(address, "key-at-documents", FIRST_NIGHT), (9, "welcome 1 0\ndone 1 1\n"))
        thread.join()
    with Service(DOCUMENTS, 1, 8) as documents:
        first = FIRST_NIGHT.replace("label siteA.nightly says passed(app_1)\n", "")
        check("a part of a bundle", imported(documents.address, "key-at-documents", first), (0, "welcome 2 4\ndone 5 5\ndone 6 6\n"))
        there = "known siteA says built(app_1)\nknown siteA says built(app_2)\n"
        got = imported_new(documents.address, FIRST_NIGHT, documents.output.name)
        check("the rest of it", got, (0, "welcome 3 6\ndone 7 7\n", there))


def trusted() -> None:
    """How far a peer that lies can get: to `built`, and no further."""
    given = "nexus trust 1\nsubject eve\nlabel fs says siteA speaksfor fs on built\nuntrusted siteA\nloose built\ngoal fs says {}\nend\n"
    check("a lying peer can't let eve in", run(["trust"], given.format("may(eve)")), (0, "safe\n"))
    check("a lying peer can call anything built", run(["trust"], given.format("built(evil)")), (1, "goal\n"))
    whole = given.replace(" on built", "")
    check("a peer that is trusted on everything can do everything", run(["trust"], whole.format("may(eve)")), (1, "label 1\n"))


def main() -> int:
    services.program = sys.argv[1]
    services.passed.clear()
    try:
        for play in (two_nights, bad_peers, a_link_that_ends, trusted):
            play()
    except Differs as differs:
        print(differs)
        return 1
    print(f"{len(services.passed)} checks of peers pass")
    return 0


if __name__ == "__main__":
    sys.exit(main())
