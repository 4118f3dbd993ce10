#!/usr/bin/env python3
"""Plays `nexus compact`: each kind of entry undone and not undone, a history that is drawn at random, inputs that are refused, the ways in
which the program ends, and a service that is renewed in a pause. What is wanted stands here, or is worked out here from docs/FORMATS.md
without the program.

    examples/compact/run.py PROGRAM

prints what differs first and ends with 1, or prints `N checks of compact pass` and ends with 0.
"""
from __future__ import annotations

import random
import socketserver
import subprocess
import sys
import tempfile
import threading
import time
from pathlib import Path
from typing import Optional

sys.path.insert(0, str(Path(__file__).resolve().parents[1] / "serve"))
sys.path.insert(0, str(Path(__file__).resolve().parents[2] / "clients" / "python"))

import run as services
from nexus_client import connect, line_of, request_of_line
from run import Differs, check, free_port

FOLDER = Path(__file__).resolve().parent
HEAD = "nexus 2\nprincipal fs pf\nprincipal bob pb\nprincipal eve pe\nauthority 0 127.0.0.1:9\nauthority 3 127.0.0.1:9\n"

# What is read, what is written, and the old and the new numbers of labels: entries are counted from 1.
CASES = """
an empty policy
> 
= 

objects stay, and their owners
> 1 fs object f
> 2 bob object g
= 1 fs object f
= 2 bob object g

the last goal of an operation on an object stays
> 1 fs object f
> 1 fs goal read f : true
> 1 fs goal write f : true
> 1 fs goal read f : fs says may(?subject)
= 1 fs object f
= 1 fs goal write f : true
= 1 fs goal read f : fs says may(?subject)

a cleared goal is gone
> 1 fs object f
> 1 fs goal read f : true
> 1 fs nogoal read f
= 1 fs object f

a goal that is set again
> 1 fs object f
> 1 fs goal read f : true
> 1 fs nogoal read f
> 1 fs goal read f : false
= 1 fs object f
= 1 fs goal read f : false

goals of two objects
> 1 fs object f
> 1 bob object g
> 1 fs goal read f : true
> 1 bob goal read g : true
> 1 bob nogoal read g
= 1 fs object f
= 1 bob object g
= 1 fs goal read f : true

the last proof of a principal for an operation on an object stays
> 1 fs object f
> 2 bob proof read f : proof 2 ; 1 true_i : true ; end
> 1 fs proof read f : proof 2 ; 1 true_i : true ; end
> 2 bob proof write f : proof 2 ; 1 true_i : true ; end
> 2 bob proof read f : proof 2 ; 1 ask : bob says ok ; end
= 1 fs object f
= 1 fs proof read f : proof 2 ; 1 true_i : true ; end
= 2 bob proof write f : proof 2 ; 1 true_i : true ; end
= 2 bob proof read f : proof 2 ; 1 ask : bob says ok ; end

a proof that was removed is gone, and those of others stay
> 1 fs object f
> 2 bob proof read f : proof 2 ; 1 true_i : true ; end
> 1 fs proof read f : proof 2 ; 1 true_i : true ; end
> 2 bob noproof read f
= 1 fs object f
= 1 fs proof read f : proof 2 ; 1 true_i : true ; end

the last binding of a principal stays
> 2 bob bind bob 0
> 2 bob bind bob.clock 0
> 1 fs bind fs 3
> 2 bob bind bob 3
> 1 fs unbind fs
= 2 bob bind bob.clock 0
= 2 bob bind bob 3

a binding that was made again
> 1 fs bind fs 3
> 1 fs unbind fs
> 1 fs bind fs 0
= 1 fs bind fs 0

a deleted label is gone, with what was done with it
> 1 fs say fs : may(eve)
> 1 fs say fs : may(bob)
> 1 fs transfer 1 eve
> 1 fs transfer 2 bob
> 3 eve delete 1
= 1 fs say fs : may(bob)
= 1 fs transfer 1 bob
# 2 1

every transfer of a label that is held stays, one to oneself too
> 1 fs say fs : may(bob)
> 1 fs transfer 1 fs
> 1 fs transfer 1 bob
> 2 bob transfer 1 eve
= 1 fs say fs : may(bob)
= 1 fs transfer 1 fs
= 1 fs transfer 1 bob
= 2 bob transfer 1 eve
# 1 1

labels keep their order, and two of one formula are two
> 1 fs say fs : a
> 1 fs say fs : b
> 1 fs delete 1
> 1 fs say fs : c
> 1 fs say fs : b
> 1 fs say fs.part : a
> 1 fs delete 4
= 1 fs say fs : b
= 1 fs say fs : b
= 1 fs say fs.part : a
# 2 1
# 5 2
# 6 3

a deletion undoes its own label alone
> 1 fs object f
> 1 fs say fs : a
> 1 fs goal read f : fs says a
> 1 fs say fs : b
> 1 fs delete 4
> 2 bob proof read f : proof 2 ; 1 label : fs says a ; end
> 1 fs transfer 2 bob
= 1 fs object f
= 1 fs say fs : a
= 1 fs goal read f : fs says a
= 2 bob proof read f : proof 2 ; 1 label : fs says a ; end
= 1 fs transfer 2 bob
# 2 2
"""


def run(words: list[str], given: str | bytes) -> tuple[int, str, str]:
    """The status, the output and the standard error of a run of the program."""
    text = given.encode() if isinstance(given, str) else given
    done = subprocess.run([services.program, *words], input=text, stdout=subprocess.PIPE, stderr=subprocess.PIPE, timeout=120)
    return done.returncode, done.stdout.decode(), done.stderr.decode()


def lines_of(block: list[str], mark: str) -> str:
    return "".join(line[2:] + "\n" for line in block if line.startswith(mark + " ") and line[2:])


def cases() -> None:
    """Each entry undone and not undone; and what was compacted is compacted to itself."""
    played = 0
    for part in CASES.strip("\n").split("\n\n"):
        title, *block = part.split("\n")
        given, wanted, numbers = (lines_of(block, mark) for mark in ">=#")
        whole = HEAD + wanted + "end\n"
        check(title, run(["compact"], HEAD + given + "end\n"), (0, whole, numbers))
        kept = [line for line in wanted.splitlines() if " say " in line]
        same = "".join(f"{place} {place}\n" for place, line in enumerate(wanted.splitlines(), 1) if line in kept)
        check(f"{title}, twice", run(["compact"], whole), (0, whole, same))
        played += 1
    check("cases", played, 14)


REASONS = """nexus 2
principal fs pf
principal bob pb
1 fs object f
1 fs goal read f : true
1 fs goal read f : fs says may(?subject)
1 fs say fs : may(eve)
1 fs say fs : may(bob)
1 fs delete 4
1 fs transfer 5 bob
2 bob transfer 5 fs
1 fs transfer 5 bob
2 bob proof read f : proof 2 ; 1 true_i : true ; end
2 bob noproof read f
2 bob proof read f : proof 2 ; 1 label : fs says may(bob) ; end
end
"""
REASONS_LEFT = """nexus 2
principal fs pf
principal bob pb
1 fs object f
1 fs goal read f : fs says may(?subject)
1 fs say fs : may(bob)
1 fs transfer 3 bob
2 bob transfer 3 fs
1 fs transfer 3 bob
2 bob proof read f : proof 2 ; 1 label : fs says may(bob) ; end
end
"""


def inputs() -> None:
    """A worked policy, one in another spelling, and inputs that are refused."""
    check("a worked policy", run(["compact"], REASONS), (0, REASONS_LEFT, "5 3\n"))
    spelled = REASONS.replace("nexus 2", "nexus 1").replace("fs says may(?subject)", "fs   says (may( ?subject ))").replace("proof 2 ; 1 label", "proof 2;1  label")
    check("the same, spelled in another way", run(["compact"], spelled), (0, REASONS_LEFT, "5 3\n"))
    check("a text without its last line", run(["compact"], REASONS.removesuffix("end\n")), (3, "refused line 16\n", "line 16, byte 1: EndOfInput\n"))
    check("a text whose last line has no line feed", run(["compact"], REASONS.removesuffix("\n")), (0, REASONS_LEFT, "5 3\n"))
    check("an empty input", run(["compact"], ""), (3, "refused line 1\n", "line 1, byte 1: EndOfInput\n"))
    check("a line behind the end", run(["compact"], REASONS + "1 fs object g\n"), (3, "refused line 17\n", "line 17, byte 1: BadLine\n"))
    check("an entry that is refused", run(["compact"], REASONS.replace("fs delete 4", "bob delete 4")), (3, "refused line 9\n", "line 9, byte 1: NotHolder\n"))
    check("a byte that is no text", run(["compact"], REASONS.encode().replace(b"eve", b"\xff")), (3, "refused line 7\n", "line 7, byte 1: BadFormula\n"))
    check("an input that is too large", run(["compact"], REASONS + "x" * (67_108_865 - len(REASONS))), (3, "refused size\n", "byte 67108865: TooLarge\n"))
    check("a word too many", run(["compact", "more"], REASONS), (2, "", ""))
    check("another case of the word", run(["Compact"], REASONS), (2, "", ""))


def shell(command: str, given: str) -> int:
    """The status of a command line in which $0 is the program."""
    return subprocess.run(["bash", "-c", command, services.program], input=given.encode(), timeout=60).returncode


def endings() -> None:
    """The source, the output, and the standard error that fail."""
    check("an input that can't be read", shell('"$0" compact </ >/dev/null', ""), 4)
    check("an output that can't be written", shell('"$0" compact >/dev/full', REASONS), 5)
    check("numbers that can't be written", shell('"$0" compact 2>/dev/full >/dev/null', REASONS), 5)
    check("no numbers, so nothing is written to the standard error", shell('"$0" compact 2>/dev/full >/dev/null', HEAD + "end\n"), 0)
    with tempfile.NamedTemporaryFile() as file:
        shell(f'"$0" compact 2>/dev/full >{file.name}', REASONS)
        check("where the numbers fail the text stands", Path(file.name).read_text(), REASONS_LEFT)


# A history that is drawn at random


NAMES = ["ann", "ben", "cat", "dan", "eva", "flo"]
OPS = ["read", "write", "share"]
STATEMENTS = ["p", "q(ann)", "r(ben, 3)", "s(ann.part)"]


class Drawn:
    """A legal history of 10,000 entries by six principals, drawn from a number; what stands at its end is kept beside it."""

    def __init__(self, seed: int, address: str) -> None:
        self.draw = random.Random(seed)
        self.head = "nexus 2\n" + "".join(f"principal {name} {name}-secret\n" for name in NAMES) + f"authority 0 {address}\nauthority 7 {address}\n"
        self.lines: list[str] = []
        self.owners: dict[str, str] = {}
        self.goals: dict[tuple[str, str], int] = {}
        # What each goal in force is, for proofs that show it.
        self.formulas: dict[tuple[str, str], str] = {}
        self.proofs: dict[tuple[str, str, str], int] = {}
        self.ports: dict[str, int] = {}
        self.holders: dict[int, str] = {}
        # Of each label the entries that say and transfer it.
        self.deeds: dict[int, list[int]] = {}
        while len(self.lines) < 10_000:
            self.enter()

    def enter(self) -> None:
        """Adds an entry, where the one that is drawn is legal."""
        name = self.draw.choice(NAMES)
        number = len(self.lines) + 1
        change = self.draw.choice([self.make, self.set_goal, self.clear_goal, self.register, self.remove, self.bind, self.unbind, self.say, self.say, self.transfer, self.transfer, self.delete])
        event: Optional[str] = change(name, number)
        if event is not None:
            self.lines.append(f"{self.draw.randint(1, 9)} {name} {event}")

    def make(self, name: str, number: int) -> Optional[str]:
        thing = f"thing{self.draw.randint(1, 30)}"
        if thing in self.owners:
            return None
        self.owners[thing] = name
        return f"object {thing}"

    def thing(self) -> Optional[str]:
        return self.draw.choice(sorted(self.owners)) if self.owners else None

    def set_goal(self, name: str, number: int) -> Optional[str]:
        op, thing = self.draw.choice(OPS), self.thing()
        if thing is None or self.owners[thing] != name:
            return None
        self.goals[op, thing] = number
        self.formulas[op, thing] = self.draw.choice(["true", f"{name} says p", "ann says q(ann)", "ben says s(ann.part)"])
        return f"goal {op} {thing} : {self.formulas[op, thing]}"

    def clear_goal(self, name: str, number: int) -> Optional[str]:
        op, thing = self.draw.choice(OPS), self.thing()
        if thing is None or self.owners[thing] != name or (op, thing) not in self.goals or self.draw.random() < 0.5:
            return None
        del self.goals[op, thing], self.formulas[op, thing]
        return f"nogoal {op} {thing}"

    def register(self, name: str, number: int) -> Optional[str]:
        op, thing = self.draw.choice(OPS), self.thing()
        if thing is None:
            return None
        self.proofs[name, op, thing] = number
        shown = self.formulas.get((op, thing), "true")
        if self.draw.random() < 0.3:
            shown = f"{self.draw.choice(NAMES)} says {self.draw.choice(STATEMENTS)}"
        line = "true_i : true" if shown == "true" else f"{self.draw.choice(['label', 'ask'])} : {shown}"
        return f"proof {op} {thing} : proof 2 ; 1 {line} ; end"

    def remove(self, name: str, number: int) -> Optional[str]:
        mine = sorted(it for it in self.proofs if it[0] == name)
        if not mine or self.draw.random() < 0.5:
            return None
        case = self.draw.choice(mine)
        del self.proofs[case]
        return f"noproof {case[1]} {case[2]}"

    def bind(self, name: str, number: int) -> Optional[str]:
        term = name + self.draw.choice(["", ".part"])
        self.ports[term] = number
        return f"bind {term} {self.draw.choice([0, 7])}"

    def unbind(self, name: str, number: int) -> Optional[str]:
        term = name + self.draw.choice(["", ".part"])
        if self.ports.pop(term, None) is None:
            return None
        return f"unbind {term}"

    def say(self, name: str, number: int) -> Optional[str]:
        self.holders[number] = name
        self.deeds[number] = [number]
        return f"say {name} : {self.draw.choice(STATEMENTS)}"

    def mine(self, name: str) -> Optional[int]:
        held = [label for label, holder in self.holders.items() if holder == name]
        return self.draw.choice(held) if held else None

    def transfer(self, name: str, number: int) -> Optional[str]:
        label, to = self.mine(name), self.draw.choice(NAMES)
        if label is None:
            return None
        self.holders[label] = to
        self.deeds[label].append(number)
        return f"transfer {label} {to}"

    def delete(self, name: str, number: int) -> Optional[str]:
        label = self.mine(name)
        if label is None:
            return None
        del self.holders[label], self.deeds[label]
        return f"delete {label}"

    def text(self) -> str:
        return self.head + "".join(f"{line}\n" for line in self.lines) + "end\n"

    def compacted(self) -> tuple[str, str]:
        """The text of what still matters, and the numbers of labels, by what stands at the end."""
        kept = {number for number, line in enumerate(self.lines, 1) if line.split()[2] == "object"}
        kept |= {*self.goals.values(), *self.proofs.values(), *self.ports.values()}
        kept |= {number for deeds in self.deeds.values() for number in deeds}
        new = {number: place for place, number in enumerate(sorted(kept), 1)}
        text = self.head
        for number in sorted(kept):
            words = self.lines[number - 1].split(" ")
            if words[2] == "transfer":
                words[3] = str(new[int(words[3])])
            text += " ".join(words) + "\n"
        return text + "end\n", "".join(f"{label} {new[label]}\n" for label in sorted(self.holders))

    def calls(self) -> str:
        """A session for each principal, which calls each operation on each object."""
        lines = ""
        for session, name in enumerate(NAMES, 1):
            lines += f"{session} hello {name} {name}-secret\n"
            lines += "".join(f"{session} call {op} {thing} 0\n" for op in OPS for thing in sorted(self.owners))
        return lines


class Questions(socketserver.StreamRequestHandler):
    """An authority that says yes to some statements."""

    def handle(self) -> None:
        for line in self.rfile:
            self.wfile.write(b"yes\n" if line in [b"ask p\n", b"ask s(ann.part)\n"] else b"no\n")


class Authority(socketserver.ThreadingTCPServer):
    allow_reuse_address = True
    daemon_threads = True


def verdicts(text: str, calls: str) -> list[str]:
    """The replies of `script` to calls under a policy, without the length of its journal."""
    status, output, _ = run(["script"], text + calls)
    check("a script of calls", status, 0)
    replies = output[: output.index("nexus 2\n")].splitlines()
    return [" ".join(word for place, word in enumerate(line.split(" ")) if place != 1) for line in replies if "welcome" not in line]


def drawn() -> None:
    """What is kept of a long history, and each case before and after."""
    with Authority(("127.0.0.1", 0), Questions) as authority:
        threading.Thread(target=authority.serve_forever, daemon=True).start()
        history = Drawn(2026, f"127.0.0.1:{authority.server_address[1]}")
        text, calls = history.text(), history.calls()
        short, numbers = history.compacted()
        check("the entries of a drawn history", len(history.lines), 10_000)
        check("what is kept of a drawn history", run(["compact"], text), (0, short, numbers))
        again = run(["compact"], short)
        check("a drawn history, compacted twice", (again[0], again[1]), (0, short))
        before, after = verdicts(text, calls), verdicts(short, calls)
        check("the verdicts of each case", after, before)
        check("cases", len(before), len(NAMES) * len(OPS) * len(history.owners))
        # The comparison would see something: calls are allowed, and denied for several causes.
        causes = {line.split()[0] if "allowed" in line else line.split()[1] for line in before}
        check("the verdicts are of many kinds", len(causes) >= 5, True)
        authority.shutdown()


# A service that is renewed


def talk(address: str, *lines: str) -> list[str]:
    """The replies to request lines in one session."""
    with connect(address, patience=20) as client:
        return [line_of(client.ask(request_of_line(line))) for line in lines]


def renewed() -> None:
    """A service is stopped by a signal, its text compacted, and another one started at its address."""
    address = f"127.0.0.1:{free_port()}"
    with tempfile.TemporaryDirectory() as folder:
        work = Path(folder)
        with open(work / "after", "wb") as after:
            service = subprocess.Popen([services.program, "serve", address, "1", "100"], stdin=subprocess.PIPE, stdout=after)
        service.stdin.write(b"nexus 2\nprincipal fs pf\nprincipal bob pb\nend\n")
        service.stdin.close()
        nights = [f"say fs : built({night})" for night in range(200)]
        said = talk(address, "hello fs pf", "object f", "goal read f : fs says built(199)", *nights)
        check("the nights are said", said[-1], "done 202 202")
        gone = talk(address, "hello fs pf", *[f"delete {label}" for label in range(3, 202)], "transfer 202 bob")
        check("all but the last are deleted", gone[-1], "done 402 0")
        proof = "proof read f : proof 2 ; 1 label : fs says built(199) ; end"
        check("bob reads", talk(address, "hello bob pb", proof, "call read f 0"), ["welcome 3 402", "done 403 0", "allowed 403 0 0"])

        began = time.monotonic()
        words = [str(FOLDER / "renew.sh"), services.program, str(service.pid), str(work / "after"), str(work / "renewed"), address, "1", "100"]
        done = subprocess.run(words, stdout=subprocess.PIPE, timeout=60)
        check("the status of the pause", done.returncode, 0)
        replies = talk(address, "hello bob pb", "call read f 0", "noproof read f")
        pause = time.monotonic() - began
        service.wait()
        check("the service goes on with five entries", replies, ["welcome 4 5", "allowed 5 0 0", "done 6 0"])
        check("the label that is kept has a new number", (work / "renewed/numbers").read_text(), "202 3\n")
        check("the policy of before has its end", (work / "renewed/before").read_text(), (work / "after").read_text() + "end\n")
        check("the pause is short", pause < 10, True)
        again = subprocess.run([*words[:2], done.stdout.decode().strip(), *words[3:]], stdout=subprocess.PIPE, stderr=subprocess.DEVNULL, timeout=60)
        check("what was renewed is not written over", again.returncode, 1)
        check("and the service goes on", talk(address, "hello bob pb"), ["welcome 5 6"])
        subprocess.run(["kill", done.stdout.decode().strip()], check=True)
        print(f"  the pause took {pause:.2f} seconds")


def main() -> int:
    services.program = sys.argv[1]
    try:
        for play in [cases, inputs, endings, drawn, renewed]:
            play()
    except Differs as differs:
        print(differs)
        return 1
    print(f"{len(services.passed)} checks of compact pass")
    return 0


if __name__ == "__main__":
    sys.exit(main())
