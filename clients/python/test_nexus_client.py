#!/usr/bin/env python3
"""Tests of nexus_client.

    clients/python/test_nexus_client.py [PROGRAM]

Without PROGRAM, frames, lines and ends are tested, over pairs of sockets. With it, the client also plays sessions of `PROGRAM serve`
over loopback. Lines and frames stand in clients/frames.txt. Prints `N tests of the client pass` and ends with 0, or what failed and
ends with 1.
"""
from __future__ import annotations

import io
import re
import socket
import socketserver
import struct
import subprocess
import sys
import tempfile
import threading
import unittest
from pathlib import Path
from typing import IO, Optional

sys.path.insert(0, str(Path(__file__).resolve().parent))

from nexus_client import (
    Allowed, Bad, BadReply, Bind, Call, ClearGoal, ClearProof, Client, ClosedAtEdge, Delete, Denied, Done, Down, Ended, Hello, NewObject, NoMemory,
    Refused, Reply, Request, Say, See, Seen, SetGoal, SetProof, SystemFault, TimedOut, Torn, Transfer, Unbind, Welcome, connect, decode, encode,
    frame, line_of, records, request_of_line,
)  # fmt: skip

program: Optional[str] = None

# The requests of frames.txt, in their order.
REQUESTS: list[Request] = [
    Hello("bob", "pw"), Say("bob", "ok"), Transfer(3, "bob"), Delete(258), NewObject("f"), SetGoal("read", "f", "true"), ClearGoal("read", "f"),
    SetProof("read", "f", ""), ClearProof("read", "f"), Bind("bob.x", 2**64 - 1), Unbind("bob"), Call("read", "ledger_of_2026", 7),
    See(258), See(0),
]  # fmt: skip

# The replies of frames.txt, in their order.
REPLIES: list[Reply] = [
    Welcome(1, 0), Done(3, 3), Allowed(4, 1, 7), Denied(1, 1, 0, 0), Denied(5, 4, 1, 0), Denied(6, 3, 1, 12), Denied(6, 9, 1, 13), Refused(1, 20),
    Refused(1, 21), Refused(262_144, 22), Refused(7, 23), Refused(0, 24), Down(4, 2), NoMemory(), Bad(5), Seen(258),
]  # fmt: skip

TABLES = (Path(__file__).resolve().parents[1] / "frames.txt").read_text()


def rows(what: str) -> list[tuple[str, bytes]]:
    """The requests or the replies of frames.txt: the line and the frame of each."""
    return [(line, bytes.fromhex(row)) for line, row in re.findall(rf"^{what}: (.*) -> ([0-9a-f ]+)$", TABLES, re.MULTILINE)]


# Lines that are none, beside those of frames.txt.
NO_LINES = ["hello bob p\x7f", "hello bob pw\n", "say alice : a\nb", "hello " + "b" * 65 + " pw", "hello bob " + "p" * 65, "say alice : " + "x" * 33_689]


def pair(timeout: float = 5) -> tuple[Client, socket.socket]:
    """A client, and the socket of its service."""
    ours, theirs = socket.socketpair()
    ours.settimeout(timeout)
    return Client(ours), theirs


class Frames(unittest.TestCase):
    """What is sent and what is read, byte by byte."""

    def test_requests(self) -> None:
        self.assertEqual(len(rows("request")), len(REQUESTS))
        for request, (line, row) in zip(REQUESTS, rows("request")):
            with self.subTest(line):
                self.assertEqual(encode(request), row)
                self.assertEqual(request_of_line(line), request)

    def test_replies(self) -> None:
        self.assertEqual(len(rows("reply")), len(REPLIES))
        for reply, (line, row) in zip(REPLIES, rows("reply")):
            with self.subTest(line):
                self.assertEqual(decode(row[4:]), reply)
                self.assertEqual(line_of(reply), line)

    def test_names_of_numbers(self) -> None:
        denied = Denied(6, 3, 1, 5)
        self.assertEqual((denied.cause_name, denied.fault_name), ("Line", "NotFresh"))
        self.assertIsNone(Denied(6, 6, 3, 0).fault_name)
        named = {1: "NotOpen", 17: "Quota", 18: "ObjectsFull", 20: "NotRecorded", 21: "ReadOnly", 22: "JournalFull", 23: "NotYet", 24: "24", 0: "0"}
        self.assertEqual({number: Refused(0, number).name for number in named}, named)

    def test_lines_that_are_none(self) -> None:
        lines: list[str] = re.findall(r'^none: "(.*)"$', TABLES, re.MULTILINE)
        self.assertIn("transfer 03 bob", lines)
        self.assertIn("see 03", lines)
        for line in [*lines, *NO_LINES]:
            with self.subTest(line[:40]), self.assertRaises(ValueError):
                request_of_line(line)
        self.assertEqual(request_of_line("say alice : " + "x" * 33_688), Say("alice", "x" * 33_688))
        self.assertEqual(request_of_line("say alice :  ok : ok "), Say("alice", " ok : ok "))

    def test_requests_that_are_none(self) -> None:
        for request in [
            Hello("says", "pw"), Hello("bob", ""), Hello("bob", "p w"), NewObject("1f"), NewObject("f\n"), Delete(2**64), Delete(-1), Say("a", "x" * 65_536),
            See(2**64), See(-1), SetGoal("read", "f.g", "true"), Say("", "x" * 33_788),
        ]:  # fmt: skip
            with self.subTest(str(request)[:40]), self.assertRaises(ValueError):
                encode(request)
        self.assertEqual(len(encode(Say("", "x" * 33_787))), 4 + 33_792)

    def test_payloads_that_are_none(self) -> None:
        for payload in ["", "40", "49", "4a", "48", "47" + "00" * 8, "41" + "00" * 8, "44" + "00" * 24, "49" + "00" * 16, "4a" + "00" * 8]:
            with self.subTest(payload), self.assertRaises(BadReply):
                decode(bytes.fromhex(payload))

    def test_records(self) -> None:
        """A call of a session that is open makes a record, and nothing else does."""
        call = Call("read", "f", 7)
        talk: list[tuple[Request, Reply]] = [
            (call, Refused(0, 1)), (Hello("bob", "pb"), Refused(0, 3)), (call, Refused(0, 1)), (Hello("bob", "pw"), Welcome(1, 0)), (call, Refused(0, 8)),
            (call, Denied(1, 1, 0, 0)), (call, Denied(1, 3, 2, 12)), (call, Allowed(4, 1, 7)), (call, Down(4, 2)), (call, NoMemory()),
            (Say("bob", "ok"), Done(5, 5)), (Say("bob", "ok"), Refused(5, 8)), (See(5), Seen(5)), (See(6), Refused(5, 23)),
        ]  # fmt: skip
        wanted = ["0 bob read f ? : refused NoSuchObject", "1 bob read f ? : denied GoalUnset", "1 bob read f ? : denied Line 2 NotGoal"]
        self.assertEqual(records(talk), [*wanted, "4 bob read f ? : allowed", "4 bob read f ? : down 2"])

    def test_a_frame_of_anything(self) -> None:
        self.assertEqual(frame(14, "a", 1), bytes.fromhex("0000000c0e0001610000000000000001"))


class Points(unittest.TestCase):
    """What a client knows of the journal's length, over a pair of sockets."""

    def see(self, length: int, *replies: str) -> tuple[object, int]:
        """What `see` gives where these replies come, of which the last is that to it, and the greatest point afterwards."""
        client, service = pair()
        with client, service:
            for line in replies[:-1]:
                service.sendall(encode_reply(line))
                client.receive()
            service.sendall(encode_reply(replies[-1]))
            told = client.see(length)
            self.assertEqual(service.recv(1000), encode(See(length)))
            return told, client.at

    def test_see(self) -> None:
        for length, reply, told, at in [
            (5, "seen 5", 5, 5), (5, "seen 7", 7, 7), (0, "seen 0", 0, 0), (0, "seen 3", 3, 3), (2**64 - 1, f"seen {2**64 - 1}", 2**64 - 1, 2**64 - 1),
            (8, "refused 7 23", Refused(7, 23), 7), (1, "refused 0 23", Refused(0, 23), 0), (1, "refused 0 1", Refused(0, 1), 0), (1, "bad 13", Bad(13), 0),
            (1, "nomemory", NoMemory(), 0), (1, "done 1 0", Done(1, 0), 1),
        ]:  # fmt: skip
            with self.subTest(f"{length} {reply}"):
                self.assertEqual(self.see(length, reply), (told, at))

    def test_see_as_a_request(self) -> None:
        """`ask` gives the reply itself. What can't be sent leaves the client as it is."""
        client, service = pair()
        with client, service:
            service.sendall(encode_reply("seen 5"))
            self.assertEqual(client.ask(See(5)), Seen(5))
            for length in [-1, 2**64]:
                with self.assertRaises(ValueError):
                    client.see(length)
            client.send(See(5))
            with self.assertRaises(ValueError):
                client.see(5)
            self.assertEqual((client.waiting, client.at), (1, 5))

    def test_a_point_never_falls(self) -> None:
        self.assertEqual(self.see(5, "welcome 1 9", "seen 6"), (6, 9))
        self.assertEqual(self.see(5, "refused 9 23", "seen 6"), (6, 9))

    def test_at(self) -> None:
        """Each reply that has a point counts by it, and by no other number of it."""
        client, service = pair()
        with client, service:
            self.assertEqual(client.at, 0)
            for line, at in [
                ("nomemory", 0), ("refused 0 23", 0), ("refused 1 23", 1), ("welcome 99 2", 2), ("done 3 99", 3), ("done 1 99", 3), ("allowed 4 99 99", 4),
                ("denied 5 99 99 99", 5), ("down 6 99", 6), ("refused 7 99", 7), ("seen 8", 8), ("welcome 9 0", 8), ("bad 99", 8), ("nomemory", 8), ("seen 7", 8),
            ]:  # fmt: skip
                with self.subTest(line):
                    service.sendall(encode_reply(line))
                    client.receive()
                    self.assertEqual(client.at, at)
            service.sendall(encode_reply("seen 99")[:-1])
            service.close()
            with self.assertRaises(Torn):
                client.receive()
            self.assertEqual(client.at, 8)
        self.assertEqual(client.at, 8)

    def test_at_of_several(self) -> None:
        """A reply counts when it is given, not when its bytes have come."""
        client, service = pair()
        with client, service:
            service.sendall(encode_reply("seen 2") + encode_reply("refused 2 23"))
            replies = client.ask_all([See(1), See(3)])
            self.assertEqual(client.at, 0)
            self.assertEqual((next(replies), client.at), (Seen(2), 2))
            service.sendall(encode_reply("done 4 4"))
            self.assertEqual((list(replies), client.at), ([Refused(2, 23)], 2))
            self.assertEqual((client.receive(), client.at), (Done(4, 4), 4))

    def test_asking_again(self) -> None:
        """What nexus_client and README.md say of who learnt of a change elsewhere."""
        folder = Path(__file__).resolve().parent
        code = 'while isinstance(told, Refused) and told.name == "NotYet":\n        time.sleep(0.01)\n        told = client.see(at)\n'
        for name in ["nexus_client.py", "README.md"]:
            self.assertIn(f"    told = client.see(at)\n    {code}", (folder / name).read_text())
        for replies, wanted in [
            (["refused 0 23", "refused 2 23", "seen 3"], 3), (["seen 5"], 5), (["refused 2 23", "refused 2 1"], Refused(2, 1)), (["nomemory"], NoMemory()),
        ]:  # fmt: skip
            client, service = pair()
            with self.subTest(replies[-1]), client, service:
                service.sendall(b"".join(map(encode_reply, replies)))
                told = client.see(3)
                while isinstance(told, Refused) and told.name == "NotYet":
                    told = client.see(3)
                self.assertEqual(told, wanted)
                self.assertEqual(service.recv(1000), encode(See(3)) * len(replies))

    def test_see_at_an_end(self) -> None:
        client, service = pair()
        with client:
            service.close()
            for _ in range(2):
                with self.assertRaises(Ended):
                    client.see(0)
            self.assertEqual(client.at, 0)


class Ends(unittest.TestCase):
    """Each kind of end, over a pair of sockets."""

    def end_of(self, data: bytes, kind: type[Ended]) -> None:
        """The service sends these bytes and ends the connection. The client is to raise this end, now and again."""
        client, service = pair()
        with client:
            service.sendall(data)
            service.close()
            for _ in range(2):
                with self.assertRaises(kind) as raised:
                    client.receive()
                self.assertIs(type(raised.exception), kind)
            with self.assertRaises(kind):
                client.send(NewObject("f"))

    def test_closed_at_an_edge(self) -> None:
        self.end_of(b"", ClosedAtEdge)

    def test_torn(self) -> None:
        for line, data in rows("reply"):
            for cut in range(1, len(data)):
                with self.subTest(line, cut=cut):
                    self.end_of(data[:cut], Torn)

    def test_bad_replies(self) -> None:
        for row in [
            "00000000", "00000002", "00000008", "0000000a", "00000022", "ffffffff", "0000000140", "0000000149", "000000014a", "0000000148", "0000000947",
            "000000094a", "0000001149", "0000001944",
        ]:  # fmt: skip
            with self.subTest(row):
                self.end_of(bytes.fromhex(row), BadReply)

    def test_a_bad_reply_is_told_at_once(self) -> None:
        for row in ["00000002", "0000000140"]:
            client, service = pair()
            with self.subTest(row), client, service:
                service.sendall(bytes.fromhex(row))
                with self.assertRaises(BadReply):
                    client.receive()

    def test_a_reply_before_the_end(self) -> None:
        client, service = pair()
        with client:
            service.sendall(encode_reply("welcome 1 0") + encode_reply("nomemory")[:4])
            service.close()
            self.assertEqual(client.receive(), Welcome(1, 0))
            with self.assertRaises(Torn):
                client.receive()

    def test_pieces(self) -> None:
        client, service = pair()
        data = b"".join(row for _, row in rows("reply"))

        def feed() -> None:
            for byte in data:
                service.sendall(bytes([byte]))

        with client, service:
            feeder = threading.Thread(target=feed)
            feeder.start()
            self.assertEqual([client.receive() for _ in REPLIES], REPLIES)
            feeder.join()

    def test_no_reply_in_time(self) -> None:
        client, service = pair(timeout=0.05)
        with client, service:
            service.sendall(bytes(3))
            with self.assertRaises(TimedOut) as raised:
                client.ask(NewObject("f"))
            with self.assertRaises(TimedOut) as again:
                client.ask(NewObject("f"))
            self.assertIs(again.exception, raised.exception)

    def test_nothing_taken_in_time(self) -> None:
        client, service = pair(timeout=0.05)
        with client, service, self.assertRaises(TimedOut):
            for _ in range(10_000):
                client.send(Say("bob", "x" * 30_000))

    def test_a_fault_of_the_system(self) -> None:
        client, service = pair()
        service.close()
        with client, self.assertRaises(SystemFault) as raised:
            for _ in range(2):
                client.send(NewObject("f"))
        self.assertIsInstance(raised.exception.__cause__, OSError)

    def test_a_reset(self) -> None:
        with socket.create_server(("127.0.0.1", 0)) as door:
            with connect(f"127.0.0.1:{door.getsockname()[1]}", timeout=5) as client:
                service, _ = door.accept()
                service.setsockopt(socket.SOL_SOCKET, socket.SO_LINGER, struct.pack("ii", 1, 0))
                service.close()
                with self.assertRaises(SystemFault):
                    client.receive()

    def test_nobody_listens(self) -> None:
        for patience in [0, 0.05]:
            with self.subTest(patience), self.assertRaises(SystemFault):
                connect(f"127.0.0.1:{free_port()}", patience=patience)

    def test_no_address(self) -> None:
        for address in ["", "4000", ":4000", "127.0.0.1:", "127.0.0.1:x"]:
            with self.subTest(address), self.assertRaises(ValueError):
                connect(address)

    def test_outstanding_replies(self) -> None:
        client, service = pair()
        with client, service:
            client.send(NewObject("f"))
            client.send(NewObject("g"))
            self.assertEqual(client.waiting, 2)
            with self.assertRaises(ValueError):
                client.ask(NewObject("h"))
            service.sendall(encode_reply("done 1 0") + encode_reply("done 2 1"))
            self.assertEqual([client.receive(), client.receive()], [Done(1, 0), Done(2, 1)])
            self.assertEqual(client.waiting, 0)

    def test_quiet(self) -> None:
        client, service = pair()
        with client, service:
            self.assertTrue(client.is_quiet)
            service.sendall(encode_reply("nomemory") + encode_reply("done 1 0"))
            self.assertFalse(client.is_quiet)
            self.assertEqual(client.receive(), NoMemory())
            self.assertFalse(client.is_quiet)
            self.assertEqual(client.receive(), Done(1, 0))
            self.assertTrue(client.is_quiet)
            service.close()
            self.assertFalse(client.is_quiet)
        self.assertFalse(client.is_quiet)

    def test_window(self) -> None:
        client, service = pair()
        with client, service:
            replies = client.ask_all([NewObject("f")] * 5, window=2)
            for _ in range(5):
                service.sendall(encode_reply("nomemory"))
            self.assertEqual(next(replies), NoMemory())
            self.assertEqual(len(service.recv(1000)), 2 * len(encode(NewObject("f"))))
            self.assertEqual(list(replies), [NoMemory()] * 4)
            with self.assertRaises(ValueError):
                next(client.ask_all([], window=0))


def encode_reply(line: str) -> bytes:
    """The frame of a reply of the table with this line, or with numbers that this line has. Causes, faults and refusals are numbers in it."""
    word, *numbers = line.split()
    kinds = {"welcome": 65, "done": 66, "allowed": 67, "denied": 68, "refused": 69, "down": 70, "nomemory": 71, "bad": 72, "seen": 73}
    return frame(kinds[word], *map(int, numbers))


def free_port() -> int:
    """A port on which nobody listens."""
    with socket.socket() as free:
        free.bind(("127.0.0.1", 0))
        port: int = free.getsockname()[1]
        return port


class Desk(socketserver.StreamRequestHandler):
    """An authority that says Yes of bob, No of others, and nothing when it is asked for the time."""

    def handle(self) -> None:
        for line in self.rfile:
            if line.startswith(b"ask TimeNow"):
                return
            self.wfile.write(b"yes\n" if line == b"ask ok(bob)\n" else b"no\n")


# The requests of three sessions, each behind the reply to the one before, and each reply.
DAY = """
alice: object report                                         -> done 1 0
alice: goal read report : alice.desk says ok(?subject)       -> done 2 0
alice: bind alice.desk 3                                     -> done 3 0
alice: goal open report : alice.desk says TimeNow<5          -> done 4 0
alice: goal add report : alice says ok(?subject)             -> done 5 0
bob: call read report 0                                      -> denied 5 NoProof
bob: proof read report : proof 2;1 ask:alice.desk says ok(bob);end -> done 6 0
bob: call read report 0                                      -> allowed 6 0 0
bob: noproof read report                                     -> done 7 0
carol: proof read report : proof 2;1 ask:alice.desk says ok(carol);end -> done 8 1
carol: call read report 0                                    -> denied 8 AuthorityNo 1
carol: proof open report : proof 2;1 ask:alice.desk says TimeNow<5;end -> done 9 2
carol: call open report 0                                    -> down 9 1
carol: call read nothing 0                                   -> refused 9 NoSuchObject
carol: call write report 0                                   -> denied 9 GoalUnset
bob: proof add report : proof 2;1 label:alice says ok(bob);end -> done 10 3
bob: call add report 1                                       -> denied 10 LabelMissing 1
alice: say alice : ok(bob)                                   -> done 11 11
alice: transfer 11 bob                                       -> done 12 0
bob: call add report 1                                       -> allowed 12 0 0
bob: call add report 1                                       -> allowed 12 1 1
"""


class Service(unittest.TestCase):
    """Sessions of the program, over loopback."""

    def setUp(self) -> None:
        if program is None:
            self.skipTest("no program was named")

    def start(self, policy: str, workers: int = 1, sessions: int = 1) -> str:
        """Starts a service of the policy. Its address. It is killed at the end of the test where it has not ended."""
        self.address = f"127.0.0.1:{free_port()}"
        self.output: IO[bytes] = tempfile.TemporaryFile()
        self.addCleanup(self.output.close)
        words = [str(program), "serve", self.address, str(workers), str(sessions)]
        self.process = subprocess.Popen(words, stdin=subprocess.PIPE, stdout=self.output)
        self.addCleanup(self.process.wait)
        self.addCleanup(self.process.kill)
        assert self.process.stdin is not None
        self.process.stdin.write(policy.encode())
        self.process.stdin.close()
        return self.address

    def text(self) -> str:
        """The policy text, once the service has ended."""
        self.assertEqual(self.process.wait(timeout=60), 0)
        self.output.seek(0)
        return self.output.read().decode()

    def test_each_request(self) -> None:
        """Each kind of request once, and what is then written."""
        head = "nexus 2\nprincipal alice pa\nprincipal bob pb\nauthority 3 clock\n"
        with connect(self.start(head + "end\n"), timeout=20, patience=20) as client:
            self.assertEqual(client.call("read", "f"), Refused(0, 1))
            self.assertEqual(client.hello("alice", "pb"), Refused(0, 3))
            self.assertEqual(client.hello("alice", "pa"), Welcome(1, 0))
            self.assertEqual(client.new_object("f"), Done(1, 0))
            self.assertEqual(client.call("write", "f", 7), Denied(1, 1, 0, 0))
            self.assertEqual(client.set_goal("write", "f", "alice says ok"), Done(2, 0))
            self.assertEqual(client.say("alice", "ok"), Done(3, 3))
            self.assertEqual(client.set_proof("write", "f", "proof 2\n1 label : alice says ok\nend\n"), Done(4, 0))
            self.assertEqual(client.call("write", "f", 7), Allowed(4, 0, 0))
            self.assertEqual(client.call("write", "f", 8), Allowed(4, 1, 7))
            self.assertEqual(client.bind("alice.clock", 3), Done(5, 0))
            self.assertEqual(client.unbind("alice.clock"), Done(6, 0))
            self.assertEqual(client.clear_proof("write", "f"), Done(7, 0))
            self.assertEqual(client.call("write", "f", 7), Denied(7, 2, 0, 0))
            self.assertEqual(client.clear_goal("write", "f"), Done(8, 0))
            self.assertEqual(client.transfer(3, "bob"), Done(9, 0))
            self.assertEqual(client.delete(3), Refused(9, 7))
            self.assertEqual(client.say("alice", "no ("), Refused(9, 15))
            self.assertEqual(client.see(9), 9)
            self.assertEqual(client.see(10), Refused(9, 23))
        entries = [
            "object f", "goal write f : alice says ok", "say alice : ok", "proof write f : proof 2 ; 1 label : alice says ok ; end", "bind alice.clock 3",
            "unbind alice.clock", "noproof write f", "nogoal write f", "transfer 3 bob",
        ]  # fmt: skip
        self.assertEqual(self.text(), head + "".join(f"1 alice {entry}\n" for entry in entries) + "end\n")

    def test_see(self) -> None:
        """Two sessions: what one was told of the other can ask for, and nothing is written of that."""
        head = "nexus 2\nprincipal alice pa\nprincipal bob pb\n"
        address = self.start(head + "end\n", workers=2)
        with connect(address, timeout=20, patience=20) as alice, connect(address, timeout=20, patience=20) as bob:
            self.assertEqual(bob.see(0), Refused(0, 1))
            self.assertEqual(bob.hello("alice", "pb"), Refused(0, 3))
            self.assertEqual(bob.see(1), Refused(0, 1))
            opened = alice.hello("alice", "pa")
            assert isinstance(opened, Welcome)
            self.assertIsInstance(bob.hello("bob", "pb"), Welcome)
            self.assertEqual((bob.see(0), bob.see(1), bob.see(2**64 - 1), bob.at), (0, Refused(0, 23), Refused(0, 23), 0))
            for at in range(1, 101):
                self.assertEqual(alice.say("alice", "ok"), Done(at, at))
                self.assertEqual((alice.at, bob.at), (at, at - 1))
                self.assertEqual(bob.see(at + 1), Refused(at, 23))
                self.assertEqual((bob.see(alice.at), bob.see(0), bob.at), (at, at, at))
            self.assertEqual(bob.call("read", "f"), Refused(100, 8))
            requests: list[Request] = [See(100), Say("bob", "ok"), See(101), See(102)]
            self.assertEqual(list(bob.ask_all(requests)), [Seen(100), Done(101, 101), Seen(101), Refused(101, 23)])
            self.assertEqual((alice.at, alice.see(bob.at), alice.at), (100, 101, 101))
        text = self.text()
        self.assertTrue(text.startswith(head + f"{opened.session} alice say alice : ok\n" * 100))
        self.assertEqual(text.count("\n"), 3 + 101 + 1)

    def test_denials(self) -> None:
        """A line with a fault, a missing label, a port that isn't bound, and an authority that says No."""
        policy = "nexus 2\nprincipal alice pa\nauthority 0 clock\n1 alice object f\nend\n"
        with connect(self.start(policy), timeout=20, patience=20) as client:
            self.assertEqual(client.hello("alice", "pa"), Welcome(2, 1))
            for goal, rule, wanted in [
                ("alice says ok", "hyp", ("Line", 1, "StillOpen")),
                ("alice says ok", "label", ("LabelMissing", 1, None)),
                ("alice says TimeNow < 5", "ask", ("NotBound", 1, None)),
            ]:
                client.set_goal("read", "f", goal)
                client.set_proof("read", "f", f"proof 2;1 {rule}:{goal};end")
                denied = client.call("read", "f")
                assert isinstance(denied, Denied)
                self.assertEqual((denied.cause_name, denied.line, denied.fault_name), wanted)
            self.assertIsInstance(client.bind("alice", 0), Done)
            self.assertEqual(line_of(client.call("read", "f")), "denied 8 AuthorityNo 1")
        self.text()

    def audit(self, made: list[str]) -> tuple[int, str]:
        """The status and the line of an audit of these records over what the service wrote."""
        made_of = "nexus audit 1\n" + self.written + "".join(f"{record}\n" for record in made) + "end\n"
        ended = subprocess.run([str(program), "audit"], input=made_of.encode(), stdout=subprocess.PIPE, timeout=60)
        return ended.returncode, ended.stdout.decode()

    def test_audit(self) -> None:
        """Three sessions of a day, with an authority that says No, and one that says nothing. The service's replies are right. Of a
        record that is right at its point alone each changed field is found."""
        desk = socketserver.ThreadingTCPServer(("127.0.0.1", 0), Desk)
        desk.daemon_threads = True
        threading.Thread(target=desk.serve_forever, daemon=True).start()
        self.addCleanup(desk.server_close)
        self.addCleanup(desk.shutdown)
        secrets = {"alice": "pa", "bob": "pb", "carol": "pc"}
        head = "nexus 2\n" + "".join(f"principal {name} {secret}\n" for name, secret in secrets.items())
        address = self.start(f"{head}authority 3 127.0.0.1:{desk.server_address[1]}\nend\n", workers=3)
        clients = {name: connect(address, timeout=20, patience=20) for name in secrets}
        talks: dict[str, list[tuple[Request, Reply]]] = {}
        for name, client in clients.items():
            hello = Hello(name, secrets[name])
            talks[name] = [(hello, client.ask(hello))]
        for line in DAY.strip().splitlines():
            name, _, rest = line.partition(": ")
            asked, _, wanted = rest.rpartition("->")
            request = request_of_line(asked.rstrip())
            reply = clients[name].ask(request)
            self.assertEqual((asked, line_of(reply)), (asked, wanted.strip()))
            talks[name].append((request, reply))
        for client in clients.values():
            client.close()
        self.written = self.text()
        made = [record for talk in talks.values() for record in records(talk)]
        self.assertEqual(len(made), 9)
        self.assertEqual(self.audit(made), (0, "audited 9\n"))
        self.assertEqual(self.audit([*made, "6 bob read report y : allowed"]), (0, "audited 10\n"))
        for changed in [
            "5 bob read report y : allowed", "7 bob read report y : allowed", "6 alice read report y : allowed", "6 bob open report y : allowed",
            "6 bob read repost y : allowed", "6 bob read report n : allowed", "6 bob read report - : allowed", "6 bob read report yy : allowed",
            "6 bob read report y : denied AuthorityNo 1", "6 bob read report y : down 1", "6 bob read report y : refused NoSuchObject",
        ]:  # fmt: skip
            self.assertEqual((changed, *self.audit([*made, changed])), (changed, 1, "wrong record 10\n"))

    def test_pipelining(self) -> None:
        """Three thousand requests, with many outstanding, are answered in their order."""
        with connect(self.start("nexus 2\nprincipal alice pa\nend\n"), timeout=20, patience=20) as client:
            requests: list[Request] = [Hello("alice", "pa")]
            requests += [Say("alice", f"ok({k})") for k in range(3000)]
            wanted: list[Reply] = [Welcome(1, 0)]
            wanted += [Done(k + 1, k + 1) for k in range(3000)]
            self.assertEqual(list(client.ask_all(requests)), wanted)
            self.assertEqual(client.ask(Delete(3001)), Refused(3000, 6))
        self.assertEqual(self.text().count("\n"), 2 + 3000 + 1)

    def test_pipelining_of_large_requests(self) -> None:
        """Requests that together are larger than what the system keeps for a connection: none waits for the other side for ever."""
        policy = "nexus 2\nprincipal alice pa\n1 alice object f\nend\n"
        with connect(self.start(policy), timeout=20, patience=20) as client:
            self.assertEqual(client.hello("alice", "pa"), Welcome(2, 1))
            large = SetProof("read", "f", "x" * 32_000)
            self.assertEqual(list(client.ask_all([large] * 300)), [Refused(1, 16)] * 300)
        self.text()

    def test_what_is_no_frame(self) -> None:
        """A frame that is too long, one of an unknown kind, and ones with too few or too many fields are told, and the session is over."""
        address = self.start("nexus 2\nend\n", sessions=5)
        for data, wanted in [
            (bytes.fromhex("00008401"), Bad(0)), (frame(14), Bad(4)), (frame(1, "1ob", "pw"), Bad(5)), (frame(13), Bad(5)), (frame(13, 1, 2), Bad(13)),
        ]:  # fmt: skip
            with connect(address, timeout=20, patience=20) as client:
                client.send_bytes(data)
                self.assertEqual(client.receive(), wanted)
                with self.assertRaises(ClosedAtEdge):
                    client.receive()
        self.assertEqual(self.text(), "nexus 2\nend\n")

    def test_a_cut_frame(self) -> None:
        """Where the client ends within a frame there is no reply."""
        with connect(self.start("nexus 2\nend\n"), timeout=20, patience=20) as client:
            client.send_bytes(bytes(3))
            client.socket.shutdown(socket.SHUT_WR)
            with self.assertRaises(ClosedAtEdge):
                client.receive()
        self.text()

    def test_a_killed_service(self) -> None:
        """The end of a service that is killed is an end of the connection."""
        with connect(self.start("nexus 2\nprincipal alice pa\nend\n"), timeout=20, patience=20) as client:
            self.assertEqual(client.hello("alice", "pa"), Welcome(1, 0))
            self.process.kill()
            self.process.wait()
            with self.assertRaises(Ended):
                for _ in range(2):
                    client.call("read", "f")


def main() -> int:
    global program
    program = sys.argv[1] if len(sys.argv) > 1 else None
    told = io.StringIO()
    result = unittest.TextTestRunner(stream=told).run(unittest.defaultTestLoader.loadTestsFromModule(sys.modules[__name__]))
    if not result.wasSuccessful():
        print(told.getvalue(), end="")
        return 1
    print(f"{result.testsRun - len(result.skipped)} tests of the client pass")
    return 0


if __name__ == "__main__":
    sys.exit(main())
