#!/usr/bin/env python3
"""Tests of nexus_http.

    clients/python/test_nexus_http.py [PROGRAM]

Without PROGRAM, paths, tables, credentials and answers are tested, over peers that answer what no service should. With it, `PROGRAM
serve` is asked over loopback. What is wanted comes from what nexus_http says of itself. Prints `N tests of the HTTP gate pass` and ends
with 0, or what failed and ends with 1.
"""
from __future__ import annotations

import base64
import io
import re
import socket
import subprocess
import sys
import tempfile
import threading
import unittest
from collections.abc import Callable
from http.client import HTTPConnection, HTTPMessage
from pathlib import Path
from typing import Optional

sys.path.insert(0, str(Path(__file__).resolve().parent))

from nexus_client import Call, Refused, connect, frame
from nexus_http import (
    Basic, Busy, Caller, Gate, NotAdmitted, Proxied, Question, Server, Sessions, Table, asked_by_envoy, asked_by_nginx, canonical_path,
)  # fmt: skip

program: Optional[str] = None

BOB = Caller("bob", "bob-secret")
TABLE = """
# What the documents are called.
GET,HEAD /documents/{name}.html read {name}
PUT /documents/{name}.html write {name}
GET /annual-report.pdf read annual_report
POST /do/{op}/{name} {op} {name}
"""


def headers_of(*pairs: tuple[str, str]) -> HTTPMessage:
    headers = HTTPMessage()
    for name, value in pairs:
        headers[name] = value
    return headers


def basic(name: str, secret: str) -> tuple[str, str]:
    return "Authorization", "Basic " + base64.b64encode(f"{name}:{secret}".encode()).decode()


class Paths(unittest.TestCase):
    def test_canonical(self) -> None:
        for target, path in [
            ("/", "/"), ("/a", "/a"), ("/a/", "/a/"), ("/a/b.html?x=/../%2f", "/a/b.html"), ("/...", "/..."), ("/.a/a..", "/.a/a.."),
            ("/a%20b", "/a b"), ("/caf%C3%A9", "/café"), ("/a;b=1,2@c:d!$&'()*+~_-", "/a;b=1,2@c:d!$&'()*+~_-"), ("/a%22", '/a"'),
        ]:  # fmt: skip
            with self.subTest(target):
                self.assertEqual(canonical_path(target), path)

    def test_not_canonical(self) -> None:
        for target in [
            "", "a", "?", "*", "http://h/a", "//", "//a", "/a//b", "/.", "/..", "/a/..", "/a/../b", "/./a", "/a/.", "/%2e", "/%2E%2E/a", "/a%2fb", "/a%2Fb",
            "/a%5cb", "/a%5Cb", "/a\\b", "/%61", "/a%00", "/a%0a", "/a%7F", "/a%C2%80", "/a\x00", "/a b", "/a\tb", "/a%", "/a%2", "/a%zz", "/%252e", "/a%25b",
            "/caf%c3%a9", "/caf\xe9", "/caf%E9", "/%C0%AF", "/%c0%ae", "/%ED%A0%80", "/a#b", "/a%3f", "/a[b", "/a|b", "/a%2A", "/%uFF0E", "/a\r\nb",
        ]:  # fmt: skip
            with self.subTest(target):
                self.assertIsNone(canonical_path(target))


class Tables(unittest.TestCase):
    def test_calls(self) -> None:
        table = Table(TABLE)
        for method, target, call in [
            ("GET", "/documents/handbook.html", Call("read", "handbook")),
            ("HEAD", "/documents/handbook.html?page=2", Call("read", "handbook")),
            ("PUT", "/documents/handbook.html", Call("write", "handbook")),
            ("GET", "/annual-report.pdf", Call("read", "annual_report")),
            ("POST", "/do/publish/f", Call("publish", "f")),
            ("GET", f"/documents/{'x' * 64}.html", Call("read", "x" * 64)),
        ]:
            with self.subTest(target):
                self.assertEqual(table.call_for(method, target), call)

    def test_no_calls(self) -> None:
        table = Table(TABLE)
        for method, target in [
            ("POST", "/documents/handbook.html"), ("get", "/documents/handbook.html"), ("GET,HEAD", "/documents/handbook.html"), ("", "/documents/handbook.html"),
            ("GET", "/documents/handbook.htm"), ("GET", "/documents/handbookxhtml"), ("GET", "/documents/handbook.html/"), ("GET", "/documents/handbook.html.html"),
            ("GET", "/x/documents/handbook.html"), ("GET", "/documents/a/b.html"), ("GET", "/documents/.html"), ("GET", "/documents/1st.html"),
            ("GET", "/documents/says.html"), ("GET", f"/documents/{'x' * 65}.html"), ("GET", "/documents/a-b.html"), ("GET", "/documents/caf%C3%A9.html"),
            ("GET", "/documents/%68andbook.html"), ("GET", "/documents//handbook.html"), ("GET", "/documents/../documents/handbook.html"),
            ("GET", "/documents/handbook%2Ehtml"), ("GET", "/documents/handbook.html%0A"), ("GET", "/"), ("POST", "/do/not/f"),
        ]:  # fmt: skip
            with self.subTest(f"{method} {target}"):
                self.assertIsNone(table.call_for(method, target))
        self.assertIsNone(Table("").call_for("GET", "/"))

    def test_the_first_rule_that_fits_decides(self) -> None:
        table = Table("GET /{a} read {a}\nGET /says read other")
        self.assertIsNone(table.call_for("GET", "/says"))
        table = Table("GET /f read other\nGET /{a} read {a}")
        self.assertEqual(table.call_for("GET", "/f"), Call("read", "other"))

    def test_what_is_no_table(self) -> None:
        for line in [
            "GET /a read", "GET /a read a b", "get /a read a", "GET, /a read a", "GET a read a", "GET /a/../b read a", "GET //a read a", "GET /{A} read {A}",
            "GET /{a read a", "GET /a} read a", "GET /{a}/{b} read {a}_{b}", "GET /{a} read {b}", "GET /{a}/{a} read {a}", "GET /a read says", "GET /a 1 a",
            "GET /{a} read 1{a}", "GET /a%20b read a",
        ]:  # fmt: skip
            with self.subTest(line), self.assertRaises(ValueError):
                Table(f"GET /x read x\n{line}")


class Callers(unittest.TestCase):
    def test_basic(self) -> None:
        for value in [basic("bob", "bob-secret")[1], "bASIC Ym9iOmJvYi1zZWNyZXQ="]:
            with self.subTest(value):
                self.assertEqual(Basic()(headers_of(("Authorization", value))), BOB)
        self.assertEqual(Basic()(headers_of(basic("bob", "a:b"))), Caller("bob", "a:b"))

    def test_basic_that_says_nobody(self) -> None:
        good = basic("bob", "bob-secret")
        for pairs in [
            (), (good, good), (basic("bob", ""),), (basic("", "pw"),), (basic("1b", "pw"),), (basic("says", "pw"),), (basic("bob", "p w"),),
            (basic("bob", "p" * 65),), (basic("bob", "é"),), (("Authorization", ""),), (("Authorization", "Basic"),), (("Authorization", "Basic Ym9i"),),
            (("Authorization", "Bearer Ym9iOnB3"),), (("Authorization", "Basic  Ym9iOnB3"),), (("Authorization", "Basic Ym9iOnB3 "),),
            (("Authorization", "Basic Ym9iOnB3, Basic Ym9iOnB3"),), (("Authorization", "Basic Ym9i!OnB3"),), (("Authorization", "Basic Ym9iOnB"),),
        ]:  # fmt: skip
            with self.subTest(str(pairs)):
                self.assertIsNone(Basic()(headers_of(*pairs)))

    def test_proxied(self) -> None:
        token = "t" * 16
        identify = Proxied(token, {"bob": "bob-secret"})
        user = ("Nexus-User", "bob")
        self.assertEqual(identify(headers_of(user, ("Nexus-Token", token))), BOB)
        for pairs in [
            (), (user,), (("Nexus-Token", token),), (user, ("Nexus-Token", "")), (user, ("Nexus-Token", token[1:])), (user, ("Nexus-Token", token + "t")),
            (user, ("Nexus-Token", token), ("Nexus-Token", token)), (user, user, ("Nexus-Token", token)), (("Nexus-User", "eve"), ("Nexus-Token", token)),
            (basic("bob", "bob-secret"),), (user, ("Nexus-Token", "t" * 15 + "\xf4")),
        ]:  # fmt: skip
            with self.subTest(str(pairs)):
                self.assertIsNone(identify(headers_of(*pairs)))

    def test_what_is_no_proxy(self) -> None:
        rows: list[tuple[str, dict[str, str]]] = [("", {}), ("t" * 15, {}), ("é" * 16, {}), ("t" * 16, {"1b": "pw"}), ("t" * 16, {"bob": "p w"})]
        for token, secrets in rows:
            with self.subTest(token), self.assertRaises(ValueError):
                Proxied(token, secrets)

    def test_a_secret_is_in_no_log(self) -> None:
        self.assertNotIn("bob-secret", repr(BOB))

    def test_same_callers(self) -> None:
        self.assertTrue(BOB.is_same_as(Caller("bob", "bob-secret")))
        for other in [None, Caller("bob", "bob-secreT"), Caller("bob", "bob"), Caller("ann", "bob-secret")]:
            self.assertFalse(BOB.is_same_as(other))


WELCOME, ALLOWED, DENIED = frame(65, 1, 0), frame(67, 4, 0, 0), frame(68, 4, 4, 1, 0)


class Peer:
    """What listens in the place of a service. Each connection is served by the next of these functions, the last one again and again."""

    def __init__(self, *serve: Callable[[socket.socket], None]) -> None:
        self.serve = list(serve)
        self.connections = 0
        self.door = socket.create_server(("127.0.0.1", 0))
        self.address = f"127.0.0.1:{self.door.getsockname()[1]}"
        threading.Thread(target=self._accept, daemon=True).start()

    def __enter__(self) -> Peer:
        return self

    def __exit__(self, *_: object) -> None:
        self.door.shutdown(socket.SHUT_RDWR)
        self.door.close()

    def _accept(self) -> None:
        try:
            while True:
                link, _ = self.door.accept()
                serve = self.serve[min(self.connections, len(self.serve) - 1)]
                self.connections += 1
                threading.Thread(target=self._run, args=(serve, link), daemon=True).start()
        except OSError:
            pass

    @staticmethod
    def _run(serve: Callable[[socket.socket], None], link: socket.socket) -> None:
        with link:
            try:
                serve(link)
            except OSError:
                pass


def take(link: socket.socket) -> None:
    """Takes a frame. An `OSError` where none comes."""
    head = link.recv(4, socket.MSG_WAITALL)
    if len(head) < 4 or not link.recv(int.from_bytes(head, "big"), socket.MSG_WAITALL):
        raise OSError


def says(*pieces: bytes, then: str = "close") -> Callable[[socket.socket], None]:
    """Serves a connection: sends each piece when a frame was taken, and then closes, or waits for the peer to close."""

    def serve(link: socket.socket) -> None:
        for piece in pieces:
            take(link)
            link.sendall(piece)
        if then == "wait":
            while link.recv(4096):
                pass

    return serve


def question(target: str = "/documents/report.html", method: str = "GET", who: tuple[str, str] = basic("bob", "bob-secret")) -> Question:
    return Question(method, target, headers_of(who))


def gate_to(address: str, most: int = 2, timeout: float = 5) -> Gate:
    return Gate(Basic(), Table(TABLE), Sessions(address, most, timeout))


class Verdicts(unittest.TestCase):
    """A peer that answers anything. Nothing but `allowed` is a 200."""

    def status(self, *pieces: bytes, then: str = "close", timeout: float = 5) -> int:
        with Peer(says(*pieces, then=then)) as peer:
            return int(gate_to(peer.address, timeout=timeout).answer(question()).status)

    def test_each_reply(self) -> None:
        for reply, status in [
            (ALLOWED, 200), (DENIED, 403), (frame(68, 4, 1, 0, 0), 403), (frame(68, 4, 0, 0, 0), 403), (frame(68, 4, 99, 1, 99), 403), (frame(69, 4, 8), 403),
            (frame(69, 4, 1), 503), (frame(69, 4, 2), 503), (frame(69, 4, 3), 503), (frame(69, 4, 99), 503), (frame(70, 4, 1), 503), (frame(71), 503),
            (frame(72, 0), 503), (WELCOME, 503), (frame(66, 4, 0), 503), (frame(69, 4, 22), 503), (frame(69, 4, 23), 503), (frame(73, 4), 503),
        ]:  # fmt: skip
            with self.subTest(reply.hex()):
                self.assertEqual(self.status(WELCOME, reply), status)

    def test_no_welcome(self) -> None:
        for reply, status in [
            (frame(69, 0, 3), 401), (frame(69, 0, 1), 503), (frame(69, 0, 2), 503), (frame(69, 0, 23), 503), (ALLOWED, 503), (DENIED, 503), (frame(71), 503),
            (frame(72, 0), 503), (frame(73, 0), 503),
        ]:  # fmt: skip
            with self.subTest(reply.hex()):
                self.assertEqual(self.status(reply, ALLOWED), status)

    def test_what_is_no_reply(self) -> None:
        for cut in range(len(ALLOWED)):
            with self.subTest(cut):
                self.assertEqual(self.status(WELCOME, ALLOWED[:cut]), 503)
        for row in ["00000000", "00000019 42", "00000018 43", "0000001a 43", "ffffffff", "00000001 43"]:
            with self.subTest(row):
                self.assertEqual(self.status(WELCOME, bytes.fromhex(row) + bytes(32), then="wait"), 503)

    def test_silence(self) -> None:
        for pieces in [(), (WELCOME,), (WELCOME, ALLOWED[:5]), (WELCOME[:3],)]:
            with self.subTest(len(pieces)):
                self.assertEqual(self.status(*pieces, then="wait", timeout=0.1), 503)

    def test_nobody_listens(self) -> None:
        with Peer(says()) as peer:
            pass
        self.assertEqual(gate_to(peer.address).answer(question()).status, 503)

    def test_what_was_not_asked_for_is_no_answer(self) -> None:
        """An `allowed` that came with the reply before, or behind it: the session is given up, and another one answers."""
        again = says(WELCOME, DENIED, DENIED)
        for pieces in [(WELCOME, DENIED + ALLOWED), (WELCOME, DENIED + ALLOWED[:7])]:
            with Peer(says(*pieces, then="wait"), again) as peer:
                gate = gate_to(peer.address)
                self.assertEqual([gate.answer(question()).status for _ in range(2)], [403, 403])
                self.assertEqual(peer.connections, 2)

    def test_a_late_reply_is_no_answer(self) -> None:
        """The `allowed` of a call that was given up is not told to the next."""
        late = threading.Event()

        def serve(link: socket.socket) -> None:
            says(WELCOME)(link)
            take(link)
            late.wait(5)
            link.sendall(ALLOWED)

        with Peer(serve, says(WELCOME, DENIED)) as peer:
            gate = gate_to(peer.address, timeout=0.2)
            self.assertEqual(gate.answer(question()).status, 503)
            late.set()
            self.assertEqual(gate.answer(question()).status, 403)

    def test_any_exception(self) -> None:
        """Whatever is raised on the way is a 503."""
        for error in [ValueError(), KeyError(), MemoryError(), RecursionError(), OSError(), AttributeError()]:
            gate = gate_to("127.0.0.1:1")

            def fail(*_: object) -> None:
                raise error

            gate.sessions.call = fail  # type: ignore[assignment]
            told, sys.stderr = sys.stderr, io.StringIO()
            try:
                with self.subTest(type(error)):
                    self.assertEqual(gate.answer(question()).status, 503)
            finally:
                sys.stderr = told

    def test_what_a_denial_tells(self) -> None:
        with Peer(says(WELCOME, DENIED, frame(68, 6, 3, 1, 12), frame(68, 1, 1, 0, 0))) as peer:
            gate = gate_to(peer.address)
            told = [gate.answer(question()) for _ in range(3)]
        self.assertEqual([it.reason for it in told], ["denied 4 LabelMissing 1", "denied 6 Line 1 NotGoal", "denied 1 GoalUnset"])
        self.assertEqual(told[0].headers, (("Nexus-Cause", "LabelMissing"), ("Nexus-Line", "1")))
        self.assertEqual(told[1].headers, (("Nexus-Cause", "Line"), ("Nexus-Line", "1"), ("Nexus-Fault", "NotGoal")))
        self.assertEqual(told[2].headers, (("Nexus-Cause", "GoalUnset"),))

    def test_nobody_is_asked_for_nothing(self) -> None:
        """Who doesn't say who it is, or asks for what the table doesn't have, reaches no service."""
        with Peer(says()) as peer:
            gate = gate_to(peer.address)
            self.assertEqual(gate.answer(Question("GET", "/documents/report.html", headers_of())).status, 401)
            self.assertEqual(gate.answer(question("/documents/%2e%2e/report.html")).status, 403)
            self.assertEqual(peer.connections, 0)


class Keeping(unittest.TestCase):
    """Sessions are kept, are those of one caller each, and are bounded."""

    def test_one_session_for_many_calls(self) -> None:
        with Peer(says(WELCOME, *[ALLOWED, DENIED] * 50)) as peer:
            gate = gate_to(peer.address)
            self.assertEqual([gate.answer(question()).status for _ in range(100)], [200, 403] * 50)
            self.assertEqual(peer.connections, 1)

    def test_a_session_that_has_ended_is_opened_again(self) -> None:
        over = threading.Event()

        def serve(link: socket.socket) -> None:
            says(WELCOME, ALLOWED)(link)
            link.shutdown(socket.SHUT_RDWR)
            over.set()

        with Peer(serve, says(WELCOME, ALLOWED)) as peer:
            gate = gate_to(peer.address, most=1)
            self.assertEqual(gate.answer(question()).status, 200)
            over.wait(5)
            self.assertEqual(gate.answer(question()).status, 200)
            self.assertEqual(peer.connections, 2)

    def test_another_secret_is_another_caller(self) -> None:
        """A kept session of bob lets nobody in who has not bob's secret, and stays bob's."""
        with Peer(says(WELCOME, ALLOWED, ALLOWED, then="wait"), says(frame(69, 0, 3), frame(69, 0, 3), frame(69, 0, 3), then="wait")) as peer:
            gate = gate_to(peer.address)
            self.assertEqual(gate.answer(question()).status, 200)
            for secret in ["bob-secreT", "bob", "x"]:
                self.assertEqual(gate.answer(question(who=basic("bob", secret))).status, 401)
            self.assertEqual(gate.answer(question()).status, 200)
            self.assertEqual(peer.connections, 2)

    def test_the_bound(self) -> None:
        """A caller too many takes the place of the one that called longest ago; where all are at work it waits, and is told in time."""
        go = threading.Event()

        def slow(link: socket.socket) -> None:
            says(WELCOME)(link)
            take(link)
            go.wait(5)
            link.sendall(ALLOWED)

        with Peer(says(WELCOME, ALLOWED, then="wait"), slow, says(WELCOME, ALLOWED, then="wait")) as peer:
            sessions = Sessions(peer.address, 1, 5)
            sessions.call(BOB, Call("read", "f"))
            other = threading.Thread(target=sessions.call, args=(Caller("ann", "pa"), Call("read", "f")))
            other.start()
            while peer.connections < 2:
                pass
            sessions.timeout = 0.05
            with self.assertRaises(Busy):
                sessions.call(BOB, Call("read", "f"))
            self.assertEqual(peer.connections, 2)
            go.set()
            other.join()
            sessions.timeout = 5
            sessions.call(BOB, Call("read", "f"))
            self.assertEqual(peer.connections, 3)

    def test_a_session_out_of_step_is_given_up(self) -> None:
        """What answers a call as if it were another request would tell its replies one call late."""
        for reply in [frame(66, 4, 0), WELCOME, frame(69, 4, 1), frame(69, 4, 23), frame(72, 0), frame(73, 4)]:
            with self.subTest(reply.hex()), Peer(says(WELCOME, reply, ALLOWED), says(WELCOME, DENIED)) as peer:
                gate = gate_to(peer.address)
                self.assertEqual([gate.answer(question()).status for _ in range(2)], [503, 403])

    def test_a_failure_gives_its_place_back(self) -> None:
        with Peer(says(WELCOME)) as peer:
            gate = gate_to(peer.address, most=1, timeout=1)
            self.assertEqual([gate.answer(question()).status for _ in range(3)], [503] * 3)
            self.assertEqual(peer.connections, 3)
        self.assertEqual([gate.answer(question()).reason for _ in range(2)], ["no verdict: SystemFault"] * 2)


class Http(unittest.TestCase):
    """The questions as they come."""

    def ask(self, shape: str, *pieces: bytes, replies: tuple[bytes, ...] = (ALLOWED, ALLOWED)) -> list[int]:
        """Sends the bytes over one connection. The statuses of all that comes back until it ends."""
        with Peer(says(WELCOME, *replies)) as peer:
            server = Server(("127.0.0.1", 0), gate_to(peer.address), asked_by_nginx if shape == "nginx" else asked_by_envoy("/ask"))
            with server, socket.create_connection(("127.0.0.1", server.server_address[1]), timeout=5) as link:
                threading.Thread(target=server.serve_forever, kwargs={"poll_interval": 0.01}, daemon=True).start()
                try:
                    link.sendall(b"".join(pieces))
                    link.shutdown(socket.SHUT_WR)
                    told = b"".join(iter(lambda: link.recv(65536), b""))
                finally:
                    server.shutdown()
        return [int(status) for status in re.findall(rb"HTTP/1\.1 (\d+)", told)]

    WHO = f"Authorization: {basic('bob', 'bob-secret')[1]}\r\n".encode()
    NGINX = b"GET /check HTTP/1.1\r\nX-Original-Method: GET\r\nX-Original-URI: /documents/report.html\r\n" + WHO

    def test_nginx(self) -> None:
        self.assertEqual(self.ask("nginx", self.NGINX + b"\r\n", self.NGINX + b"\r\n", replies=(ALLOWED, DENIED)), [200, 403])

    def test_what_is_no_question_of_nginx(self) -> None:
        for more in [
            b"X-Original-Method: GET\r\n", b"X-Original-URI: /documents/report.html\r\n", b"Content-Length: 3\r\n\r\nabc", b"Transfer-Encoding: chunked\r\n",
            b"Content-Length: 0\r\nContent-Length: 5\r\n", b"no header\r\n", b"Content-Length: +0\r\n",
        ]:  # fmt: skip
            with self.subTest(more):
                self.assertEqual(self.ask("nginx", self.NGINX + more + b"\r\n", self.NGINX + b"\r\n"), [400])
        self.assertEqual(self.ask("nginx", b"GET /documents/report.html HTTP/1.1\r\n" + self.WHO + b"\r\n"), [400])
        self.assertEqual(self.ask("nginx", self.NGINX + self.WHO + b"\r\n"), [401])

    def test_envoy(self) -> None:
        for line, status in [
            (b"GET /ask/documents/report.html HTTP/1.1", 200), (b"GET /ask/documents/report.html?a=b HTTP/1.1", 200), (b"PUT /ask/documents/report.html HTTP/1.1", 200),
            (b"DELETE /ask/documents/report.html HTTP/1.1", 403), (b"GET /documents/report.html HTTP/1.1", 400), (b"GET //ask/documents/report.html HTTP/1.1", 400),
            (b"GET /ask//documents/report.html HTTP/1.1", 403), (b"GET /ask/documents/../documents/report.html HTTP/1.1", 403),
            (b"GET /ask/documents/%72eport.html HTTP/1.1", 403), (b"GET  /ask/documents/report.html HTTP/1.1", 400), (b"GET /askew HTTP/1.1", 403), (b"BREW /ask/documents/report.html HTTP/1.1", 501),
        ]:  # fmt: skip
            with self.subTest(line):
                self.assertEqual(self.ask("envoy", line + b"\r\nContent-Length: 0\r\n" + self.WHO + b"\r\n"), [status])
        spoofed = b"GET /ask/documents/other.html HTTP/1.1\r\nX-Original-URI: /documents/report.html\r\nX-Original-Method: GET\r\n" + self.WHO + b"\r\n"
        self.assertEqual(self.ask("envoy", spoofed, replies=(DENIED,)), [403])

    def test_half_a_question(self) -> None:
        for cut in [3, 20, len(self.NGINX) - 4, len(self.NGINX)]:
            with self.subTest(cut):
                self.assertNotIn(200, self.ask("nginx", self.NGINX[:cut]))


POLICY = """nexus 2
principal bob bob-secret
principal ann ann-secret
authority 0 clock
authority 1 127.0.0.1:PORT
1 bob object report
1 bob goal read report : bob says ok
1 bob proof read report : proof 2 ; 1 label : bob says ok ; end
1 bob say bob : ok
1 bob goal write report : bob says open
1 bob bind bob 1
1 bob proof write report : proof 2 ; 1 ask : bob says open ; end
end
"""


class Service(unittest.TestCase):
    """The program, over loopback."""

    def setUp(self) -> None:
        if program is None:
            self.skipTest("no program was named")

    def start(self, workers: int, address: Optional[str] = None) -> str:
        if address is None:
            with socket.socket() as free:
                free.bind(("127.0.0.1", 0))
                address = f"127.0.0.1:{free.getsockname()[1]}"
        with Peer(says()) as authority, tempfile.TemporaryFile() as given:
            given.write(POLICY.replace("127.0.0.1:PORT", authority.address).encode())
            given.seek(0)
            self.process = subprocess.Popen([str(program), "serve", address, str(workers), "100"], stdin=given, stdout=subprocess.DEVNULL)
            self.addCleanup(self.process.wait)
            self.addCleanup(self.process.kill)
            # Once it listens it has reached the authority, which is down from here on.
            connect(address, patience=20).close()
        return address

    def test_calls(self) -> None:
        gate = gate_to(self.start(workers=2))
        for method, target, who, status, reason in [
            ("GET", "/documents/report.html", basic("bob", "bob-secret"), 200, "allowed 7 0 0"),
            ("GET", "/documents/report.html", basic("bob", "bob-secret"), 200, "allowed 7 1 0"),
            ("GET", "/documents/report.html", basic("ann", "ann-secret"), 403, "denied 7 NoProof"),
            ("GET", "/documents/other.html", basic("ann", "ann-secret"), 403, "refused 7 NoSuchObject"),
            ("POST", "/do/open/report", basic("bob", "bob-secret"), 403, "denied 7 GoalUnset"),
            ("PUT", "/documents/report.html", basic("bob", "bob-secret"), 503, "down 7 1"),
            ("GET", "/documents/report.html", basic("bob", "ann-secret"), 401, "not admitted"),
            ("GET", "/documents/report.html", basic("eve", "bob-secret"), 401, "not admitted"),
            ("GET", "/documents/report.html", basic("bob", "bob-secret"), 200, "allowed 7 1 0"),
        ]:
            with self.subTest(f"{method} {target} {reason}"):
                answer = gate.answer(question(target, method, who))
                self.assertEqual((answer.status, answer.reason), (status, reason))

    def test_many_callers_at_once(self) -> None:
        """Sixteen threads of two callers over two sessions: each has the answer that is its caller's."""
        gate = gate_to(self.start(workers=2), timeout=20)
        wrong: list[object] = []

        def ask(name: str, status: int) -> None:
            for _ in range(25):
                answer = gate.answer(question(who=basic(name, f"{name}-secret")))
                if answer.status != status:
                    wrong.append((name, answer))

        threads = [threading.Thread(target=ask, args=it) for it in [("bob", 200), ("ann", 403)] * 8]
        for thread in threads:
            thread.start()
        for thread in threads:
            thread.join()
        self.assertEqual(wrong, [])

    def test_a_killed_service(self) -> None:
        """No call is allowed while the service is gone, and each is again once it is back."""
        address = self.start(workers=2)
        gate = gate_to(address)
        self.assertEqual(gate.answer(question()).status, 200)
        self.process.kill()
        self.process.wait()
        self.assertEqual([gate.answer(question()).status for _ in range(3)], [503] * 3)
        self.start(2, address)
        self.assertEqual(gate.answer(question()).status, 200)

    def test_a_proxy_that_says_who_calls(self) -> None:
        """The command, with a token and secrets. At its end no session of it is left open."""
        address = self.start(workers=1)
        with tempfile.TemporaryDirectory() as folder:
            for name, text in [("table", TABLE), ("token", "t" * 32 + "\n"), ("secrets", "bob bob-secret\nann wrong-secret\n")]:
                (Path(folder) / name).write_text(text)
            command = [sys.executable, "-B", str(Path(__file__).with_name("nexus_http.py")), "--nexus", address, "--listen", "127.0.0.1:0"]
            command += ["--table", "table", "--sessions", "1", "--token", "token"]
            self.assertEqual(subprocess.run(command, cwd=folder, stderr=subprocess.DEVNULL, timeout=20).returncode, 2)
            words = [*command, "--secrets", "secrets", "--shape", "envoy"]
            with subprocess.Popen(words, cwd=folder, stdout=subprocess.PIPE, text=True) as process:
                assert process.stdout is not None
                said = process.stdout.readline()
                try:
                    for user, token, status in [("bob", "t" * 32, 200), ("bob", "t" * 31, 401), ("ann", "t" * 32, 401), ("eve", "t" * 32, 401)]:
                        connection = HTTPConnection(said.split()[-1], timeout=20)
                        connection.request("GET", "/documents/report.html", headers={"Nexus-User": user, "Nexus-Token": token})
                        self.assertEqual(connection.getresponse().status, status)
                        connection.close()
                finally:
                    process.terminate()
            self.assertEqual(process.returncode, 0)
        with connect(address, timeout=5) as client:
            self.assertEqual(client.hello("bob", "wrong"), Refused(7, 3))

    def test_sessions_are_used_up_by_nobody(self) -> None:
        """Wrong secrets are tried on one session: it is the second of one worker, behind the first that was ours."""
        address = self.start(workers=1)
        sessions = Sessions(address, 1, 5)
        for turn in range(20):
            with self.assertRaises(NotAdmitted):
                sessions.call(Caller("bob", f"wrong-{turn}"), Call("read", "report"))
        sessions.call(BOB, Call("read", "report"))
        sessions.close()
        with connect(address, timeout=5) as client:
            reply = client.hello("bob", "bob-secret")
        # The entries are of session 1. Session 2 was that which saw it listen, 3 that of all the calls.
        self.assertEqual(reply.session, 4)  # type: ignore[union-attr]


def main() -> int:
    global program
    program = sys.argv[1] if len(sys.argv) > 1 else None
    told = io.StringIO()
    result = unittest.TextTestRunner(stream=told).run(unittest.defaultTestLoader.loadTestsFromModule(sys.modules[__name__]))
    if not result.wasSuccessful():
        print(told.getvalue(), end="")
        return 1
    print(f"{result.testsRun - len(result.skipped)} tests of the HTTP gate pass")
    return 0


if __name__ == "__main__":
    sys.exit(main())
