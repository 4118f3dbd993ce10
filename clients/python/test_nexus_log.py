#!/usr/bin/env python3
"""Tests of nexus_log.

    clients/python/test_nexus_log.py [ETCD]

Without ETCD a keeper is tried over nodes in this process that answer what etcd answers, or nothing, or too late. With it, a node of ETCD
(Debian's `etcd-server` has it) is started on loopback, and a keeper, a reader and a printer run beside it. What is wanted comes from what
nexus_log says of itself. Prints `N tests of the log's keeper pass` and ends with 0, or what failed and ends with 1.
"""
from __future__ import annotations

import base64
import io
import json
import socket
import subprocess
import sys
import tempfile
import threading
import time
import unittest
from collections.abc import Callable, Iterator
from contextlib import contextmanager
from http.server import BaseHTTPRequestHandler, ThreadingHTTPServer
from pathlib import Path
from typing import Any, Optional

sys.path.insert(0, str(Path(__file__).resolve().parent))

from nexus_log import Keeper

HERE = Path(__file__).resolve().parent
etcd: Optional[str] = None


class Node(ThreadingHTTPServer):
    """A node of etcd, in as far as a keeper asks it. `fault` is called with the number of each question, from 1, before and after it is
    carried out, and says whether the connection is to be cut there."""

    daemon_threads = True

    def __init__(self, keys: dict[str, str], fault: Callable[[int, str], bool] = lambda number, where: False) -> None:
        super().__init__(("127.0.0.1", 0), Questions)
        self.keys = keys
        self.fault = fault
        self.asked = 0
        threading.Thread(target=self.serve_forever, daemon=True).start()

    @property
    def url(self) -> str:
        return f"http://127.0.0.1:{self.server_port}"

    def carry_out(self, path: str, body: dict[str, Any]) -> dict[str, Any]:
        if path == "/v3/kv/range":
            return self.range(body["key"], body["range_end"])
        holds = all((it["key"] in self.keys) == (it["result"] == "GREATER") for it in body["compare"])
        if holds:
            put = body["success"][0]["request_put"]
            self.keys[put["key"]] = put["value"]
            return {"succeeded": True}
        return {"responses": [{"response_range": self.range(body["failure"][0]["request_range"]["key"], "")}]}

    def range(self, first: str, end: str) -> dict[str, Any]:
        low, high = base64.b64decode(first), base64.b64decode(end)
        keys = sorted((base64.b64decode(it), it) for it in self.keys)
        found = [it for key, it in keys if (low <= key < high if high else key == low)]
        return {"header": {"revision": "9"}, "kvs": [{"key": it, "value": self.keys[it]} for it in found]}


class Questions(BaseHTTPRequestHandler):
    server: Node
    protocol_version = "HTTP/1.1"

    def do_POST(self) -> None:
        self.server.asked += 1
        number = self.server.asked
        body = json.loads(self.rfile.read(int(self.headers["Content-Length"])))
        if self.server.fault(number, "before"):
            self.close_connection = True
            return
        text = json.dumps(self.server.carry_out(self.path, body)).encode()
        if self.server.fault(number, "after"):
            self.close_connection = True
            return
        self.send_response(200)
        self.send_header("Content-Length", str(len(text)))
        self.end_headers()
        self.wfile.write(text)

    def log_message(self, *_: object) -> None:
        """Nothing."""


@contextmanager
def keeper_of(urls: list[str], name: str = "nexus") -> Iterator[int]:
    with Keeper(("127.0.0.1", 0), urls, name) as keeper:
        threading.Thread(target=keeper.serve_forever, daemon=True).start()
        try:
            yield keeper.server_address[1]
        finally:
            keeper.shutdown()


class Service:
    """What a service sends to a keeper, over one connection."""

    def __init__(self, port: int) -> None:
        self._socket = socket.create_connection(("127.0.0.1", port), timeout=10)
        self._file = self._socket.makefile("rwb")

    def ask(self, *requests: str) -> str:
        """Sends all of the lines at once. Returns the answers, one behind the other, up to the end of the connection if it comes."""
        self._file.write("".join(f"{it}\n" for it in requests).encode())
        self._file.flush()
        answers = []
        for _ in requests:
            answer = self._file.readline().decode()
            answers.append(answer.strip() if answer else "end")
            if not answer:
                break
        return ", ".join(answers)

    def close(self) -> None:
        self._file.close()
        self._socket.close()


def asked(port: int, *requests: str) -> str:
    service = Service(port)
    try:
        return service.ask(*requests)
    finally:
        service.close()


class Keepers(unittest.TestCase):
    def play(self, rows: list[tuple[list[str], str]], port: int) -> None:
        for requests, wanted in rows:
            with self.subTest(requests=requests):
                self.assertEqual(asked(port, *requests), wanted)

    def test_rows(self) -> None:
        """Each row is a connection of its own, and the log is that which the rows before it left."""
        node = Node({})
        with keeper_of([node.url]) as port:
            self.play(ROWS, port)

    def test_two_services(self) -> None:
        node = Node({})
        with keeper_of([node.url]) as port:
            one, two = Service(port), Service(port)
            self.assertEqual(one.ask("have 1 nexus 2", "put 2 a"), "kept 1, kept 2")
            self.assertEqual(two.ask("have 1 nexus 2", "have 2 a", "put 3 b"), "kept 1, kept 2, kept 3")
            self.assertEqual(one.ask("put 3 b", "put 4 c"), "lost 3 taken, end")
            self.assertEqual(two.ask("put 4 c"), "kept 4")
            one.close()
            two.close()

    def test_a_try_without_an_answer_is_known_again(self) -> None:
        """The first node carries the put out, and is cut off before it says so. The other one has the line then."""
        keys: dict[str, str] = {}
        one, two = Node(keys, lambda number, where: where == "after"), Node(keys)
        with keeper_of([one.url, two.url]) as port:
            self.assertEqual(asked(port, "put 1 a", "put 2 b"), "kept 1, kept 2")
        self.assertEqual((one.asked, len(keys)), (1, 2))

    def test_a_node_that_fails_is_not_asked_first_any_more(self) -> None:
        keys: dict[str, str] = {}
        one, two = Node(keys, lambda number, where: where == "before"), Node(keys)
        with keeper_of([one.url, two.url]) as port:
            self.assertEqual(asked(port, "put 1 a", "put 2 b", "put 3 c"), "kept 1, kept 2, kept 3")
        self.assertEqual((one.asked, two.asked), (1, 3))

    def test_no_node(self) -> None:
        """Nothing is told to be kept, and the answer comes before a service gives the line up."""
        hanging = Node({}, lambda number, where: time.sleep(5) is None)
        with keeper_of([hanging.url]) as port:
            begun = time.monotonic()
            self.assertEqual(asked(port, "put 1 a"), "lost 1 down")
            self.assertLess(time.monotonic() - begun, 5)

    def test_a_unix_socket(self) -> None:
        node = Node({})
        with tempfile.TemporaryDirectory() as folder, Keeper(f"{folder}/log", [node.url], "nexus") as keeper:
            threading.Thread(target=keeper.serve_forever, daemon=True).start()
            with socket.socket(socket.AF_UNIX) as service:
                service.connect(f"{folder}/log")
                service.sendall(b"put 1 a\n")
                self.assertEqual(service.recv(100), b"kept 1\n")
            keeper.shutdown()


# What a service sends, and what it is told.
ROWS: list[tuple[list[str], str]] = [
    (["have 1 nexus 2", "have 2 principal a b", "put 3 1 a object f"], "kept 1, kept 2, kept 3"),
    (["have 1 nexus 2", "have 2 principal a b", "have 3 1 a object f", "put 4 x"], "kept 1, kept 2, kept 3, kept 4"),
    (["put 4 x"], "lost 4 taken"),
    (["put 4 y", "put 5 z"], "lost 4 taken, end"),
    (["have 4 y"], "lost 4 taken"),
    (["have 4 x", "have 5 z"], "kept 4, kept 5"),
    (["put 7 z"], "lost 7 gap"),
    (["have 7 z"], "lost 7 gap"),
    (["put 6 "], "kept 6"),
    (["have 6 "], "kept 6"),
    (["put 0 x"], "lost 0 form"),
    (["put 07 x"], "lost 0 form"),
    (["put x"], "lost 0 form"),
    (["keep 7 x"], "lost 0 form"),
    ([""], "lost 0 form"),
    (["put 7 " + "x" * 65_000], "kept 7"),
    (["put 8 " + "x" * 70_000], "lost 0 form"),
    (["have 8 " + "x" * 65_001], "kept 8"),
]


class Etcd(unittest.TestCase):
    """Over a node of etcd itself."""

    def setUp(self) -> None:
        if etcd is None:
            self.skipTest("no etcd was given")
        self.folder = tempfile.TemporaryDirectory()
        ports = [_free_port() for _ in range(2)]
        self.url, peer = (f"http://127.0.0.1:{it}" for it in ports)
        self.log = open(f"{self.folder.name}/log", "wb")
        urls = ["--listen-client-urls", self.url, "--advertise-client-urls", self.url, "--listen-peer-urls", peer]
        self.node = subprocess.Popen(
            [etcd, "--data-dir", f"{self.folder.name}/data", *urls], stdout=self.log, stderr=self.log
        )

    def tearDown(self) -> None:
        if etcd is not None:
            self.node.kill()
            self.node.wait()
            self.log.close()
            self.folder.cleanup()

    def test_rows(self) -> None:
        with keeper_of([self.url]) as port:
            self._wait_for(port)
            for requests, wanted in ROWS:
                with self.subTest(requests=requests):
                    self.assertEqual(asked(port, *requests), wanted)

    def test_it_is_printed_and_followed(self) -> None:
        with keeper_of([self.url]) as port:
            self._wait_for(port)
            lines = [f"line {it}" for it in range(1, 601)]
            self.assertEqual(asked(port, *(f"put {n} {it}" for n, it in enumerate(lines[:300], 1))).count("kept"), 300)
            reader = subprocess.Popen(self._words("follow"), stdout=subprocess.PIPE)
            assert reader.stdout is not None
            followed = [reader.stdout.readline().decode().strip() for _ in range(300)]
            for number, line in enumerate(lines[300:], 301):
                self.assertEqual(asked(port, f"put {number} {line}"), f"kept {number}")
                followed.append(reader.stdout.readline().decode().strip())
            reader.terminate()
            self.assertEqual(reader.wait(), 0)
            reader.stdout.close()
            self.assertEqual(followed, lines)
            printed = subprocess.run(self._words("print"), stdout=subprocess.PIPE, check=True).stdout
            self.assertEqual(printed.decode(), "".join(f"{it}\n" for it in lines))

    def _words(self, command: str) -> list[str]:
        return [sys.executable, str(HERE / "nexus_log.py"), command, "--etcd", self.url]

    def _wait_for(self, port: int) -> None:
        for _ in range(10):
            if asked(port, "have 2 no line stands before it") == "lost 2 gap":
                return
        self.fail("etcd does not answer")


def _free_port() -> int:
    with socket.socket() as it:
        it.bind(("127.0.0.1", 0))
        return it.getsockname()[1]


def main() -> int:
    global etcd
    etcd = sys.argv[1] if len(sys.argv) > 1 else None
    told = io.StringIO()
    result = unittest.TextTestRunner(stream=told).run(unittest.defaultTestLoader.loadTestsFromModule(sys.modules[__name__]))
    if not result.wasSuccessful():
        print(told.getvalue(), end="")
        return 1
    print(f"{result.testsRun - len(result.skipped)} tests of the log's keeper pass")
    return 0


if __name__ == "__main__":
    sys.exit(main())
