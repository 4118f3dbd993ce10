#!/usr/bin/env python3
"""Keeps the log of a `nexus serve .. log ADDRESS` in etcd, prints it and follows it, with Python's standard library alone (3.9 or later).

    clients/python/nexus_log.py keep   --etcd http://a:2379,http://b:2379 --listen 127.0.0.1:4100
    clients/python/nexus_log.py print  --etcd http://a:2379,http://b:2379
    clients/python/nexus_log.py follow --etcd http://a:2379,http://b:2379

`keep` listens for a service. A request is a line, `have N LINE` or `put N LINE`, N being the number of LINE in the log from 1, and its answer
is `kept N`:

- to `have` where the log's line N is LINE, or where N is the next one and LINE was created there;
- to `put` only where line N was created for this very request.

Everything else is answered `lost N WHY`, and the connection is closed: `taken` where line N is another one, `gap` where the line before it
is missing, `down` where etcd did not answer in time, `form` where the request has no right form. An answer can be lost on its way, and a
try that was given up can still be carried out by etcd; so a line that was not told to be kept may stand in the log all the same, as its last.

Each line is a key of its own, which a transaction creates that fails where the key is there already. So of two services that both believe
to be the only one, one is told so at its first line behind the other's, and nothing forks. With the line stands a mark that is drawn for
each request, by which the keeper knows what an earlier try of its own created.

`print` writes the lines that are there, as a policy text without its `end`, which `nexus recover` reads. `follow` writes them, and then
each further one as soon as etcd tells of it, for ever. Both say on standard error why they end, with status 1, where a line is missing.
"""
from __future__ import annotations

import argparse
import base64
import http.client
import json
import os
import re
import secrets
import signal
import socket
import socketserver
import sys
import time
from collections.abc import Iterator
from dataclasses import dataclass
from pathlib import Path
from typing import Any, BinaryIO, Optional, Union
from urllib.parse import SplitResult, urlsplit

__all__ = ["Gateway", "Keeper", "Line", "Log", "Lost", "Down"]

# A service gives a line up after 5 seconds, so etcd has less for it; and one of its nodes less than that, for others to be asked.
PATIENCE = 4.0
PATIENCE_WITH_ONE = 1.5
# So many lines are asked for at a time, and none is longer.
PAGE = 256
LONGEST_LINE = 65_536
# A reader that follows asks another node where one has told nothing for so long, and it waits a little before it does.
SILENCE = 10.0
PAUSE = 0.05

REQUEST = re.compile(rb"(have|put) ([1-9][0-9]{0,9}) ([^\n]*)\n")


class Down(Exception):
    """No node of etcd has answered in time."""


class Lost(Exception):
    """A line is not in the log, as far as is known. Its text is the reason, one word."""


@dataclass(frozen=True)
class Line:
    """A line of the log: its number from 1, the mark of the request that created it, and its bytes without a line end."""

    number: int
    mark: bytes
    text: bytes


# etcd's gateway


class Gateway:
    """The nodes of etcd, by the JSON form of their interface. The one that has answered last is asked first."""

    def __init__(self, endpoints: list[str]) -> None:
        self._endpoints = [urlsplit(it) for it in endpoints]
        if any(it.scheme not in ("http", "https") or not it.hostname for it in self._endpoints):
            raise ValueError("an endpoint of etcd is http://HOST:PORT or https://HOST:PORT")
        self._open: Optional[http.client.HTTPConnection] = None

    def ask(self, path: str, body: dict[str, Any]) -> dict[str, Any]:
        """What the first node answers that does. A node that fails or is late is put behind the others. What is asked may be carried out
        more than once."""
        until = time.monotonic() + PATIENCE
        while True:
            left = until - time.monotonic()
            if left <= 0:
                raise Down
            begun = time.monotonic()
            try:
                with self._sent(path, body, min(left, PATIENCE_WITH_ONE)) as response:
                    return json.loads(response.read())
            except (OSError, http.client.HTTPException, ValueError):
                self._turn()
                # A node that refuses at once is not asked again at once.
                time.sleep(max(0.0, min(0.05 - (time.monotonic() - begun), until - time.monotonic())))

    def watch(self, body: dict[str, Any]) -> Iterator[dict[str, Any]]:
        """What a node tells, as it comes, until it fails. Then another one is first."""
        try:
            with self._sent("/v3/watch", body, SILENCE) as response:
                while line := response.readline():
                    yield json.loads(line)
        except (OSError, http.client.HTTPException, ValueError):
            pass
        self._turn()

    def _sent(self, path: str, body: dict[str, Any], patience: float) -> http.client.HTTPResponse:
        if self._open is None:
            self._open = _connection(self._endpoints[0])
        if self._open.sock is None:
            self._open.timeout = min(patience, PATIENCE_WITH_ONE)
            self._open.connect()
            self._open.sock.setsockopt(socket.IPPROTO_TCP, socket.TCP_NODELAY, 1)
        self._open.sock.settimeout(patience)
        self._open.request("POST", path, json.dumps(body), {"Content-Type": "application/json"})
        response = self._open.getresponse()
        if response.status != 200:
            raise http.client.HTTPException(response.status)
        return response

    def _turn(self) -> None:
        if self._open is not None:
            self._open.close()
            self._open = None
        self._endpoints.append(self._endpoints.pop(0))


def _connection(endpoint: SplitResult) -> http.client.HTTPConnection:
    kind = http.client.HTTPSConnection if endpoint.scheme == "https" else http.client.HTTPConnection
    return kind(endpoint.hostname or "", endpoint.port or 2379)


def _coded(key: bytes) -> str:
    return base64.b64encode(key).decode("ascii")


# The log


class Log:
    """The lines of one log, each under the key NAME/N, N having ten digits."""

    def __init__(self, gateway: Gateway, name: str) -> None:
        self._gateway = gateway
        self._name = name.encode("ascii")
        # A line that is known to be there, or 0. None is ever taken away.
        self._known = 0

    def put(self, number: int, text: bytes) -> None:
        """Creates a line for this very request. Where it is lost the reason is `taken` or `gap`."""
        there, mark = self._create(number, text)
        if there.mark != mark:
            raise Lost("taken")

    def have(self, number: int, text: bytes) -> None:
        """Makes sure that this is the line of this number, and creates it where it is the next one. The reasons are those of `put`."""
        there, _ = self._create(number, text)
        if there.text != text:
            raise Lost("taken")

    def _create(self, number: int, text: bytes) -> tuple[Line, bytes]:
        """Creates a line where it is not there and the one before it is. Returns the line that is there then, and the mark of this call."""
        mark = secrets.token_hex(16).encode("ascii")
        key = self._key(number)
        conditions = [{"key": key, "target": "CREATE", "result": "EQUAL", "create_revision": "0"}]
        if number - 1 != self._known:
            conditions.append({"key": self._key(number - 1), "target": "CREATE", "result": "GREATER", "create_revision": "0"})
        answer = self._gateway.ask("/v3/kv/txn", {
            "compare": conditions,
            "success": [{"request_put": {"key": key, "value": _coded(mark + b" " + text)}}],
            "failure": [{"request_range": {"key": key}}],
        })  # fmt: skip
        there = Line(number, mark, text)
        if not answer.get("succeeded"):
            pairs = answer["responses"][0]["response_range"].get("kvs", [])
            if not pairs:
                raise Lost("gap")
            there = self._line(pairs[0])
        self._known = number
        return there, mark

    def page(self, first: int, revision: int = 0) -> tuple[list[Line], int]:
        """The lines from a number on, at most a page of them, and the revision of etcd at which they were read: the newest where it is 0."""
        answer = self._gateway.ask("/v3/kv/range", {
            "key": self._key(first),
            "range_end": self._end(),
            "limit": str(PAGE),
            "revision": str(revision),
        })  # fmt: skip
        return [self._line(it) for it in answer.get("kvs", [])], int(answer["header"]["revision"])

    def lines(self, first: int = 1) -> Iterator[Line]:
        """The lines from a number on that are there, in order."""
        while True:
            lines, _ = self.page(first)
            yield from _in_order(lines, first)
            if len(lines) < PAGE:
                return
            first += len(lines)

    def follow(self, first: int = 1) -> Iterator[Line]:
        """The lines from a number on, those that are there and then each as it comes."""
        while True:
            try:
                lines, revision = self.page(first)
            except Down:
                continue  # Whoever follows waits for etcd.
            yield from _in_order(lines, first)
            first += len(lines)
            if len(lines) < PAGE:
                for line in self._told(first, revision + 1):
                    yield line
                    first += 1
                time.sleep(PAUSE)

    def _told(self, first: int, revision: int) -> Iterator[Line]:
        """The lines from a number on that were created from a revision on, until the node that tells them fails."""
        wanted = {"create_request": {"key": self._key(first), "range_end": self._end(), "start_revision": str(revision)}}
        for told in self._gateway.watch(wanted):
            result = told.get("result", {})
            if result.get("canceled"):
                return
            lines = [self._line(it["kv"]) for it in result.get("events", []) if it.get("type", "PUT") == "PUT"]
            yield from _in_order(lines, first)
            first += len(lines)

    def _key(self, number: int) -> str:
        return _coded(self._name + b"/%010d" % number)

    def _end(self) -> str:
        return _coded(self._name + b"0")

    def _line(self, pair: dict[str, str]) -> Line:
        number = int(base64.b64decode(pair["key"])[-10:])
        mark, _, text = base64.b64decode(pair["value"]).partition(b" ")
        return Line(number, mark, text)


def _in_order(lines: list[Line], first: int) -> Iterator[Line]:
    """The lines, whose numbers are to be those from the first one on."""
    for number, line in enumerate(lines, first):
        if line.number != number:
            raise Lost(f"line {number} is missing, and {line.number} is there")
        yield line


# The keeper


class Handler(socketserver.StreamRequestHandler):
    """Answers the requests of one service, in their order, until one is lost."""

    server: Keeper
    disable_nagle_algorithm = True

    def handle(self) -> None:
        log, opening = self.server.log(), {}
        while request := self.rfile.readline(LONGEST_LINE + 32):
            number, reason = _answer(log, opening, request)
            self.wfile.write(f"lost {number} {reason}\n".encode() if reason else f"kept {number}\n".encode())
            if reason:
                return


def _answer(log: Log, opening: dict[int, Line], request: bytes) -> tuple[int, str]:
    """Carries a request out. Returns its number, 0 where it has none, and why the line is lost, or nothing. Lines that an opening may ask
    for next are kept in `opening`: a line that is there is never changed."""
    form = REQUEST.fullmatch(request)
    if form is None:
        return 0, "form"
    verb, number, text = form[1], int(form[2]), form[3]
    try:
        if verb == b"put":
            log.put(number, text)
            return number, ""
        if number not in opening:
            opening.clear()
            opening.update((it.number, it) for it in log.page(number)[0])
        if number not in opening:
            log.have(number, text)
        elif opening[number].text != text:
            raise Lost("taken")
    except Down:
        return number, "down"
    except Lost as lost:
        return number, str(lost)
    return number, ""


class Keeper(socketserver.ThreadingMixIn, socketserver.TCPServer):
    """Listens for services. Each connection has a thread and a gateway of its own."""

    daemon_threads = True
    allow_reuse_address = True

    def __init__(self, address: Union[str, tuple[str, int]], endpoints: list[str], name: str) -> None:
        self._endpoints = endpoints
        self._name = name
        if isinstance(address, str):
            self.address_family = socket.AF_UNIX
            Handler.disable_nagle_algorithm = False
        super().__init__(address, Handler)  # type: ignore[arg-type]

    def log(self) -> Log:
        return Log(Gateway(list(self._endpoints)), self._name)

    def handle_error(self, request: Any, address: Any) -> None:
        """Says nothing of a service that has gone away."""
        if not isinstance(sys.exc_info()[1], OSError):
            super().handle_error(request, address)


# The command


def place(address: str) -> Union[str, tuple[str, int]]:
    if address.startswith("unix:"):
        return address[5:]
    host, _, port = address.rpartition(":")
    if not host or not port.isdecimal():
        raise argparse.ArgumentTypeError(f"{address!r} is no host and port, and no unix:PATH")
    return host, int(port)


def log_name(name: str) -> str:
    if not re.fullmatch(r"[A-Za-z0-9_.-]{1,64}", name):
        raise argparse.ArgumentTypeError("a log's name has 1 to 64 letters, digits, dots and dashes")
    return name


def words() -> argparse.Namespace:
    parser = argparse.ArgumentParser(description="Keeps the log of a `nexus serve .. log ADDRESS` in etcd, prints it and follows it.")
    parser.add_argument("command", choices=["keep", "print", "follow"])
    parser.add_argument("--etcd", required=True, metavar="URLS", help="the nodes of etcd, http://HOST:PORT, with commas between them")
    parser.add_argument("--name", default="nexus", type=log_name, help="which log it is (nexus)")
    parser.add_argument("--listen", metavar="ADDRESS", type=place, help="where a service sends its lines; port 0 is any that is free")
    given = parser.parse_args()
    if (given.command == "keep") != (given.listen is not None):
        parser.error("keep listens somewhere, and the others don't")
    return given


def keep(address: Union[str, tuple[str, int]], endpoints: list[str], name: str) -> None:
    if isinstance(address, str) and Path(address).is_socket():
        os.unlink(address)
    with Keeper(address, endpoints, name) as keeper:
        at = address if isinstance(address, str) else f"{address[0]}:{keeper.server_address[1]}"
        print(f"listening at {at}", flush=True)
        keeper.serve_forever()


def write(lines: Iterator[Line], to: BinaryIO, at_once: bool) -> None:
    for line in lines:
        to.write(line.text + b"\n")
        if at_once:
            to.flush()
    to.flush()


def main() -> int:
    given = words()
    signal.signal(signal.SIGTERM, lambda *_: sys.exit(0))
    endpoints = given.etcd.split(",")
    try:
        log = Log(Gateway(list(endpoints)), given.name)
        if given.command == "keep":
            keep(given.listen, endpoints, given.name)
        else:
            write(log.follow() if given.command == "follow" else log.lines(), sys.stdout.buffer, given.command == "follow")
    except (KeyboardInterrupt, BrokenPipeError):
        return 0
    except Down:
        print("nexus_log: no node of etcd has answered in time", file=sys.stderr)
        return 1
    except (Lost, OSError, ValueError) as error:
        print(f"nexus_log: {error}", file=sys.stderr)
        return 1
    return 0


if __name__ == "__main__":
    sys.exit(main())
