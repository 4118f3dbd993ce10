#!/usr/bin/env python3
"""Tells a web server whether a request may go on: by a call of `nexus serve`, with Python's standard library alone (3.9 or later).

    clients/python/nexus_http.py --nexus 127.0.0.1:4000 --listen 127.0.0.1:4180 --table FILE

answers the questions of nginx's `auth_request`, and with `--shape envoy` those of Envoy's HTTP `ext_authz`. Who calls, and what for,
comes from the request that the web server was sent:

- **Who** calls says `Authorization: Basic` with the name and the secret of a principal. With `--token FILE --secrets FILE` it says the
  header `Nexus-User`, which counts only together with the `Nexus-Token` of the file: for a proxy that has found out by itself who
  calls. The principals' secrets stand in the other file then, a line `NAME SECRET` for each.
- **What** for says the method and the path, by a table ("Tables", below).

Where they come from is the *shape* of the question. For nginx the headers `X-Original-Method` and `X-Original-URI` tell the method and
the path as they were sent, and the path of the question itself doesn't matter. Envoy asks with that method and path; the prefix that
it is told to put in front is `--prefix`.

    200   the reply to the call is `allowed`
    401   nobody says who calls, or the name and the secret are not those of a principal
    403   the call is denied, the service has no such object, or the table has no line for the request
    400   the question is in no right form, or has a body
    503   there is no verdict: an authority or the service is down, late, or answers what is no reply, or all sessions are in use

`Nexus-Reason` tells the reply's line, or why there is none. A denial also has `Nexus-Cause` and, where there are such, `Nexus-Line` and
`Nexus-Fault`. 200 comes of an `allowed` alone: whatever fails on the way is 503.

**Tables.** A line is `METHODS PATTERN OPERATION OBJECT`; empty lines and those that begin with `#` say nothing. The first line that
fits decides.

    GET,HEAD /documents/{name}.html read  {name}
    PUT      /documents/{name}.html write {name}
    GET      /annual-report.pdf     read  annual_report

A pattern is a path without percent signs. `{name}` in it stands for a name of `nexus`: a letter, and then letters, digits and `_`. The
operation and the object may have one of these each, so no two paths that differ in it are one object. A request's path has to be
canonical: it is decoded once, and what is encoded again has to be what was sent. No part of it is empty, `.` or `..`, and none has a
percent sign, a backslash or a control character, encoded or not. What stands behind a `?` is not looked at.

Sessions are kept open, one for each call that is under way, at most `--sessions` of them: as many workers of the service are taken. The
one that was used last longest ago makes room for another caller. A caller's name and secret are asked for at the hello alone, so each
session serves only who comes with the same two again.
"""
from __future__ import annotations

import argparse
import base64
import binascii
import hmac
import re
import signal
import sys
import threading
import time
import traceback
from collections.abc import Callable
from dataclasses import dataclass, field
from email.message import Message
from http import HTTPStatus
from http.server import BaseHTTPRequestHandler, ThreadingHTTPServer
from pathlib import Path
from typing import BinaryIO, Optional, Protocol
from urllib.parse import quote, unquote_to_bytes

sys.path.insert(0, str(Path(__file__).resolve().parent))

from nexus_client import Allowed, Call, Client, Denied, Down, Ended, Hello, NoMemory, Refused, Reply, Welcome, connect, encode, line_of

__all__ = ["Answer", "Basic", "Busy", "Caller", "Gate", "NotAdmitted", "Proxied", "Question", "Server", "Sessions", "Table", "canonical_path"]

# The bytes that stand for themselves in a path (RFC 3986, "pchar" and the slash).
PLAIN = "/!$&'()*+,;=:@-._~"
# How many connections of web servers are open at a time, and how many seconds one may say nothing. Web servers give up earlier.
MOST_CONNECTIONS = 256
SILENCE = 120


# Who calls


@dataclass(frozen=True)
class Caller:
    """The name and the secret that a caller comes with. Whether they are those of a principal says the service."""

    name: str
    secret: str = field(repr=False)

    def is_same_as(self, other: Optional[Caller]) -> bool:
        """Whether the other one has both, in a time that doesn't tell how much of the secret is right."""
        return other is not None and self.name == other.name and hmac.compare_digest(self.secret.encode(), other.secret.encode())


def caller_of(name: str, secret: str) -> Optional[Caller]:
    """The caller with this name and this secret, or None where the one is no name or the other no secret."""
    try:
        encode(Hello(name, secret))
    except ValueError:
        return None
    return Caller(name, secret)


def the_only(headers: Message, name: str) -> Optional[str]:
    """The value of a header that is there once, or None."""
    values: list[str] = headers.get_all(name, [])
    return values[0] if len(values) == 1 else None


class Identify(Protocol):
    def __call__(self, headers: Message) -> Optional[Caller]:
        """Who calls, by the headers of a question, or None where they don't say it."""


class Basic:
    """Who calls says the header `Authorization` with the scheme Basic (RFC 7617)."""

    def __call__(self, headers: Message) -> Optional[Caller]:
        scheme, _, credentials = (the_only(headers, "Authorization") or "").partition(" ")
        if scheme.lower() != "basic":
            return None
        try:
            name, sign, secret = base64.b64decode(credentials, validate=True).decode("ascii").partition(":")
        except (binascii.Error, ValueError):
            return None
        return caller_of(name, secret) if sign else None


class Proxied:
    """Who calls says a proxy in the header `Nexus-User`. It shows by the token in `Nexus-Token` that it may."""

    def __init__(self, token: str, secrets: dict[str, str]) -> None:
        """The token, of 16 bytes or more, and the secrets of the principals, by their names. A `ValueError` where one is none."""
        if len(token) < 16 or not token.isascii():
            raise ValueError("a token has at least 16 bytes, all of them ASCII")
        self.token = token.encode()
        self.callers: dict[str, Caller] = {}
        for name, secret in secrets.items():
            caller = caller_of(name, secret)
            if caller is None:
                raise ValueError(f"{name!r} is no name, or its secret is none")
            self.callers[name] = caller

    def __call__(self, headers: Message) -> Optional[Caller]:
        token = the_only(headers, "Nexus-Token") or ""
        if not hmac.compare_digest(token.encode("utf-8", "replace"), self.token):
            return None
        return self.callers.get(the_only(headers, "Nexus-User") or "")


# What for


def canonical_path(target: str) -> Optional[str]:
    """The path of a request's target, decoded, or None where it isn't canonical. A web server and what stands behind it may decode and
    clean a path in ways of their own; on one that is canonical all ways agree."""
    sent = target.partition("?")[0]
    try:
        path = unquote_to_bytes(sent).decode("utf-8")
    except UnicodeError:
        return None
    if not path.startswith("/") or quote(path, safe=PLAIN) != sent:
        return None
    *parts, last = path[1:].split("/")
    if "" in parts or not {".", ".."}.isdisjoint([*parts, last]):
        return None
    if re.search(r"[\\%\x00-\x1f\x7f-\x9f]", path):
        return None
    return path


_HOLE = re.compile(r"\{([a-z][a-z0-9_]*)\}", re.ASCII)


@dataclass(frozen=True)
class Rule:
    """A line of a table: what a request with one of these methods and a path of this pattern asks for."""

    methods: frozenset[str]
    path: re.Pattern[str]
    operation: str
    thing: str

    @staticmethod
    def of_line(line: str) -> Rule:
        """The rule of a line. A `ValueError` where it is none."""
        words = line.split()
        if len(words) != 4:
            raise ValueError("a line has methods, a pattern, an operation and an object")
        methods, pattern, operation, thing = words
        if not re.fullmatch(r"[A-Z]+(,[A-Z]+)*", methods, re.ASCII):
            raise ValueError(f"{methods!r} is no list of methods")
        pieces = _HOLE.split(pattern)
        holes = pieces[1::2]
        sample = _HOLE.sub("x", pattern)
        if "{" in sample or "}" in sample or canonical_path(quote(sample, safe=PLAIN)) != sample:
            raise ValueError(f"{pattern!r} is no pattern of a canonical path")
        for it in (operation, thing):
            used = _HOLE.findall(it)
            if len(used) > 1 or not set(used) <= set(holes):
                raise ValueError(f"{it!r} has a part that the pattern doesn't have, or two parts")
            encode(Call(_HOLE.sub("x", it), "x"))
        pieces[0::2] = [re.escape(piece) for piece in pieces[0::2]]
        # A name that stands twice in a pattern is an error of the regular expression.
        pieces[1::2] = [f"(?P<{hole}>[A-Za-z][A-Za-z0-9_]{{0,63}})" for hole in holes]
        try:
            return Rule(frozenset(methods.split(",")), re.compile("".join(pieces), re.ASCII), operation, thing)
        except re.error as error:
            raise ValueError(f"{pattern!r}: {error}") from error

    def call_for(self, method: str, path: str) -> Optional[Call]:
        """The call that a request asks for, or None where the rule doesn't fit. A `ValueError` where it fits, and a name is none."""
        found = self.path.fullmatch(path)
        if found is None or method not in self.methods:
            return None
        call = Call(self._fill(self.operation, found), self._fill(self.thing, found))
        encode(call)
        return call

    @staticmethod
    def _fill(text: str, found: re.Match[str]) -> str:
        return _HOLE.sub(lambda hole: found[hole[1]], text)


class Table:
    """The rules by which a request asks for an operation on an object."""

    def __init__(self, text: str) -> None:
        """The rules of a text, a line each. A `ValueError` where a line is none."""
        self.rules: list[Rule] = []
        for number, line in enumerate(text.splitlines(), 1):
            if line.strip() and not line.startswith("#"):
                try:
                    self.rules.append(Rule.of_line(line))
                except ValueError as error:
                    raise ValueError(f"line {number} of the table: {error}") from error

    def call_for(self, method: str, target: str) -> Optional[Call]:
        """The call of the first rule that fits, or None where none does, the path isn't canonical, or a name in it is none."""
        path = canonical_path(target)
        if path is None:
            return None
        try:
            return next((call for rule in self.rules if (call := rule.call_for(method, path)) is not None), None)
        except ValueError:
            return None


# Sessions


class Busy(Exception):
    """All sessions were in use for as long as the timeout says."""


class NotAdmitted(Exception):
    """The service has no principal with this name and this secret."""


@dataclass(eq=False)
class Session:
    """A connection to the service, and who was admitted on it, or None where nobody was yet."""

    client: Client
    caller: Optional[Caller] = None


def leaves_in_step(reply: Reply) -> bool:
    """Whether this is a reply to a call, after which the next call can be made. Any other belongs to no call of an admitted caller."""
    return isinstance(reply, (Allowed, Denied, Down, NoMemory)) or isinstance(reply, Refused) and reply.name == "NoSuchObject"


class Sessions:
    """Sessions of a service, which are kept open. At most so many are open at a time. It is for many threads."""

    def __init__(self, address: str, most: int, timeout: float) -> None:
        """`most` is how many may be open, at least 1, and `timeout` bounds each wait, for the service and for a session, in seconds."""
        self.address = address
        self.most = most
        self.timeout = timeout
        self._changed = threading.Condition()
        self._open = 0
        # Those that nobody uses; that which was used last is the last.
        self._idle: list[Session] = []

    def call(self, caller: Caller, call: Call) -> Reply:
        """The reply to a call of a caller. Raises `NotAdmitted`, `Busy`, and `Ended` where there is no connection or it has ended; then,
        and after a reply that is out of step, the session is given up."""
        session = self._take(caller)
        keeps = False
        try:
            if session.caller is None and not self._admit(session, caller):
                # Another one may try on the same connection, so wrong secrets use up no sessions of the service.
                keeps = True
                raise NotAdmitted
            reply = session.client.ask(call)
            keeps = leaves_in_step(reply)
            return reply
        finally:
            self._give_back(session, keeps)

    def close(self) -> None:
        """Ends the sessions that nobody uses."""
        with self._changed:
            while self._idle:
                self._drop(self._idle.pop())

    @staticmethod
    def _admit(session: Session, caller: Caller) -> bool:
        """Whether the service admits the caller. `Ended` where it answers anything but yes or no."""
        reply = session.client.hello(caller.name, caller.secret)
        if isinstance(reply, Welcome):
            session.caller = caller
        elif not (isinstance(reply, Refused) and reply.name == "BadSecret"):
            raise Ended(f"a hello is answered {line_of(reply)}")
        return session.caller is not None

    def _take(self, caller: Caller) -> Session:
        """A session of the caller, or one on which nobody was admitted, for the use of one thread."""
        end = time.monotonic() + self.timeout
        with self._changed:
            while True:
                session = self._idle_one(caller)
                if session is not None:
                    return session
                if self._open == self.most and self._idle:
                    self._drop(self._idle.pop(0))
                if self._open < self.most:
                    self._open += 1
                    break
                if not self._changed.wait(end - time.monotonic()):
                    raise Busy
        try:
            return Session(connect(self.address, timeout=self.timeout))
        except BaseException:
            with self._changed:
                self._open -= 1
                self._changed.notify()
            raise

    def _idle_one(self, caller: Caller) -> Optional[Session]:
        """Takes an idle session of the caller, or else one on which nobody was admitted. One that has ended, or has something to say that
        nobody asked for, is given up."""
        ours = [it for it in reversed(self._idle) if caller.is_same_as(it.caller)]
        for session in [*ours, *(it for it in self._idle if it.caller is None)]:
            self._idle.remove(session)
            if session.client.is_quiet:
                return session
            self._drop(session)
        return None

    def _give_back(self, session: Session, keeps: bool) -> None:
        with self._changed:
            if keeps:
                self._idle.append(session)
            else:
                self._drop(session)
            self._changed.notify()

    def _drop(self, session: Session) -> None:
        session.client.close()
        self._open -= 1


# Answers


@dataclass(frozen=True)
class Question:
    """What a web server asks: the method and the target that it was sent, and the headers of the question."""

    method: str
    target: str
    headers: Message


@dataclass(frozen=True)
class Answer:
    """What a web server is told: a status, why, and further headers."""

    status: HTTPStatus
    reason: str
    headers: tuple[tuple[str, str], ...] = ()


NOBODY = Answer(HTTPStatus.UNAUTHORIZED, "nobody says who calls", (("WWW-Authenticate", 'Basic realm="nexus", charset="UTF-8"'),))
WRONG = Answer(HTTPStatus.UNAUTHORIZED, "not admitted", NOBODY.headers)
NO_RULE = Answer(HTTPStatus.FORBIDDEN, "no line of the table is for this")
NO_FORM = Answer(HTTPStatus.BAD_REQUEST, "this is no question")
NO_VERDICT = Answer(HTTPStatus.SERVICE_UNAVAILABLE, "no verdict")
NO_SESSION = Answer(HTTPStatus.SERVICE_UNAVAILABLE, "all sessions are in use")


def answer_to(reply: Reply) -> Answer:
    """The answer to the reply of a call. This is the one place where a 200 is made."""
    if type(reply) is Allowed:
        return Answer(HTTPStatus.OK, line_of(reply))
    if isinstance(reply, Denied):
        headers = [("Nexus-Cause", reply.cause_name)]
        headers += [("Nexus-Line", str(reply.line))] * (reply.line > 0)
        headers += [("Nexus-Fault", reply.fault_name or "")] * (reply.fault > 0)
        return Answer(HTTPStatus.FORBIDDEN, line_of(reply), tuple(headers))
    if isinstance(reply, Refused) and reply.name == "NoSuchObject":
        return Answer(HTTPStatus.FORBIDDEN, line_of(reply))
    return Answer(HTTPStatus.SERVICE_UNAVAILABLE, line_of(reply))


class Gate:
    """Answers questions: by who calls, the table, and a session of the caller."""

    def __init__(self, identify: Identify, table: Table, sessions: Sessions) -> None:
        self.identify = identify
        self.table = table
        self.sessions = sessions

    def answer(self, question: Question) -> Answer:
        """The answer to a question. Nothing is raised; what fails is no verdict."""
        try:
            caller = self.identify(question.headers)
            if caller is None:
                return NOBODY
            call = self.table.call_for(question.method, question.target)
            if call is None:
                return NO_RULE
            return answer_to(self.sessions.call(caller, call))
        except NotAdmitted:
            return WRONG
        except Busy:
            return NO_SESSION
        except Ended as end:
            return Answer(NO_VERDICT.status, f"no verdict: {type(end).__name__}")
        except Exception:
            traceback.print_exc()
            return NO_VERDICT


# HTTP


# A shape finds the question in the method, the target and the headers of what a web server sends, or None where there is none.
Shape = Callable[[str, str, Message], Optional[Question]]


def asked_by_nginx(method: str, target: str, headers: Message) -> Optional[Question]:
    """The question of `auth_request`."""
    sent_method, sent_target = the_only(headers, "X-Original-Method"), the_only(headers, "X-Original-URI")
    return None if sent_method is None or sent_target is None else Question(sent_method, sent_target, headers)


def asked_by_envoy(prefix: str) -> Shape:
    """The question of `ext_authz` whose `path_prefix` is this."""

    def asked(method: str, target: str, headers: Message) -> Optional[Question]:
        return Question(method, target[len(prefix) :], headers) if target.startswith(prefix) else None

    return asked


class Lines:
    """What a web server sends, and the line that was read last: the base class takes the end of a connection for the end of a head."""

    def __init__(self, file: BinaryIO) -> None:
        self.file = file
        self.last = b""

    def readline(self, most: int = -1) -> bytes:
        self.last = self.file.readline(most)
        return self.last

    def close(self) -> None:
        self.file.close()


class Handler(BaseHTTPRequestHandler):
    """One connection of a web server, which asks one question after another."""

    protocol_version = "HTTP/1.1"
    timeout = SILENCE
    server: Server

    def setup(self) -> None:
        super().setup()
        self.rfile: Lines = Lines(self.rfile)  # type: ignore[assignment]

    def answer(self) -> None:
        question = self._question() if self.rfile.last in (b"\r\n", b"\n") else None
        if question is None:
            # What stands behind it may be its body, and is no question.
            self.close_connection = True
        self._tell(NO_FORM if question is None else self.server.gate.answer(question))

    do_GET = do_HEAD = do_POST = do_PUT = do_PATCH = do_DELETE = do_OPTIONS = answer

    def _question(self) -> Optional[Question]:
        """The question, or None where what came is none."""
        if self.headers.defects or "Transfer-Encoding" in self.headers or self.headers.get_all("Content-Length", ["0"]) != ["0"]:
            return None
        # `path` of the base class is not the target as it was sent.
        words = self.requestline.split(" ")
        return self.server.shape(words[0], words[1], self.headers) if len(words) == 3 else None

    def _tell(self, answer: Answer) -> None:
        # nginx reads no body of an answer, and so can't keep a connection behind one.
        text = b"" if answer.status is HTTPStatus.OK else f"{answer.reason}\n".encode("ascii", "replace")
        self.send_response(answer.status)
        for name, value in [("Nexus-Reason", answer.reason), *answer.headers, ("Content-Type", "text/plain"), ("Cache-Control", "no-store")]:
            self.send_header(name, value)
        self.send_header("Content-Length", str(len(text)))
        if self.close_connection:
            self.send_header("Connection", "close")
        self.end_headers()
        if self.command != "HEAD":
            self.wfile.write(text)

    def version_string(self) -> str:
        return "nexus_http"

    def log_message(self, *_: object) -> None:
        """Nothing: the web server's log has the status, and can have the reason."""


class Server(ThreadingHTTPServer):
    """Listens for the questions of web servers. A connection too many is closed without an answer, which lets nothing through."""

    daemon_threads = True

    def __init__(self, address: tuple[str, int], gate: Gate, shape: Shape) -> None:
        self.gate = gate
        self.shape = shape
        self._room = threading.BoundedSemaphore(MOST_CONNECTIONS)
        super().__init__(address, Handler)

    def process_request(self, request, address) -> None:  # type: ignore[no-untyped-def]
        if self._room.acquire(blocking=False):
            super().process_request(request, address)
        else:
            self.shutdown_request(request)

    def process_request_thread(self, request, address) -> None:  # type: ignore[no-untyped-def]
        try:
            super().process_request_thread(request, address)
        finally:
            self._room.release()

    def handle_error(self, request, address) -> None:  # type: ignore[no-untyped-def]
        """Says nothing of a web server that has gone away."""
        if not isinstance(sys.exc_info()[1], OSError):
            super().handle_error(request, address)


def place(address: str) -> tuple[str, int]:
    host, _, port = address.rpartition(":")
    if not host or not port.isdecimal():
        raise argparse.ArgumentTypeError(f"{address!r} is not a host and a port")
    return host, int(port)


def words() -> argparse.Namespace:
    parser = argparse.ArgumentParser(description="Tells a web server by calls of `nexus serve` whether a request may go on.")
    parser.add_argument("--nexus", required=True, metavar="ADDRESS", help="where the service listens")
    parser.add_argument("--listen", required=True, metavar="ADDRESS", type=place, help="where the web server asks; port 0 is any that is free")
    parser.add_argument("--table", required=True, metavar="FILE", type=Path, help="lines METHODS PATTERN OPERATION OBJECT")
    parser.add_argument("--sessions", default=8, metavar="N", type=int, help="how many workers of the service may be taken (8)")
    parser.add_argument("--timeout", default=20.0, metavar="SECONDS", type=float, help="how long a reply or a session is waited for (20)")
    parser.add_argument("--shape", default="nginx", choices=["nginx", "envoy"], help="who asks (nginx)")
    parser.add_argument("--prefix", default="", metavar="PATH", help="what Envoy puts in front of each path")
    parser.add_argument("--token", metavar="FILE", type=Path, help="the token of a proxy that says who calls")
    parser.add_argument("--secrets", metavar="FILE", type=Path, help="lines NAME SECRET, for callers that the proxy names")
    given = parser.parse_args()
    if (given.token is None) != (given.secrets is None):
        parser.error("--token and --secrets go together")
    if given.sessions < 1 or given.timeout <= 0:
        parser.error("there is at least one session, and some time")
    return given


def main() -> int:
    given = words()
    try:
        identify: Identify = Basic()
        if given.token is not None:
            secrets = dict(line.split(maxsplit=1) for line in given.secrets.read_text().splitlines() if line)
            identify = Proxied(given.token.read_text().strip(), secrets)
        sessions = Sessions(given.nexus, given.sessions, given.timeout)
        shape = asked_by_nginx if given.shape == "nginx" else asked_by_envoy(given.prefix)
        server = Server(given.listen, Gate(identify, Table(given.table.read_text()), sessions), shape)
    except (OSError, ValueError) as error:
        print(f"nexus_http: {error}", file=sys.stderr)
        return 2
    signal.signal(signal.SIGTERM, lambda *_: sys.exit(0))
    with server:
        print(f"listening at {given.listen[0]}:{server.server_port}", flush=True)
        try:
            server.serve_forever()
        except KeyboardInterrupt:
            pass
        finally:
            sessions.close()
    return 0


if __name__ == "__main__":
    sys.exit(main())
