"""A client of `nexus serve`, over TCP, with Python's standard library alone (3.9 or later).

    from nexus_client import Allowed, connect

    with connect("127.0.0.1:4000", timeout=5) as client:
        client.hello("bob", "bob-secret")
        reply = client.call("read", "report")
        if isinstance(reply, Allowed):
            ...
        else:
            print(line_of(reply))

What is sent and read is stated in docs/FORMATS.md, "Frames", "Request lines" and "Reply lines", and what a request does in
docs/LOGIC.md, "Sessions". Each request is a frozen dataclass, and so is each reply. A request whose fields can't stand in a frame
is a `ValueError`, and nothing is sent of it.

A reply that denies or refuses is no error: it is returned as any other reply. What is raised is an end of the connection, which
has a class for each of its kinds:

    ClosedAtEdge   the service ended the connection, and no byte of the reply had come
    Torn           the service ended the connection within a reply
    BadReply       the bytes that came are no reply
    TimedOut       nothing came, or nothing was taken, for as long as `timeout` says
    SystemFault    the system could not connect, send or receive; the `OSError` is its `__cause__`

All of them are `Ended`. The connection is given up then, and each later call raises the same again. It isn't known of a request
without a reply whether it was carried out.

Most replies name a point `at`, a length of the journal for which they hold. `Client.at` is the greatest of them that has come. Who
learnt of a change elsewhere, by another session, another machine or word of mouth, calls `see` with the `at` of the other before it
goes on. Nothing waits in the service, so where the journal has not come there it asks again:

    at = other.at  # handed on with whatever tells of the change
    told = client.see(at)
    while isinstance(told, Refused) and told.name == "NotYet":
        time.sleep(0.01)
        told = client.see(at)

Once `see` has returned a number, every later reply of this session names a point of at least that.

The bytes pass in the clear, the secret too: connect over loopback, or through a tunnel.
"""
from __future__ import annotations

import re
import select
import socket
import struct
import time
from collections.abc import Iterable, Iterator
from dataclasses import astuple, dataclass
from types import TracebackType
from typing import ClassVar, Optional, Union

__all__ = [
    "Hello", "Say", "Transfer", "Delete", "NewObject", "SetGoal", "ClearGoal", "SetProof", "ClearProof", "Bind", "Unbind", "Call", "See",
    "Request", "Welcome", "Done", "Allowed", "Denied", "Refused", "Down", "NoMemory", "Bad", "Seen", "Reply",
    "Ended", "ClosedAtEdge", "Torn", "BadReply", "TimedOut", "SystemFault",
    "CAUSES", "FAULTS", "REFUSALS", "LONGEST_LINE", "LONGEST_PAYLOAD",
    "frame", "encode", "decode", "request_of_line", "line_of", "records", "connect", "Client",
]  # fmt: skip

# The names of causes, faults and refusals. The first has the number 1.
CAUSES: tuple[str, ...] = ("GoalUnset", "NoProof", "Line", "LabelMissing", "NotBound", "AuthorityNo")
FAULTS: tuple[str, ...] = (
    "NoSuchRef", "NotHyp", "WrongShape", "Capture", "NotFresh", "OutOfScope", "NotTrue", "TooManyAsks", "NotAsk", "NotClosed", "StillOpen",
    "NotGoal",
)  # fmt: skip
REFUSALS: tuple[str, ...] = (
    "NotOpen", "AlreadyOpen", "BadSecret", "NoSuchPrincipal", "NotYourPrincipal", "NoSuchLabel", "NotHolder", "NoSuchObject", "NameTaken",
    "NotOwner", "NoGoal", "NoSuchProof", "NoBinding", "BadPort", "BadFormula", "BadProof", "Quota", "ObjectsFull", "CasesFull", "NotRecorded",
    "ReadOnly", "JournalFull", "NotYet",
)  # fmt: skip

# A frame's payload and a request line have at most so many bytes.
LONGEST_PAYLOAD = 33_792
LONGEST_LINE = 33_700

# Before Python 3.10 what a socket raises is no TimeoutError.
_TIMEOUTS = (TimeoutError, socket.timeout)

_RESERVED = frozenset("says speaksfor on and or not forall exists true false".split())
_NAME = re.compile(r"[A-Za-z][A-Za-z0-9_]{0,63}", re.ASCII)
_SECRET = re.compile(r"[\x21-\x7e]{1,64}")
_NUMBER = re.compile(r"0|[1-9][0-9]{0,19}", re.ASCII)


# Requests


@dataclass(frozen=True)
class _Request:
    """What the requests have in common: the kind of their frame, the word of their line, and the forms of their fields, in order: `n` a
    name, `s` a secret, `#` a number, `w` a text that is one word in a line, and `t` a text that ends the line behind ` : `."""

    KIND: ClassVar[int]
    WORD: ClassVar[str]
    FORM: ClassVar[str]


@dataclass(frozen=True)
class Hello(_Request):
    """Opens the session for a principal. The reply is `Welcome`, or `Refused` with AlreadyOpen or BadSecret."""

    KIND: ClassVar[int] = 1
    WORD: ClassVar[str] = "hello"
    FORM: ClassVar[str] = "ns"
    name: str
    secret: str


@dataclass(frozen=True)
class Say(_Request):
    """Puts the label `principal says formula` into the caller's store. The number of `Done` is the label's."""

    KIND: ClassVar[int] = 2
    WORD: ClassVar[str] = "say"
    FORM: ClassVar[str] = "wt"
    principal: str
    formula: str


@dataclass(frozen=True)
class Transfer(_Request):
    """Gives a label of the caller to another principal."""

    KIND: ClassVar[int] = 3
    WORD: ClassVar[str] = "transfer"
    FORM: ClassVar[str] = "#n"
    label: int
    receiver: str


@dataclass(frozen=True)
class Delete(_Request):
    """Takes a label of the caller away."""

    KIND: ClassVar[int] = 4
    WORD: ClassVar[str] = "delete"
    FORM: ClassVar[str] = "#"
    label: int


@dataclass(frozen=True)
class NewObject(_Request):
    """Adds an object, which the caller owns. The number of `Done` is the object's."""

    KIND: ClassVar[int] = 5
    WORD: ClassVar[str] = "object"
    FORM: ClassVar[str] = "n"
    name: str


@dataclass(frozen=True)
class SetGoal(_Request):
    """Sets the goal of an operation on an object that the caller owns. `?subject` stands in it for whoever calls."""

    KIND: ClassVar[int] = 6
    WORD: ClassVar[str] = "goal"
    FORM: ClassVar[str] = "nnt"
    operation: str
    object: str
    formula: str


@dataclass(frozen=True)
class ClearGoal(_Request):
    """Takes the goal of an operation on an object away."""

    KIND: ClassVar[int] = 7
    WORD: ClassVar[str] = "nogoal"
    FORM: ClassVar[str] = "nn"
    operation: str
    object: str


@dataclass(frozen=True)
class SetProof(_Request):
    """Registers a proof for the caller, the operation and the object. The number of `Done` is the case's."""

    KIND: ClassVar[int] = 8
    WORD: ClassVar[str] = "proof"
    FORM: ClassVar[str] = "nnt"
    operation: str
    object: str
    proof: str


@dataclass(frozen=True)
class ClearProof(_Request):
    """Takes the caller's proof for the operation and the object away."""

    KIND: ClassVar[int] = 9
    WORD: ClassVar[str] = "noproof"
    FORM: ClassVar[str] = "nn"
    operation: str
    object: str


@dataclass(frozen=True)
class Bind(_Request):
    """Lets the authority of a port answer for the caller, or for a subprincipal of it."""

    KIND: ClassVar[int] = 10
    WORD: ClassVar[str] = "bind"
    FORM: ClassVar[str] = "w#"
    principal: str
    port: int


@dataclass(frozen=True)
class Unbind(_Request):
    """Takes the port of the caller, or of a subprincipal of it, away."""

    KIND: ClassVar[int] = 11
    WORD: ClassVar[str] = "unbind"
    FORM: ClassVar[str] = "w"
    principal: str


@dataclass(frozen=True)
class Call(_Request):
    """Asks whether the caller may do the operation on the object. The argument is what `write` writes and `add` adds. The reply is
    `Allowed`, `Denied`, `Down` or `Refused`."""

    KIND: ClassVar[int] = 12
    WORD: ClassVar[str] = "call"
    FORM: ClassVar[str] = "nn#"
    operation: str
    object: str
    argument: int = 0


@dataclass(frozen=True)
class See(_Request):
    """Asks whether the journal, as far as this session is concerned, has come to a length, which may be 0. The reply is `Seen`, or
    `Refused` with NotYet, or with NotOpen before a hello. Nothing waits."""

    KIND: ClassVar[int] = 13
    WORD: ClassVar[str] = "see"
    FORM: ClassVar[str] = "#"
    length: int


Request = Union[Hello, Say, Transfer, Delete, NewObject, SetGoal, ClearGoal, SetProof, ClearProof, Bind, Unbind, Call, See]

_REQUESTS: tuple[type[Request], ...] = (
    Hello, Say, Transfer, Delete, NewObject, SetGoal, ClearGoal, SetProof, ClearProof, Bind, Unbind, Call, See,
)  # fmt: skip
_BY_WORD: dict[str, type[Request]] = {kind.WORD: kind for kind in _REQUESTS}


# Replies


def _named(names: tuple[str, ...], number: int) -> str:
    """The name with this number, or the number where it names nothing."""
    return names[number - 1] if 1 <= number <= len(names) else str(number)


@dataclass(frozen=True)
class Welcome:
    """The session is open. It has this number; `at` is the number of entries of the journal."""

    session: int
    at: int


@dataclass(frozen=True)
class Done:
    """The change is accepted, and is the entry `at` of the journal. `number` is that of the label, object or case, or 0."""

    at: int
    number: int


@dataclass(frozen=True)
class Allowed:
    """The call is allowed after `at` entries. `hit` is 1 where a kept verdict answered; `value` is what the object's register held."""

    at: int
    hit: int
    value: int


@dataclass(frozen=True)
class Denied:
    """The call is denied after `at` entries. `line` is that of the proof and `fault` its fault; each is 0 where there is none."""

    at: int
    cause: int
    line: int
    fault: int

    @property
    def cause_name(self) -> str:
        """The name of the cause, or its number where it names nothing."""
        return _named(CAUSES, self.cause)

    @property
    def fault_name(self) -> Optional[str]:
        """The name of the fault, or its number where it names nothing. None where there is no fault."""
        return _named(FAULTS, self.fault) if self.fault else None


@dataclass(frozen=True)
class Refused:
    """The request is refused after `at` entries, and nothing changed. `number` is the refusal's."""

    at: int
    number: int

    @property
    def name(self) -> str:
        """The name of the refusal, or its number where it names nothing."""
        return _named(REFUSALS, self.number)


@dataclass(frozen=True)
class Down:
    """The authority that this line of the proof asks gave no answer, so there is no verdict."""

    at: int
    line: int


@dataclass(frozen=True)
class NoMemory:
    """The service had no memory for the request. Nothing changed."""


@dataclass(frozen=True)
class Bad:
    """What was sent is no request: `place` is the wrong byte, counted from the first of the connection. The service ends the session."""

    place: int


@dataclass(frozen=True)
class Seen:
    """The session has come to the length for which it asked: to `at` entries of the journal, and no later reply of it names fewer."""

    at: int


Reply = Union[Welcome, Done, Allowed, Denied, Refused, Down, NoMemory, Bad, Seen]

# The replies by their kinds, with how many numbers they have.
_REPLIES: dict[int, tuple[type[Reply], int]] = {
    65: (Welcome, 2),
    66: (Done, 2),
    67: (Allowed, 3),
    68: (Denied, 4),
    69: (Refused, 2),
    70: (Down, 2),
    71: (NoMemory, 0),
    72: (Bad, 1),
    73: (Seen, 1),
}
_LENGTHS = frozenset(1 + 8 * count for _, count in _REPLIES.values())


# How a connection ends


class Ended(Exception):
    """The connection is given up. Each kind of end has a class of its own below this one."""


class ClosedAtEdge(Ended):
    """The service ended the connection, and no byte of the reply had come."""


class Torn(Ended):
    """The service ended the connection within a reply."""


class BadReply(Ended):
    """The bytes that came are no reply."""


class TimedOut(Ended):
    """For as long as the timeout says nothing came, nothing was taken, or there was no connection."""


class SystemFault(Ended):
    """The system could not connect, send or receive. The `OSError` is the `__cause__`."""


# Frames and lines


def frame(kind: int, *fields: Union[str, int]) -> bytes:
    """The frame of this kind with these fields: a text for each str, in UTF-8, and a number for each int. Nothing is asked of the kind
    and the fields but that they can be written: a text has at most 65,535 bytes, and a number is at least 0 and below 2^64. Otherwise
    it is a `ValueError`."""
    payload = bytes([kind])
    for field in fields:
        if isinstance(field, int):
            if not 0 <= field < 1 << 64:
                raise ValueError(f"{field} is no number of 64 bits")
            payload += struct.pack(">Q", field)
        else:
            text = field.encode()
            if len(text) > 0xFFFF:
                raise ValueError(f"a text of {len(text)} bytes is too long")
            payload += struct.pack(">H", len(text)) + text
    return struct.pack(">I", len(payload)) + payload


def _check(form: str, field: Union[str, int]) -> None:
    """Raises a `ValueError` where a name is none, or a secret."""
    if form == "n" and not (isinstance(field, str) and _NAME.fullmatch(field) and field not in _RESERVED):
        raise ValueError(f"{field!r} is no name")
    if form == "s" and not (isinstance(field, str) and _SECRET.fullmatch(field)):
        raise ValueError("the secret is not 1 to 64 bytes from 0x21 to 0x7E")


def encode(request: Request) -> bytes:
    """The frame of a request. A `ValueError` where a name, a secret or a number is none, or where the payload would have more than
    33,792 bytes. What the texts spell is not looked at: that is for the service to say."""
    fields: tuple[Union[str, int], ...] = astuple(request)
    for form, field in zip(request.FORM, fields):
        _check(form, field)
    made = frame(request.KIND, *fields)
    if len(made) - 4 > LONGEST_PAYLOAD:
        raise ValueError(f"a frame of {len(made) - 4} bytes is too long")
    return made


def decode(payload: bytes) -> Reply:
    """The reply with this payload, which is the kind and the fields, without the length in front. `BadReply` where it is none."""
    kind, count = _REPLIES.get(payload[0], (NoMemory, -1)) if payload else (NoMemory, -1)
    if len(payload) != 1 + 8 * count:
        raise BadReply(f"{payload[:40].hex()} is no reply")
    return kind(*struct.unpack(f">{count}Q", payload[1:]))


def _number(word: str) -> int:
    """The number that a word spells: decimal, without a leading zero, below 2^64."""
    if not _NUMBER.fullmatch(word) or int(word) >= 1 << 64:
        raise ValueError(f"{word[:40]!r} is no number")
    return int(word)


def request_of_line(line: str) -> Request:
    """The request of a request line, without its line end, as docs/FORMATS.md, "Request lines", states it. A `ValueError` where it is
    none."""
    if len(line.encode()) > LONGEST_LINE:
        raise ValueError("the line is too long")
    word, _, rest = line.partition(" ")
    if word not in _BY_WORD:
        raise ValueError(f"{word[:40]!r} begins no request line")
    kind = _BY_WORD[word]
    front, sign, text = rest.partition(" : ") if kind.FORM.endswith("t") else (rest, " : ", "")
    words = front.split(" ")
    forms = kind.FORM.rstrip("t")
    if not sign or len(words) != len(forms) or "" in words or "\n" in line:
        raise ValueError(f"{line[:40]!r} has not the form of a line of {word}")
    fields: list[Union[str, int]] = [_number(field) if form == "#" else field for form, field in zip(forms, words)]
    for form, field in zip(forms, fields):
        _check(form, field)
    if kind.FORM.endswith("t"):
        fields.append(text)
    return kind(*fields)  # type: ignore[arg-type]  # a str and an int stand where the form has them


def line_of(reply: Reply) -> str:
    """The reply line of a reply, without a line end, as docs/FORMATS.md, "Reply lines", states it."""
    if isinstance(reply, Denied):
        words = [str(reply.at), reply.cause_name, *[str(reply.line)] * (reply.line > 0), *[reply.fault_name or ""] * (reply.fault > 0)]
    elif isinstance(reply, Refused):
        words = [str(reply.at), reply.name]
    else:
        words = [str(number) for number in astuple(reply)]
    return " ".join([type(reply).__name__.lower(), *words])


# Records


def _verdict_of(reply: Reply) -> Optional[str]:
    """What the reply to a call tells in a record. None where there is nothing to judge."""
    if isinstance(reply, Allowed):
        return "allowed"
    if isinstance(reply, (Denied, Down)) or (isinstance(reply, Refused) and reply.name == "NoSuchObject"):
        word, _, *rest = line_of(reply).split(" ")
        return " ".join([word, *rest])
    return None


def records(talk: Iterable[tuple[Request, Reply]]) -> list[str]:
    """The records of the calls of one connection, from its first request on, each without a line end, for `nexus audit`, as
    docs/FORMATS.md, "The input of `audit`", states them. No reply carries the answers of authorities, so they stand as not known. A
    call that was asked before a session was open, or for which there was no memory, makes none."""
    made: list[str] = []
    caller: Optional[str] = None
    for request, reply in talk:
        if isinstance(request, Hello) and isinstance(reply, Welcome):
            caller = request.name
        verdict = _verdict_of(reply)
        if isinstance(request, Call) and caller is not None and verdict is not None:
            assert isinstance(reply, (Allowed, Denied, Refused, Down))
            made.append(f"{reply.at} {caller} {request.operation} {request.object} ? : {verdict}")
    return made


# Connections


def _place(address: str) -> tuple[str, int]:
    """The host and the port of an address, as `127.0.0.1:4000` or `[::1]:4000`."""
    host, _, port = address.rpartition(":")
    if not host or not port.isdecimal():
        raise ValueError(f"{address!r} is not a host and a port")
    return host.removeprefix("[").removesuffix("]"), int(port)


def connect(address: str, timeout: Optional[float] = 30.0, patience: float = 0.0) -> Client:
    """A client that is connected to the address, a host and a port as `127.0.0.1:4000`.

    `timeout` is how many seconds each wait may take: that for the connection, for more bytes of a reply, and for the service to take
    bytes. None is no bound. Where nobody listens, it is tried again until `patience` seconds have passed.

    Raises `TimedOut` or `SystemFault`, and a `ValueError` where the address is none."""
    host, port = _place(address)
    end = time.monotonic() + patience
    while True:
        try:
            return Client(socket.create_connection((host, port), timeout=timeout))
        except ConnectionRefusedError as error:
            if time.monotonic() >= end:
                raise SystemFault(f"nobody listens at {address}") from error
            time.sleep(0.01)
        except _TIMEOUTS as error:
            raise TimedOut(f"no connection to {address} within {timeout} seconds") from error
        except OSError as error:
            raise SystemFault(f"no connection to {address}: {error}") from error


class Client:
    """A session over one connection. Close it, or use it in a `with`. It is for one thread."""

    def __init__(self, connection: socket.socket) -> None:
        """A session over a connection that stands. The client closes it. Its timeout bounds each wait."""
        self.socket = connection
        self._waiting = 0
        self._at = 0
        self._ahead = bytearray()
        self._ended: Optional[Ended] = None
        try:
            connection.setsockopt(socket.IPPROTO_TCP, socket.TCP_NODELAY, 1)
        except OSError:
            # Not TCP, as in a test over a pair of sockets.
            pass

    def __enter__(self) -> Client:
        return self

    def __exit__(self, kind: Optional[type[BaseException]], error: Optional[BaseException], trace: Optional[TracebackType]) -> None:
        self.close()

    def close(self) -> None:
        """Ends the session. The service takes what was sent before, and gives the connection up."""
        self.socket.close()

    @property
    def waiting(self) -> int:
        """How many requests were sent whose replies have not been received."""
        return self._waiting

    @property
    def at(self) -> int:
        """The greatest `at` of all replies that were received, refusals too, or 0 where none had one. It stays when the connection ends."""
        return self._at

    @property
    def is_quiet(self) -> bool:
        """Whether the connection stands and nothing waits to be received. Where every reply was received and it is not quiet, the service
        has ended the session, or what came is the reply to nothing; whoever keeps sessions takes another one then."""
        if self._ended is not None or self._ahead or self.socket.fileno() < 0:
            return False
        poll = select.poll()
        poll.register(self.socket, select.POLLIN)
        return not poll.poll(0)

    # One request after another

    def ask(self, request: Request) -> Reply:
        """Sends a request and waits for its reply. Replies to requests before it have to be received first: it is a `ValueError` where
        one is outstanding. Where the connection has ended, that end is raised again."""
        self._stop_if_ended()
        if self._waiting:
            raise ValueError(f"{self._waiting} replies are to be received first")
        self.send(request)
        return self.receive()

    def hello(self, name: str, secret: str) -> Reply:
        """`Hello`"""
        return self.ask(Hello(name, secret))

    def say(self, principal: str, formula: str) -> Reply:
        """`Say`"""
        return self.ask(Say(principal, formula))

    def transfer(self, label: int, receiver: str) -> Reply:
        """`Transfer`"""
        return self.ask(Transfer(label, receiver))

    def delete(self, label: int) -> Reply:
        """`Delete`"""
        return self.ask(Delete(label))

    def new_object(self, name: str) -> Reply:
        """`NewObject`"""
        return self.ask(NewObject(name))

    def set_goal(self, operation: str, thing: str, formula: str) -> Reply:
        """`SetGoal`"""
        return self.ask(SetGoal(operation, thing, formula))

    def clear_goal(self, operation: str, thing: str) -> Reply:
        """`ClearGoal`"""
        return self.ask(ClearGoal(operation, thing))

    def set_proof(self, operation: str, thing: str, proof: str) -> Reply:
        """`SetProof`"""
        return self.ask(SetProof(operation, thing, proof))

    def clear_proof(self, operation: str, thing: str) -> Reply:
        """`ClearProof`"""
        return self.ask(ClearProof(operation, thing))

    def bind(self, principal: str, port: int) -> Reply:
        """`Bind`"""
        return self.ask(Bind(principal, port))

    def unbind(self, principal: str) -> Reply:
        """`Unbind`"""
        return self.ask(Unbind(principal))

    def call(self, operation: str, thing: str, argument: int = 0) -> Reply:
        """`Call`"""
        return self.ask(Call(operation, thing, argument))

    def see(self, length: int) -> Union[int, Reply]:
        """`See`: where the reply is `Seen`, its number alone, which may be 0; any other reply is returned as it came."""
        reply = self.ask(See(length))
        return reply.at if isinstance(reply, Seen) else reply

    # Several requests at a time

    def ask_all(self, requests: Iterable[Request], window: int = 64) -> Iterator[Reply]:
        """Sends requests without waiting for each reply, and gives the replies in the order of the requests. At most `window` requests
        wait for their replies at a time: the service takes the next request only when the reply before was taken from it, so
        without a bound both sides could wait for each other.

        The service answers the requests one after another, as if each had been sent behind the reply to the one before. Whoever stops
        before the last reply receives the outstanding ones by `receive`."""
        if window < 1:
            raise ValueError("the window is at least 1")
        todo = iter(requests)
        request = next(todo, None)
        while request is not None or self._waiting:
            while request is not None and self._waiting < window:
                self.send(request)
                request = next(todo, None)
            yield self.receive()

    def send(self, request: Request) -> None:
        """Sends a request and does not wait for its reply, which is to be received later."""
        self.send_bytes(encode(request))
        self._waiting += 1

    def send_bytes(self, data: bytes) -> None:
        """Sends bytes, which need not be a frame. No reply to them is counted as outstanding."""
        self._stop_if_ended()
        try:
            self.socket.sendall(data)
        except _TIMEOUTS as error:
            raise self._end(TimedOut("the service takes nothing")) from error
        except OSError as error:
            raise self._end(SystemFault(f"nothing can be sent: {error}")) from error

    def receive(self) -> Reply:
        """The next reply."""
        self._stop_if_ended()
        self._fill(4)
        length = int.from_bytes(self._ahead[:4], "big")
        if length not in _LENGTHS:
            raise self._end(BadReply(f"a reply of {length} bytes"))
        self._fill(5)
        kind = self._ahead[4]
        if 1 + 8 * _REPLIES.get(kind, (NoMemory, -1))[1] != length:
            raise self._end(BadReply(f"a reply of the kind {kind} with {length} bytes"))
        self._fill(4 + length)
        reply = decode(bytes(self._ahead[4 : 4 + length]))
        del self._ahead[: 4 + length]
        self._waiting = max(0, self._waiting - 1)
        if not isinstance(reply, (NoMemory, Bad)):
            self._at = max(self._at, reply.at)
        return reply

    def _fill(self, count: int) -> None:
        """Takes bytes until so many of the next reply are there. What comes behind them is kept for the replies behind it."""
        while len(self._ahead) < count:
            try:
                piece = self.socket.recv(65536)
            except _TIMEOUTS as error:
                raise self._end(TimedOut("no reply came in time")) from error
            except OSError as error:
                raise self._end(SystemFault(f"nothing can be received: {error}")) from error
            if not piece and not self._ahead:
                raise self._end(ClosedAtEdge("the service ended the connection"))
            if not piece:
                raise self._end(Torn("the service ended the connection within a reply"))
            self._ahead += piece

    def _end(self, end: Ended) -> Ended:
        """Gives the connection up, and keeps why."""
        self._ended = end
        self.socket.close()
        return end

    def _stop_if_ended(self) -> None:
        """Raises the end of the connection again where it has ended."""
        if self._ended is not None:
            raise self._ended
