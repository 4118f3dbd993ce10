#!/usr/bin/env python3
"""A client of `nexus serve` whose requests are lines, over the module clients/python/nexus_client.py.

    examples/serve/client.py ADDRESS < REQUEST-LINES

connects to ADDRESS, as 127.0.0.1:4000 or unix:PATH, sends each request line as a frame, and prints the line of its reply before the next
is sent. It ends with 1 where the service ends the connection before a reply is whole, or a line is no request line. docs/FORMATS.md states
the lines and frames.
"""
from __future__ import annotations

import socket
import sys
import time
from pathlib import Path
from types import TracebackType
from typing import TypeVar

sys.path.insert(0, str(Path(__file__).resolve().parents[2] / "clients" / "python"))

import nexus_client
from nexus_client import Ended, Reply, encode, frame, line_of, request_of_line

C = TypeVar("C", bound="Client")

__all__ = ["Client", "Ended", "frame", "frame_of_line", "line_of"]


def frame_of_line(line: str) -> bytes:
    """The frame of a request line."""
    return encode(request_of_line(line))


def connect_local(path: str, patience: float) -> nexus_client.Client:
    """A client that is connected to the local socket at a path. Where nobody listens there, it tries again for so many seconds."""
    end = time.monotonic() + patience
    while True:
        link = socket.socket(socket.AF_UNIX)
        link.settimeout(30)
        try:
            link.connect(path)
            return nexus_client.Client(link)
        except (FileNotFoundError, ConnectionRefusedError):
            link.close()
            if time.monotonic() >= end:
                raise
            time.sleep(0.01)


class Client:
    """A session of `nexus serve`. A fault of the system is raised as the system's own error, and any other end as `Ended`."""

    def __init__(self, address: str, patience: float = 0.0) -> None:
        """Connects; where nobody listens, it tries again for so many seconds."""
        if address.startswith("unix:"):
            self.client = connect_local(address[len("unix:") :], patience)
        else:
            self.client = nexus_client.connect(address, timeout=30, patience=patience)
        self.socket: socket.socket = self.client.socket

    def __enter__(self: C) -> C:
        return self

    def __exit__(self, kind: type[BaseException] | None, error: BaseException | None, trace: TracebackType | None) -> None:
        self.close()

    def close(self) -> None:
        self.client.close()

    def send(self, data: bytes) -> None:
        """Sends bytes, which need not be a frame."""
        try:
            self.client.send_bytes(data)
        except Ended as end:
            raise end.__cause__ or end

    def read(self) -> Reply:
        """The next reply."""
        try:
            return self.client.receive()
        except Ended as end:
            raise end.__cause__ or end

    def ask(self, line: str) -> str:
        """Sends a request line as a frame. The line of its reply."""
        self.send(frame_of_line(line))
        return line_of(self.read())


def main() -> int:
    with Client(sys.argv[1], patience=10) as client:
        for line in sys.stdin:
            try:
                print(client.ask(line.rstrip("\n")), flush=True)
            except (Ended, ConnectionError):
                print("the service has ended the connection", file=sys.stderr)
                return 1
            except ValueError as error:
                print(f"no request: {error}", file=sys.stderr)
                return 1
    return 0


if __name__ == "__main__":
    sys.exit(main())
