#!/usr/bin/env python3
"""Has sessions over a local socket, one after another. In each a peer is admitted and asks for one call.

sessions.py PATH COUNT
"""

from __future__ import annotations

import socket
import struct
import sys

WELCOME, ALLOWED = 65, 67


def text(word: str) -> bytes:
    return struct.pack(">H", len(word)) + word.encode()


def ask(peer: socket.socket, body: bytes, due: int) -> None:
    """Sends a request, whose reply has to be of this kind."""
    peer.sendall(struct.pack(">I", len(body)) + body)
    length = struct.unpack(">I", peer.recv(4, socket.MSG_WAITALL))[0]
    kind = peer.recv(length, socket.MSG_WAITALL)[0]
    if kind != due:
        sys.exit(f"a reply of kind {kind}, where {due} was due")


def main() -> None:
    path, count = sys.argv[1], int(sys.argv[2])
    for _ in range(count):
        with socket.socket(socket.AF_UNIX) as peer:
            peer.connect(path)
            ask(peer, bytes([1]) + text("p0") + text("s0"), WELCOME)
            ask(peer, bytes([12]) + text("read") + text("o0") + bytes(8), ALLOWED)
            # The service is behind its session once it has closed the connection.
            peer.shutdown(socket.SHUT_WR)
            peer.recv(1)


main()
