#!/usr/bin/env python3
"""Admits peers over a local socket, and keeps them silent until it is killed.

idle.py PATH COUNT
"""

from __future__ import annotations

import resource
import socket
import struct
import sys
import time


def text(word: str) -> bytes:
    return struct.pack(">H", len(word)) + word.encode()


def main() -> None:
    path, count = sys.argv[1], int(sys.argv[2])
    resource.setrlimit(resource.RLIMIT_NOFILE, (4096, resource.getrlimit(resource.RLIMIT_NOFILE)[1]))
    peers = []
    for number in range(count):
        peer = socket.socket(socket.AF_UNIX)
        peer.connect(path)
        body = bytes([1]) + text(f"p{number % 60}") + text(f"s{number % 60}")
        peer.sendall(struct.pack(">I", len(body)) + body)
        length = struct.unpack(">I", peer.recv(4))[0]
        if peer.recv(length)[0] != 65:
            sys.exit("a hello was not welcomed")
        peers.append(peer)
    print("admitted", flush=True)
    time.sleep(3600)


main()
