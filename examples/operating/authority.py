#!/usr/bin/env python3
"""An authority for `nexus`: it says yes to the statements that stand in a file, and no to every other.

    examples/operating/authority.py ADDRESS FILE

listens at ADDRESS, as 127.0.0.1:4100. FILE has a statement in each line, written as the service asks it: in canonical text, as
`on_duty(bob)`. It is read anew for each question, so whoever changes the file changes the next answer. docs/FORMATS.md, "Authorities",
states the lines of questions and answers. It runs until it is ended by a signal.
"""
from __future__ import annotations

import socketserver
import sys
from pathlib import Path


class Questions(socketserver.StreamRequestHandler):
    """One connection of a service, which asks one question after another."""

    def handle(self) -> None:
        for line in self.rfile:
            statement = line.decode().rstrip("\n").removeprefix("ask ")
            holds = statement in Path(sys.argv[2]).read_text().splitlines()
            self.wfile.write(b"yes\n" if holds else b"no\n")


class Authority(socketserver.ThreadingTCPServer):
    """A thread for each connection: each worker of a service keeps one open."""

    allow_reuse_address = True
    daemon_threads = True


def main() -> None:
    host, _, port = sys.argv[1].rpartition(":")
    with Authority((host, int(port)), Questions) as authority:
        authority.serve_forever()


if __name__ == "__main__":
    main()
