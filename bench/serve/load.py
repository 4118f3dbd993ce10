#!/usr/bin/env python3
"""The load of load.c by the client in Python, each connection in a process of its own.

    load.py PORT CONNECTIONS COUNT DEPTH

Connection K is principal pK with the secret sK, and makes COUNT calls of `read oK`, DEPTH of them at a time. Each has to be allowed.
Prints the calls a second of all connections, and how many microseconds 99 of 100 waited at most.
"""
import multiprocessing
import sys
import time
from pathlib import Path

sys.path.insert(0, str(Path(__file__).resolve().parents[2] / "clients/python"))

from nexus_client import Allowed, Call, connect


def calls(port, number, count, depth, admitted):
    """Returns when the calls of one connection began and were over, and how long each waited."""
    burst, waits = [Call("read", f"o{number}")] * depth, []
    with connect(f"127.0.0.1:{port}", patience=20) as client:
        client.hello(f"p{number}", f"s{number}")
        admitted.wait()
        begun = time.monotonic()
        for _ in range(0, count, depth):
            sent = time.monotonic()
            for reply in client.ask_all(burst, window=depth):
                assert isinstance(reply, Allowed), reply
                waits.append(time.monotonic() - sent)
        return begun, time.monotonic(), waits


def work(told, *words):
    told.put(calls(*words))


def main():
    port, connections, count, depth = map(int, sys.argv[1:])
    told, admitted = multiprocessing.Queue(), multiprocessing.Barrier(connections)
    for number in range(connections):
        multiprocessing.Process(target=work, args=(told, port, number, count, depth, admitted)).start()
    results = [told.get() for _ in range(connections)]
    waits = sorted(wait for _, _, waits in results for wait in waits)
    passed = max(over for _, over, _ in results) - min(begun for begun, _, _ in results)
    print(f"{len(waits) / passed:.0f} {1e6 * waits[len(waits) - 1 - len(waits) // 100]:.0f}")


if __name__ == "__main__":
    main()
