#!/usr/bin/env python3
"""What run.sh prints.

times.py PROGRAM FOLDER COUNT RUNS
"""
from __future__ import annotations

import base64
import multiprocessing
import statistics
import subprocess
import sys
import time
from collections.abc import Callable, Iterator
from contextlib import contextmanager
from pathlib import Path
from typing import Any

TOP = Path(__file__).resolve().parents[2]
sys.path[:0] = [str(TOP / "examples" / "cluster"), str(TOP / "clients" / "python")]

from nexus_client import Done, Say, connect
from nexus_log import Gateway
from nodes import Nodes, find_etcd, free_ports

CONNECTIONS = [1, 8]


def times(acts: Callable[[], Callable[[int], None]], count: int, ready: Any, told: Any) -> None:
    """Tells when so many acts of one client began and were over, and how long each took."""
    act = acts()
    ready.wait()
    waits, begun = [], time.monotonic()
    for turn in range(count):
        sent = time.monotonic()
        act(turn)
        waits.append(time.monotonic() - sent)
    told.put((begun, time.monotonic(), waits))


def rate(clients: list[Callable[[], Callable[[int], None]]], count: int) -> tuple[float, float]:
    """The acts a second of clients at once, each in a process of its own, and how many microseconds 99 of 100 waited at most."""
    ready, told = multiprocessing.Barrier(len(clients)), multiprocessing.Queue()
    for acts in clients:
        multiprocessing.Process(target=times, args=(acts, count, ready, told)).start()
    results = [told.get() for _ in clients]
    waits = sorted(wait for _, _, waits in results for wait in waits)
    passed = max(over for _, over, _ in results) - min(begun for begun, _, _ in results)
    return len(waits) / passed, 1e6 * waits[len(waits) - 1 - len(waits) // 100]


def line(number: int, turn: int) -> str:
    return f"p{number} : built(image_{turn}, release_{number})"


def changes(address: str, number: int) -> Callable[[int], None]:
    """A connection of the service."""
    client = connect(address, timeout=30, patience=60)
    client.hello(f"p{number}", f"s{number}")

    def change(turn: int) -> None:
        term, _, formula = line(number, turn).partition(" : ")
        reply = client.ask(Say(term, formula))
        assert isinstance(reply, Done), reply

    return change


def puts(urls: list[str], number: int, run: str) -> Callable[[int], None]:
    """A client of etcd, which puts keys and values as long as those of the keeper."""
    gateway = Gateway(list(urls))

    def put(turn: int) -> None:
        key, value = f"{run}{number}/{turn:010}", f"{'0' * 32} 10 p{number} say {line(number, turn)}"
        gateway.ask("/v3/kv/put", {it: base64.b64encode(text.encode()).decode() for it, text in [("key", key), ("value", value)]})

    return put


@contextmanager
def service(program: str, policy: str, keeper: str) -> Iterator[str]:
    """The address of a service whose text goes to this keeper."""
    address = f"127.0.0.1:{free_ports(1)[0]}"
    process = subprocess.Popen([program, "serve", address, "9", "64", "log", keeper], stdin=subprocess.PIPE)
    assert process.stdin is not None
    try:
        process.stdin.write(policy.encode())
        process.stdin.close()
        yield address
    finally:
        process.kill()
        process.wait()


def main() -> None:
    program, folder, count, runs = sys.argv[1], sys.argv[2], int(sys.argv[3]), int(sys.argv[4])
    etcd = find_etcd()
    if etcd is None:
        sys.exit("there is no etcd, and it could not be installed")
    head = "nexus 2\n" + "".join(f"principal p{number} s{number}\n" for number in range(max(CONNECTIONS)))
    with Nodes(etcd, folder) as nodes:
        # Both ask the node first that leads.
        keeper, first = nodes.keeper(), nodes.leader()
        urls = [*nodes.urls[first:], *nodes.urls[:first]]
        size = file_size(nodes)
        with service(program, head + "end\n", keeper) as address:
            for connections in CONNECTIONS:
                told: list[tuple[tuple[float, float], tuple[float, float]]] = []
                for run in range(runs):
                    ours = rate([lambda it=it: changes(address, it) for it in range(connections)], count)
                    told.append((ours, rate([lambda it=it: puts(urls, it, f"{connections}x{run}x") for it in range(connections)], count)))
                (ours, waits), (theirs, others) = ([statistics.median(it) for it in zip(*side)] for side in zip(*told))
                print(f"changes, {connections} connections: {ours:.0f} a second, 99 of 100 within {waits:.0f} microseconds; "
                      f"puts of etcd, {connections} clients: {theirs:.0f}, {others:.0f}; ratio {ours / theirs:.2f}")  # fmt: skip
        log = nodes.printed()
        begun = time.monotonic()
        with service(program, log + "end\n", nodes.keeper()) as address:
            changes(address, 0)
            passed, lines = time.monotonic() - begun, log.count("\n")
        print(f"a service of a log of {lines} lines is there after {passed:.2f} seconds, {lines / passed:.0f} lines a second")
        # As many lines are puts of the measure.
        print(f"etcd's file, of {len(log) / lines:.0f} bytes a line: {(file_size(nodes) - size) / 2 / lines:.0f} bytes a line")


def file_size(nodes: Nodes) -> int:
    """How many bytes of a node's file are in use."""
    return int(Gateway(list(nodes.urls)).ask("/v3/maintenance/status", {})["dbSizeInUse"])


if __name__ == "__main__":
    multiprocessing.set_start_method("fork")
    main()
