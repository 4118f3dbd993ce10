"""Three nodes of etcd on loopback, and keepers of a log over them (clients/python/nexus_log.py), for plays and for measures."""
from __future__ import annotations

import random
import shutil
import socket
import subprocess
import sys
import time
from contextlib import ExitStack
from pathlib import Path
from typing import Optional, TypeVar

TOP = Path(__file__).resolve().parents[2]
sys.path.insert(0, str(TOP / "clients" / "python"))

from nexus_log import Down, Gateway

N = TypeVar("N", bound="Nodes")
LOG = [sys.executable, "-B", str(TOP / "clients" / "python" / "nexus_log.py")]
# How long etcd may take until its nodes have come together, on a busy machine.
PATIENCE = 60.0


def find_etcd() -> Optional[str]:
    """Where etcd is. Where it is missing and can be installed it is, and the system is told to start no node of its own."""
    if shutil.which("etcd") is None and not Path("/usr/bin/etcd").exists():
        subprocess.run(["bash", "-c", 'top=$1 && . "$top/tools/play.sh" && need etcd etcd-server', "-", str(TOP)], timeout=900)
        if Path("/usr/bin/etcd").exists() and Path("/run/systemd/system").exists():
            subprocess.run(["systemctl", "disable", "etcd"], stderr=subprocess.DEVNULL)
    return shutil.which("etcd") or shutil.which("/usr/bin/etcd")


def free_ports(count: int) -> list[int]:
    """Ports on which nobody listens, below those that the system gives to connections: so nobody is given one before it is used."""
    with ExitStack() as doors:
        ports: list[int] = []
        while len(ports) < count:
            door = doors.enter_context(socket.socket())
            try:
                door.bind(("127.0.0.1", random.randrange(10000, 32768)))
                ports.append(door.getsockname()[1])
            except OSError:
                pass
        return ports


class Nodes:
    """Three nodes that keep a log, and the keepers beside services. All are killed at the end."""

    def __init__(self, etcd: str, folder: str) -> None:
        places = [f"http://127.0.0.1:{port}" for port in free_ports(6)]
        self.etcd, self.folder, self.urls, self.peers = etcd, folder, places[:3], places[3:]
        self.running: dict[int, subprocess.Popen[bytes]] = {}
        self.keepers: list[subprocess.Popen[bytes]] = []
        self.start()

    def __enter__(self: N) -> N:
        return self

    def __exit__(self, *_: object) -> None:
        for process in [*self.keepers, *self.running.values()]:
            process.kill()
            process.communicate()

    def start(self) -> None:
        """Starts the nodes that don't run."""
        cluster = ",".join(f"node{number}={peer}" for number, peer in enumerate(self.peers))
        for number in set(range(3)) - set(self.running):
            url, peer = self.urls[number], self.peers[number]
            words = [self.etcd, "--name", f"node{number}", "--data-dir", f"{self.folder}/node{number}", "--initial-cluster", cluster]
            words += ["--listen-client-urls", url, "--advertise-client-urls", url, "--listen-peer-urls", peer, "--initial-advertise-peer-urls", peer]
            words += ["--heartbeat-interval", "50", "--election-timeout", "500"]
            with open(f"{self.folder}/told{number}", "ab") as told:
                self.running[number] = subprocess.Popen(words, stdout=told, stderr=told)

    def leader(self) -> int:
        """The node that the others follow."""
        until = time.monotonic() + PATIENCE
        while time.monotonic() < until:
            for number in self.running:
                try:
                    told = Gateway([self.urls[number]]).ask("/v3/maintenance/status", {})
                except Down:
                    continue
                if told.get("leader") == told["header"]["member_id"]:
                    return number
        raise TimeoutError("no node of etcd leads the others")

    def kill_leader(self) -> None:
        node = self.running.pop(self.leader())
        node.kill()
        node.wait()

    def words(self, command: str, first: int = 0) -> list[str]:
        """The words of a command on the log, which asks this node first."""
        return [*LOG, command, "--etcd", ",".join([*self.urls[first:], *self.urls[:first]])]

    def printed(self) -> str:
        """The log, once a quorum is there."""
        until = time.monotonic() + PATIENCE
        while True:
            told = subprocess.run(self.words("print"), stdout=subprocess.PIPE, stderr=subprocess.PIPE, timeout=PATIENCE)
            if told.returncode == 0:
                return told.stdout.decode()
            if time.monotonic() > until:
                raise TimeoutError(told.stderr.decode().strip())

    def keeper(self, listen: str = "127.0.0.1:0") -> str:
        """Starts a keeper, which asks the node first that leads now. The address at which it takes a service."""
        keeper = subprocess.Popen([*self.words("keep", self.leader()), "--listen", listen], stdout=subprocess.PIPE)
        self.keepers.append(keeper)
        assert keeper.stdout is not None
        told = keeper.stdout.readline().decode().split()
        return listen if listen.startswith("unix:") else told[-1]
