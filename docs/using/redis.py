"""Records calls of Debian's redis-server, a primary and a replica, with faults: python3 redis.py --way WAY > run.history

primary: reads and writes at the primary, which flushes its log before it answers. It is atomic, also if it is killed or stands still.
replica: writes at the primary and reads at the replica, which lags. It isn't atomic.
failover: the primary is killed, and a replica that was down for a while takes its place. Writes that were answered are lost.

The servers listen at loopback alone, and are gone at the end. Debian's package redis-server has them.
"""

import argparse
import os
import socket
import time

from load import Refused, run_load
from servers import LOOPBACK, Faults, Server, crash, free_ports, freeze, require, room, wait_until

TIMEOUT = 0.5
REFUSALS = ("LOADING", "READONLY", "MASTERDOWN")


class RedisError(Exception):
    """An answer that says an error."""


class Connection:
    """A connection to a server by its protocol, RESP: one command at a time, of texts."""

    def __init__(self, port):
        self.socket = socket.create_connection((LOOPBACK, port), TIMEOUT)
        self.lines = self.socket.makefile("rb")

    def ask(self, *words):
        """The answer to a command; None where the server has no value."""
        texts = [f"${len(word.encode())}\r\n{word}\r\n" for word in words]
        self.socket.sendall("".join([f"*{len(words)}\r\n", *texts]).encode())
        line = self.lines.readline().decode().rstrip("\r\n")
        if line.startswith("$"):
            return None if line == "$-1" else self.lines.read(int(line[1:]) + 2)[:-2].decode()
        if line.startswith("+"):
            return line[1:]
        if line[1:].startswith(REFUSALS):
            raise Refused(line[1:])
        raise RedisError(line or "the connection ended")


class Pair:
    """Two servers: the primary, and its replica."""

    def __init__(self, folder, log, servers):
        self.ports, self.primary = free_ports(2), 0
        for port in self.ports:
            os.mkdir(f"{folder}/{port}")
            words = ["redis-server", "--port", str(port), "--bind", LOOPBACK, "--dir", f"{folder}/{port}"]
            words += ["--appendonly", "yes", "--appendfsync", "always", "--save", "", "--repl-diskless-sync-delay", "0"]
            servers.append(Server(words, log))
        self.servers, self.words = servers, [list(it.words) for it in servers]
        self.start(0)
        self.start(1, of=0)

    def start(self, which, of=None):
        """Starts a server alone, or as a replica of the other, and waits until it answers and, as a replica, has what the other has."""
        self.servers[which].words = self.words[which] + ([] if of is None else ["--replicaof", LOOPBACK, str(self.ports[of])])
        self.servers[which].start()
        wait_until(lambda: self.is_ready(which, of), f"redis-server at port {self.ports[which]}")

    def is_ready(self, which, of):
        try:
            told = Connection(self.ports[which]).ask("INFO", "replication")
        except (OSError, Refused, RedisError):
            return False
        return of is None or "master_link_status:up" in told

    def fail_over(self, seconds):
        """The replica is down for a while. Then the primary is killed, and the replica takes its place."""
        old, new = self.primary, 1 - self.primary
        self.servers[new].kill()
        time.sleep(seconds)
        self.servers[old].kill()
        self.start(new)
        self.primary = new
        self.start(old, of=new)

    def faults(self, way):
        if way == "failover":
            return [self.fail_over]
        return [lambda seconds, it=it, fault=fault: fault(it, seconds) for it in self.servers for fault in (crash, freeze)]


class Store:
    """A client's connections: for writes, and for reads."""

    def __init__(self, pair, way):
        self.writes = Connection(pair.ports[pair.primary])
        self.reads = Connection(pair.ports[1]) if way == "replica" else self.writes

    def read(self, key):
        return self.reads.ask("GET", key)

    def write(self, key, value):
        self.writes.ask("SET", key, value)


def main():
    parser = argparse.ArgumentParser(description=__doc__, formatter_class=argparse.RawDescriptionHelpFormatter)
    parser.add_argument("--way", choices=("primary", "replica", "failover"), required=True)
    parser.add_argument("--seconds", type=float, default=10.0, help="how long clients call (10)")
    words = parser.parse_args()
    require("redis-server", "redis-server")
    with room() as (folder, log, servers):
        pair = Pair(folder, log, servers)
        with Faults(pair.faults(words.way)):
            run_load(lambda: Store(pair, words.way), clients=6, keys=("x", "y", "z"), calls=10_000, pause=0.003, seconds=words.seconds)


if __name__ == "__main__":
    main()
