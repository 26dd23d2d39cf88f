"""Records calls of Debian's etcd, three servers, with faults: python3 etcd.py --reads HOW > run.history

linearizable: a read asks a majority, as etcd does if nothing else is said. It is atomic, whatever server is killed or stands still.
serializable: a server answers a read by itself, and may lag. It isn't atomic.

The servers listen at loopback alone, and are gone at the end. Debian's package etcd-server has them.
"""

import argparse
import base64
import http.client
import json
import random

from load import run_load
from servers import LOOPBACK, Faults, Server, crash, free_ports, freeze, require, room, wait_until

SERVERS, TIMEOUT = 3, 1.0


class EtcdError(Exception):
    """An answer that isn't 200."""


def encoded(text):
    """A text as etcd's JSON has it."""
    return base64.b64encode(text.encode()).decode()


class Store:
    """A client's connection to one of the servers, by etcd's JSON over HTTP. Its tags are revisions: a write gets the next one."""

    def __init__(self, port, is_serializable):
        self.is_serializable, self.tag = is_serializable, None
        self.http = http.client.HTTPConnection(LOOPBACK, port, timeout=TIMEOUT)
        self.http.connect()

    def read(self, key):
        found = self.ask("range", {"key": encoded(key), "serializable": self.is_serializable}).get("kvs")
        self.tag = (int(found[0]["mod_revision"]) if found else 0, 0)
        return base64.b64decode(found[0]["value"]).decode() if found else None

    def write(self, key, value):
        answer = self.ask("put", {"key": encoded(key), "value": encoded(value)})
        self.tag = (int(answer["header"]["revision"]), 0)

    def ask(self, what, members):
        self.http.request("POST", f"/v3/kv/{what}", json.dumps(members))
        answer = self.http.getresponse()
        text = answer.read().decode()
        if answer.status != 200:
            raise EtcdError(text)
        return json.loads(text)


class Cluster:
    """Three servers, each with a port for clients and one for the others."""

    def __init__(self, folder, log, servers, is_serializable):
        self.is_serializable = is_serializable
        ports = free_ports(2 * SERVERS)
        peers, self.ports = ports[:SERVERS], ports[SERVERS:]
        members = ",".join(f"s{peer}=http://{LOOPBACK}:{peer}" for peer in peers)
        for peer, port in zip(peers, self.ports):
            own, client = f"http://{LOOPBACK}:{peer}", f"http://{LOOPBACK}:{port}"
            words = ["etcd", "--name", f"s{peer}", "--data-dir", f"{folder}/{peer}", "--initial-cluster", members]
            words += ["--listen-peer-urls", own, "--initial-advertise-peer-urls", own]
            words += ["--listen-client-urls", client, "--advertise-client-urls", client]
            words += ["--heartbeat-interval", "50", "--election-timeout", "300"]
            servers.append(Server(words, log))
        for it in servers:
            it.start()
        for port in self.ports:
            wait_until(lambda port=port: self.is_ready(port), f"etcd at port {port}")

    def connect(self):
        """A connection to one of them."""
        return Store(random.choice(self.ports), self.is_serializable)

    def is_ready(self, port):
        try:
            Store(port, False).read("ready")
        except (OSError, http.client.HTTPException, EtcdError):
            return False
        return True


def main():
    parser = argparse.ArgumentParser(description=__doc__, formatter_class=argparse.RawDescriptionHelpFormatter)
    parser.add_argument("--reads", choices=("linearizable", "serializable"), required=True)
    parser.add_argument("--seconds", type=float, default=10.0, help="how long clients call (10)")
    words = parser.parse_args()
    require("etcd", "etcd-server")
    with room() as (folder, log, servers):
        cluster = Cluster(folder, log, servers, words.reads == "serializable")
        faults = [lambda seconds, it=it, fault=fault: fault(it, seconds) for it in servers for fault in (crash, freeze)]
        with Faults(faults):
            run_load(cluster.connect, clients=6, keys=("x", "y", "z"), calls=10_000, pause=0.001, seconds=words.seconds)


if __name__ == "__main__":
    main()
