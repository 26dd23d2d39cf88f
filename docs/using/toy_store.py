#!/usr/bin/env python3
"""A toy store of replicated registers, recorded as a history file for `abd`: python3 toy_store.py [--bug BUG] > run.history

Five replicas, each a thread with its inbox; eight clients, each a thread, make 10,000 calls on four keys. One message in ten is lost.
Each call notes its tag, so `abd explain` says which rule of the algorithm a bug breaks.
"""

import argparse
import queue
import random
import signal
import sys
import threading
import time

from recorder import Recorder

REPLICAS, CLIENTS, KEYS = 5, 8, ("a", "b", "c", "d")
LOST, SLOW = 0.1, 0.02
LEAST = ((0, 0), None)
BUGS = {
    "small-majority": "a client waits for two of five replicas: two quorums need not share one",
    "tie": "a client leaves its name out of the tag: two writes can take the same",
    "last-write": "a replica keeps the pair that comes last, not the one with the greatest tag",
    "stale": "a client counts replies of its earlier phases",
    "no-write-back": "a read answers without putting the pair that it found",
}


class Replica(threading.Thread):
    """Keeps a pair of tag and value for each key."""

    def __init__(self, bug):
        super().__init__(daemon=True)
        self.bug, self.inbox, self.pairs = bug, queue.SimpleQueue(), {}

    def run(self):
        while True:
            key, pair, phase, outbox = self.inbox.get()
            if random.random() < LOST:
                continue
            if random.random() < SLOW:
                time.sleep(random.uniform(0, 0.002))
            if pair is not None:
                self.put(key, pair)
            outbox.put((self, phase, self.pairs.get(key, LEAST)))

    def put(self, key, pair):
        if self.bug == "last-write" or pair[0] > self.pairs.get(key, LEAST)[0]:
            self.pairs[key] = pair


class Client(threading.Thread):
    """Makes its share of the calls, one at a time."""

    def __init__(self, name, calls, replicas, recorder, bug):
        super().__init__()
        self.number, self.calls, self.replicas, self.recorder, self.bug = name, calls, replicas, recorder, bug
        self.quorum = REPLICAS // 2 + (0 if bug == "small-majority" else 1)
        self.inbox, self.phase = queue.SimpleQueue(), 0

    def run(self):
        for turn in range(self.calls):
            key = random.choice(KEYS)
            if random.random() < 0.3:
                self.write(key, f"{self.number}.{turn}")
            else:
                self.read(key)

    def gather(self, key, pair=None):
        """Asks every replica, or puts the pair to it, until a quorum has replied: the pairs that they tell."""
        self.phase += 1
        told = {}
        while len(told) < self.quorum:
            for replica in random.sample(self.replicas, REPLICAS):
                replica.inbox.put((key, pair, self.phase, self.inbox))
            self.listen(told)
        return list(told.values())

    def listen(self, told):
        """Takes replies until a quorum has replied, or none has come for a while."""
        try:
            while len(told) < self.quorum:
                replica, phase, found = self.inbox.get(timeout=0.02)
                if phase == self.phase or self.bug == "stale":
                    told[replica] = found
        except queue.Empty:
            pass

    def write(self, key, value):
        call = self.recorder.invoke_write(self.number, key, value)
        (number, _), _ = max(self.gather(key), key=lambda pair: pair[0])
        tag = (number + 1, 0 if self.bug == "tie" else self.number)
        self.recorder.note(call, *tag)
        self.gather(key, (tag, value))
        self.recorder.respond_write(call)

    def read(self, key):
        call = self.recorder.invoke_read(self.number, key)
        tag, value = max(self.gather(key), key=lambda pair: pair[0])
        self.recorder.note(call, *tag)
        if self.bug != "no-write-back":
            self.gather(key, (tag, value))
        self.recorder.respond_read(call, value)


def main():
    bugs = "\n".join(f"  {name}: {what}" for name, what in BUGS.items())
    parser = argparse.ArgumentParser(description=__doc__, epilog=f"bugs:\n{bugs}", formatter_class=argparse.RawDescriptionHelpFormatter)
    parser.add_argument("--bug", choices=BUGS)
    parser.add_argument("--calls", type=int, default=10_000, help="how many calls are made (10,000)")
    words = parser.parse_args()
    signal.signal(signal.SIGPIPE, signal.SIG_DFL)  # who reads the record may end first, as `abd monitor` does
    replicas = [Replica(words.bug) for _ in range(REPLICAS)]
    recorder = Recorder(sys.stdout)
    clients = [Client(name, words.calls // CLIENTS, replicas, recorder, words.bug) for name in range(1, CLIENTS + 1)]
    for thread in replicas + clients:
        thread.start()
    for client in clients:
        client.join()


main()
