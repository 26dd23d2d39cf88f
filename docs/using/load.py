"""Clients that call a store at once, and record their calls for `abd`: `run_load(connect)`.

`connect()` makes a connection to your store. It has `read(key)`, which answers a text, or None if the key is absent, and `write(key,
value)`. What they raise says how a call ended. After `Refused` it surely did nothing: it is tried again, inside the same call. After any
other exception it may take effect, now or later: it stays pending, and the thread goes on as a new client. It takes a new connection too,
since the old one may still bring the answer, which would be taken for the next call's.

A store with tags: a connection that has a `tag` after a call, a pair of numbers, has it noted before the response. At the end the writes
without an answer get the tags that reads of their values had.
"""

import random
import sys
import threading
import time

from recorder import Recorder

PATIENCE = 10.0  # seconds in which a call is tried again


class Refused(Exception):
    """The store surely didn't do the call."""


class Load:
    """What the threads of a run share."""

    def __init__(self, connect, file, keys, calls, writes, pause, seconds):
        self.connect, self.keys, self.calls, self.writes, self.pause = connect, keys, calls, writes, pause
        self.recorder = Recorder(file)
        self.end = time.monotonic() + seconds
        self.refused, self.unanswered, self.mistakes = [], [], []
        self.pending_writes, self.tags = {}, {}

    def is_over(self):
        """Whether the time is up, or a thread has found a mistake in the test."""
        return time.monotonic() >= self.end or len(self.mistakes) > 0

    def note_pending_writes(self):
        """Notes the tags of writes without an answer, as far as reads have shown them."""
        for written, call in self.pending_writes.items():
            if self.tags.get(written) is not None:
                self.recorder.note(call, *self.tags[written])

    def tell(self):
        """Says on standard error which calls had no answer, and which were refused."""
        for what, seen in (("calls had no answer", self.unanswered), ("tries were refused, and made again", self.refused)):
            if seen:
                print(f"load: {len(seen)} {what}; the first: {type(seen[0]).__name__}: {seen[0]}", file=sys.stderr)


class Caller(threading.Thread):
    """Makes its share of the calls, one at a time."""

    def __init__(self, load, number):
        super().__init__(daemon=True)
        self.load, self.number, self.connection = load, number, None
        self.client = load.recorder.new_client()

    def run(self):
        try:
            for turn in range(self.load.calls):
                if self.load.is_over():
                    break
                self.make_call(turn)
                time.sleep(random.uniform(0, 2 * self.load.pause))
        except Exception as mistake:
            self.load.mistakes.append(mistake)

    def make_call(self, turn):
        """Reads a key, or writes a value that no other call writes."""
        key = random.choice(self.load.keys)
        if random.random() < self.load.writes:
            self.write(key, f"{self.number}.{turn}")
        else:
            self.read(key)

    def write(self, key, value):
        call = self.load.recorder.invoke_write(self.client, key, value)
        is_answered, _ = self.ask(lambda connection: connection.write(key, value))
        if is_answered:
            self.note(call)
            self.load.recorder.respond_write(call)
        else:
            self.load.pending_writes[key, value] = call
            self.go_on_as_another()

    def read(self, key):
        call = self.load.recorder.invoke_read(self.client, key)
        is_answered, value = self.ask(lambda connection: connection.read(key))
        if is_answered:
            self.load.tags[key, value] = self.note(call)
            self.load.recorder.respond_read(call, value)
        else:
            self.go_on_as_another()

    def note(self, call):
        """The tag of the call that was answered, which is noted; none if the store has no tags."""
        tag = getattr(self.connection, "tag", None)
        if tag is not None:
            self.load.recorder.note(call, *tag)
        return tag

    def ask(self, question):
        """Whether the store answered, and what. While it refuses, it is asked again."""
        last = time.monotonic() + PATIENCE
        while time.monotonic() < last:
            try:
                return True, question(self.connected())
            except Refused as refusal:
                self.load.refused.append(refusal.__cause__ or refusal)
                time.sleep(0.01)
            except Exception as error:
                self.load.unanswered.append(error)
                break
        return False, None

    def connected(self):
        """The thread's connection. If none can be had, nothing was sent: that is a refusal."""
        if self.connection is None:
            try:
                self.connection = self.load.connect()
            except Exception as error:
                raise Refused from error
        return self.connection

    def go_on_as_another(self):
        """A new client, and not at once: names are few, and a store that is down has no answer for a while."""
        self.connection = None
        self.client = self.load.recorder.new_client()
        time.sleep(0.05)


def require_absent(connection, keys):
    """Raises a ValueError if a key has a value before the first call: no write of the record would be its writer."""
    for key in keys:
        value = connection.read(key)
        if value is not None:
            raise ValueError(f"key {key} holds {value!r} before the first call: empty the store, or take keys that are new")


def run_load(connect, file=sys.stdout, clients=8, keys=("x", "y"), calls=2500, writes=0.3, pause=0.0, seconds=60.0):
    """Each client makes so many calls, a share of them writes, with pauses of about so long, until the time is up. Writes the history."""
    require_absent(connect(), keys)
    load = Load(connect, file, keys, calls, writes, pause, seconds)
    threads = [Caller(load, number) for number in range(1, clients + 1)]
    for thread in threads:
        thread.start()
    for thread in threads:
        thread.join()
    load.note_pending_writes()
    load.tell()
    if load.mistakes:
        raise load.mistakes[0]
