"""What a load does where a store refuses, has no answer or gives a wrong type: python3 load_test.py ABD"""

import io
import random
import re
import subprocess
import sys
import threading

from load import Refused, run_load


class Map:
    """A connection to a map with one lock. It may refuse, or have no answer."""

    lock = threading.Lock()
    values = {}

    def __init__(self, refuses=0.0, is_silent=0.0):
        self.refuses, self.is_silent = refuses, is_silent

    def read(self, key):
        self.stumble()
        with self.lock:
            return self.values.get(key)

    def write(self, key, value):
        self.stumble()
        with self.lock:
            self.values[key] = value
        if random.random() < self.is_silent:
            raise TimeoutError("done, and not answered")

    def stumble(self):
        if random.random() < self.refuses:
            raise Refused("busy")
        if random.random() < self.is_silent:
            raise TimeoutError("not done")


def recorded(connect, **options):
    """The history of a run with empty maps."""
    Map.values.clear()
    file = io.StringIO()
    run_load(connect, file, **{"clients": 4, "calls": 250, **options})
    return file.getvalue()


def verdict(abd, history):
    """What `abd decide` says of it."""
    return subprocess.run([abd, "decide", "/dev/stdin"], input=history, capture_output=True, text=True).stdout


def atomic_whatever_happens(abd):
    """Refusals and calls without an answer make no atomic store another."""
    for refuses, is_silent in ((0.0, 0.0), (0.2, 0.0), (0.0, 0.03), (0.1, 0.03)):
        first = [Map()]  # the connection that looks whether the keys are absent is a sound one
        history = recorded(lambda: first.pop() if first else Map(refuses, is_silent))
        assert sorted(verdict(abd, history).splitlines()) == ["x: atomic", "y: atomic"]
        assert history.count('"row":"invoke"') == 1000
        answers = history.count('"row":"respond"')
        assert (answers == 1000) == (is_silent == 0.0), answers
        clients = {int(it) for it in re.findall(r'"client":(\d+)', history)}
        assert len(clients) >= 4 + (1000 - answers) - 4, "a client's name is used after a call without an answer"


def connections_that_fail():
    """A connection that can't be had is a refusal."""
    def connect():
        if len(tried) % 3:
            tried.append(1)
            raise OSError("no listener")
        tried.append(1)
        return Map()

    tried = []
    assert recorded(connect, calls=10).count('"row":"respond"') == 40


def mistake_of(connect, **options):
    """The mistake that ends a run."""
    try:
        recorded(connect, **options)
    except ValueError as mistake:
        return str(mistake)
    raise AssertionError("no mistake was found")


def mistakes():
    """A read that answers no text, and keys that aren't absent."""
    class Bytes(Map):
        def read(self, key):
            found = super().read(key)
            return found if found is None else found.encode()

    assert "should be a text" in mistake_of(Bytes)
    assert "key 'a b' should be" in mistake_of(Map, keys=("a b",))
    Map.values["y"] = "7.0"
    try:
        run_load(Map, io.StringIO())
    except ValueError as mistake:
        assert "key y holds '7.0' before the first call" in str(mistake)
    else:
        raise AssertionError("a present key was taken")


def main():
    sys.stderr = io.StringIO()
    atomic_whatever_happens(sys.argv[1])
    connections_that_fail()
    mistakes()
    assert recorded(Map, seconds=0.0).count("\n") == 1


main()
