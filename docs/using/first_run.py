"""A store whose reads come from a copy that lags, recorded: python3 first_run.py > run.history"""

import argparse
import threading
import time

from load import run_load

primary, copy = {}, {}


class Store:
    """A connection to the store: put your client library here."""

    def __init__(self, reads):
        self.reads = reads

    def read(self, key):
        """What the store answers: a text, or None if the key is absent."""
        return self.reads.get(key)

    def write(self, key, value):
        primary[key] = value


def replicate():
    """Brings the copy up to date every five milliseconds."""
    while True:
        copy.update(primary)
        time.sleep(0.005)


parser = argparse.ArgumentParser(description=__doc__)
parser.add_argument("--reads", choices=("primary", "copy"), default="copy", help="where reads go")
words = parser.parse_args()
threading.Thread(target=replicate, daemon=True).start()
run_load(lambda: Store(primary if words.reads == "primary" else copy), clients=4, calls=250, pause=0.001)
