"""long_history.py --calls N [--keys K] [--half] [--clients C] [--pending PERCENT] [--reads PERCENT] [--late-reader LINES] [--fault] [--seed S]

Writes an atomic history of any length to standard output, some millions of lines a second. C calls at a time begin, take effect one after
another, and end. PERCENT of the calls never end: a client that nobody was takes the place of theirs, as long as there are clients (65,535).
With --half the key k0 has half of the calls. With --late-reader a read begins first, and ends once so many lines have come. With --fault a
read of a value that nobody wrote comes last.

A block of lines is a template with places for numbers: of calls, clients and keys. Each block has a template that was drawn at first, the
next numbers of calls, and its keys moved on by a drawn number. A read answers what was written before it in its block, or is a write.
"""

import argparse
import operator
import random
import signal
import sys

BLOCK, TEMPLATES, MOST_CLIENTS = 2_000, 8, 65_535
HEADER = b'{"abd":"history","version":1}\n'
BEGIN_READ = b'{"call":%d,"client":%d,"do":"read","key":"k%d","row":"invoke"}\n'
BEGIN_WRITE = b'{"call":%d,"client":%d,"do":"write","key":"k%d","row":"invoke","value":"v%d"}\n'
END_READ = b'{"call":%d,"row":"respond","value":"v%d"}\n'
END_NOTHING = b'{"call":%d,"row":"respond","value":null}\n'
END_WRITE = b'{"call":%d,"row":"respond"}\n'


class Template:
    """The lines of a block, and which numbers stand in them: calls, then clients, then keys, each from 0."""

    def __init__(self, draw, words, pending):
        self.calls = -(-BLOCK // words.clients) * words.clients
        self.fresh = 0
        self.seats = list(range(words.clients))
        self.keys = [draw.randrange(words.keys) for _ in range(self.calls)]
        self.first_key = 0
        if words.half:
            self.first_key = 1
            self.keys = [key % (words.keys - 1) if draw.random() < 0.5 else None for key in self.keys]
        self.clients_at, self.keys_at = self.calls, self.calls + words.clients + (self.calls if pending else 0)
        lines, numbers, last = [], [], {}
        for first in range(0, self.calls, words.clients):
            self.add_round(draw, words, pending, first, lines, numbers, last)
        self.text, self.lines, self.numbers = b"".join(lines), len(lines), operator.itemgetter(*numbers)

    def add_round(self, draw, words, pending, first, lines, numbers, last):
        """Adds a call of each client. `last` has the last write of each key."""
        calls = range(first, first + words.clients)
        read = {}
        for call in draw.sample(calls, words.clients):
            key = self.keys[call]
            if draw.random() * 100 < words.reads and key in last:
                read[call] = last[key]
            else:
                last[key] = call
        for seat, call in zip(draw.sample(range(words.clients), words.clients), calls):
            place = [call, self.clients_at + self.seats[seat], self.keys_at + call]
            lines.append(BEGIN_READ if call in read else BEGIN_WRITE)
            numbers += place if call in read else place + [call]
            if draw.random() * 100 < pending:
                self.seats[seat] = words.clients + self.fresh
                self.fresh += 1
                read[call] = read.get(call, call), "never ends"
        for call in draw.sample(calls, words.clients):
            if not isinstance(read.get(call), tuple):
                lines.append(END_READ if call in read else END_WRITE)
                numbers += [call, read[call]] if call in read else [call]

    def block(self, first, clients, shift, keys):
        """The block whose calls begin at that number, and the clients after it. The clients are those of the seats, and fresh ones."""
        room = self.keys_at - self.clients_at
        others = keys - self.first_key
        moved = [0 if key is None else self.first_key + (key + shift) % others for key in self.keys]
        table = [*range(first, first + self.calls), *clients, *[0] * (room - len(clients)), *moved]
        return self.text % self.numbers(table), [clients[seat] for seat in self.seats]


def write_history(words, out):
    """Writes the history, in whole blocks. How many calls never end."""
    draw = random.Random(words.seed)
    templates = [Template(draw, words, words.pending) for _ in range(TEMPLATES)]
    ending = [Template(draw, words, 0) for _ in range(TEMPLATES)] if words.pending else templates
    clients, next_client, never = list(range(1, words.clients + 1)), words.clients + 1, 0
    call, lines = 0, 0
    out.write(HEADER)
    if words.late_reader:
        out.write(BEGIN_READ % (0, MOST_CLIENTS, 0))
        call = 1
    while call < words.calls:
        chosen = draw.choice(templates)
        if next_client + chosen.fresh >= MOST_CLIENTS:
            chosen = draw.choice(ending)
        fresh = list(range(next_client, next_client + chosen.fresh))
        text, clients = chosen.block(call, clients + fresh, draw.randrange(words.keys), words.keys)
        out.write(text)
        next_client, never, call = next_client + chosen.fresh, never + chosen.fresh, call + chosen.calls
        if lines < words.late_reader <= lines + chosen.lines:
            out.write(END_NOTHING % 0)
        lines += chosen.lines
    if words.fault:
        out.write(BEGIN_READ % (call, clients[0], 0) + END_READ % (call, 4_294_967_296))
    out.flush()
    return never


def main():
    parser = argparse.ArgumentParser(description=__doc__, formatter_class=argparse.RawDescriptionHelpFormatter)
    parser.add_argument("--calls", type=int, default=1_000_000)
    parser.add_argument("--keys", type=int, default=100)
    parser.add_argument("--half", action="store_true")
    parser.add_argument("--clients", type=int, default=16)
    parser.add_argument("--pending", type=float, default=0)
    parser.add_argument("--reads", type=float, default=50)
    parser.add_argument("--late-reader", type=int, default=0)
    parser.add_argument("--fault", action="store_true")
    parser.add_argument("--seed", type=int, default=1)
    signal.signal(signal.SIGPIPE, signal.SIG_DFL)
    words = parser.parse_args()
    never = write_history(words, sys.stdout.buffer)
    if words.pending:
        print(f"{never} calls never end", file=sys.stderr)


main()
