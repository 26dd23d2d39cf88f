"""broken_bytes.py ABD [SHARE]

Where a line is no JSON, `abd explain` names the first byte with which no JSON text begins, counted from 1. Here a plain reader finds that
byte in its own way, and both have to agree: on lines that are altered at each byte (another byte there, one more, one less, the line cut
there), and on lines worked out by hand. SHARE, 4 by default, is how many of the alterations are tried, in a hundred.
"""

import os
import random
import subprocess
import sys
import tempfile
from concurrent.futures import ThreadPoolExecutor

HEADER = b'{"abd":"history","version":1}\n'
BLANKS = b" \t\r"
DEEPEST = 127

# Lines of which each byte is altered.
LINES = [
    b'{"call":0,"client":1,"do":"write","key":"x","row":"invoke","value":"a b"}',
    b' { "call" : 12 , "row" : "note" , "more" : [ true , false , null , {} , [] , -0.5e+3 ] } ',
    '{"key":"\\ud83d\\ude00\\n\\"é€😀","more":[[[{"a":{"b":[1,2]}}]],1.25E-2,10e2]}'.encode(),
]
# Lines and the byte where each stops being JSON; 0 where its end does.
WORKED = [
    (b'{"call":1e999}', 13),
    (b'{"call":1e308}x', 15),
    (b'{"call":0e999}x', 15),
    (b'{"call":-1e309,"row":0}', 14),
    (b'{"call":' + b"7" * 400 + b"}", 409),
    (b'{"call":' + b"7" * 400 + b"e-400}x", 415),
    (b'{"call":' + b"7" * 400 + b"e+1}", 410),
    (b'{"call":' + b"7" * 400 + b"e1}", 410),
    (b'{"key":"\\ud800"}', 15),
    (b'{"key":"\\udc00"}', 12),
    (b'{"key":"\\ud800\\u0041"}', 17),
    (b"[" * 128, 128),
    (b"[" * 127, 0),
    (b'{"a":' * 128, 636),
    (b'{"call":0', 0),
    (b'{"call":0}}', 11),
    (b'{"call":01}', 10),
    (b'{"call":-}', 10),
    (b'{"call":.5}', 9),
    (b"{\x00}", 2),
    (b'{"a":"\x1f"}', 7),
    (b"nulll", 5),
    (b"tru", 0),
    ("{\u00e9}".encode(), 2),
]


class Reader:
    """Reads a line byte by byte. `broken` is raised at the first byte with which no JSON text begins."""

    class Broken(Exception):
        pass

    def __init__(self, line):
        self.line, self.at = line, 0

    def here(self):
        return self.line[self.at : self.at + 1]

    def need(self, allowed):
        """Takes one of the bytes, or a byte of the range."""
        byte = self.here()
        if not byte:
            raise EOFError
        if byte not in [bytes([it]) for it in allowed]:
            raise Reader.Broken
        self.at += 1
        return byte

    def blanks(self):
        while self.here() and self.here() in [bytes([it]) for it in BLANKS]:
            self.at += 1

    def word(self, word):
        for byte in word:
            self.need(bytes([byte]))

    def hex(self, digits):
        """Takes a digit of `\\u`, one of those."""
        return self.need(digits + digits.upper())

    def escape(self):
        """Takes what stands after a backslash."""
        if self.need(b'"\\/bfnrtu') != b"u":
            return
        any_digit = b"0123456789abcdef"
        first = self.hex(any_digit)
        if first not in b"dD":
            for _ in range(3):
                self.hex(any_digit)
            return
        # The second half of a pair may not stand alone.
        second = self.hex(b"0123456789ab")
        self.hex(any_digit)
        self.hex(any_digit)
        if second in b"89abAB":
            self.word(b"\\u")
            self.hex(b"d")
            self.hex(b"cdef")
            self.hex(any_digit)
            self.hex(any_digit)

    def string(self):
        self.need(b'"')
        while True:
            byte = self.here()
            if not byte:
                raise EOFError
            if byte < b" ":
                raise Reader.Broken
            self.at += 1
            if byte == b'"':
                return
            if byte == b"\\":
                self.escape()

    def digits(self):
        while self.here().isdigit():
            self.at += 1

    def number(self):
        """A number that is too great is broken where nothing can make it small again."""
        start = self.at
        if self.here() == b"-":
            self.at += 1
        if self.need(b"0123456789") != b"0":
            self.digits()
        if self.here() == b".":
            self.at += 1
            self.need(b"0123456789")
            self.digits()
        is_great = abs(float(self.line[start : self.at])) == float("inf")
        if self.here() not in (b"e", b"E"):
            if is_great and self.here():
                raise Reader.Broken
            return
        self.at += 1
        # What is too great by itself needs a negative exponent, and one that is great enough.
        sign = self.here()
        if sign == b"-":
            self.at += 1
            self.need(b"0123456789")
            self.digits()
            if abs(float(self.line[start : self.at])) == float("inf") and self.here():
                raise Reader.Broken
            return
        if is_great and sign:
            raise Reader.Broken
        if sign == b"+":
            self.at += 1
        self.need(b"0123456789")
        self.at -= 1
        while self.here().isdigit():
            if abs(float(self.line[start : self.at + 1])) == float("inf"):
                raise Reader.Broken
            self.at += 1

    def items(self, end, depth, one):
        """What stands between two brackets."""
        if depth > DEEPEST:
            self.at -= 1
            raise Reader.Broken
        self.blanks()
        if self.here() == end:
            self.at += 1
            return
        while True:
            one(depth)
            self.blanks()
            if self.need(b"," + end) == end:
                return
            self.blanks()

    def member(self, depth):
        self.string()
        self.blanks()
        self.need(b":")
        self.value(depth)

    def value(self, depth):
        self.blanks()
        byte = self.here()
        if byte == b'"':
            self.string()
        elif byte in (b"[", b"{"):
            self.at += 1
            if byte == b"[":
                self.items(b"]", depth + 1, self.value)
            else:
                self.items(b"}", depth + 1, self.member)
        elif byte and byte in b"tfn":
            self.word({b"t": b"true", b"f": b"false", b"n": b"null"}[byte])
        else:
            if byte and byte not in b"-0123456789":
                raise Reader.Broken
            self.number()


def told_of(line):
    """What has to be said of the line below its fault; None where it is JSON, or where no byte is told."""
    try:
        line.decode()
    except UnicodeDecodeError:
        return None
    if not line.strip(BLANKS):
        return None
    if line.startswith("\ufeff".encode()):
        return None
    reader = Reader(line)
    try:
        reader.value(0)
        reader.blanks()
        if reader.here():
            raise Reader.Broken
        last = line.strip(BLANKS)
        return None if not is_great_at_end(last) else "  the JSON text of the line ends too soon"
    except EOFError:
        return "  the JSON text of the line ends too soon"
    except Reader.Broken:
        return f"  the line stops being JSON at byte {reader.at + 1:,}"


def is_great_at_end(line):
    """Whether the whole line is a number that is too great, which digits of an exponent could make small."""
    try:
        return abs(float(line)) == float("inf")
    except ValueError:
        return False


def explain(abd, folder, number, line):
    """What `abd explain` says of the line, the second of a history."""
    name = os.path.join(folder, f"{number}.history")
    with open(name, "wb") as file:
        file.write(HEADER + line + b"\n")
    ran = subprocess.run([abd, "explain", name], capture_output=True)
    os.unlink(name)
    said = ran.stderr.decode().splitlines()
    return said[1] if said and said[0].endswith("line 2: fault 1 not JSON") and len(said) > 1 else None


def alterations(share):
    """Lines that are altered at each byte."""
    draw = random.Random(1)
    for line in LINES:
        for place in range(len(line) + 1):
            others = [bytes([value]) for value in range(128) if value not in (10,) and draw.random() * 100 < share]
            others += [b'"', b"\\", b"e", b"9", b",", b"}", b"]", b" "]
            for other in others:
                yield line[:place] + other + line[place + 1 :]
                yield line[:place] + other + line[place:]
            yield line[:place] + line[place + 1 :]
            yield line[:place]


def main():
    abd = os.path.abspath(sys.argv[1])
    share = float(sys.argv[2]) if len(sys.argv) > 2 else 4.0
    bad = 0
    for line, byte in WORKED:
        wanted = f"  the line stops being JSON at byte {byte:,}" if byte else "  the JSON text of the line ends too soon"
        if told_of(line) != wanted:
            bad += 1
            print(f"the reader: {line[:60]!r}: {told_of(line)} and not {wanted}")
    lines = list(dict.fromkeys([line for line, _ in WORKED] + list(alterations(share))))
    with tempfile.TemporaryDirectory() as folder, ThreadPoolExecutor(os.cpu_count()) as pool:
        asked = [(number, line, told_of(line)) for number, line in enumerate(lines)]
        asked = [(number, line, told) for number, line, told in asked if told is not None]
        found = pool.map(lambda it: explain(abd, folder, it[0], it[1]), asked)
        for (_, line, told), said in zip(asked, found):
            if said != told:
                bad += 1
                print(f"{line[:200]!r}: {said} and not {told}")
    print(f"{len(asked)} broken lines, {bad} told otherwise")
    sys.exit(bad > 0)


if __name__ == "__main__":
    main()
