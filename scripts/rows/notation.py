"""Bytes as rows write them.

An end of line is written as itself or as ` / `; a line that ends with `<end>` has none. In a line `<65536*a>` stands for that many times
`a`, `<history>` and `<orders>` for the header of such a file with its end of line, `<reads 0..3>` for the lines of reads 0, 1 and 2 by
client 1 that found nothing in `x`, and any other mark for the bytes whose hexadecimal digits it has. A line that begins with
`<40 lines of>` stands there that many times.
"""

import re

from rows.row import lines_of

HEADERS = {"<history>": b'{"abd":"history","version":1}\n', "<orders>": b'{"abd":"orders","version":1}\n'}


def reads(first, end):
    """The lines of the reads with these numbers."""
    return "".join(
        f'{{"call":{call},"client":1,"do":"read","key":"x","row":"invoke"}}\n{{"call":{call},"row":"respond","value":null}}\n'
        for call in range(first, end)
    ).encode()


def marked(part):
    """The bytes that a mark stands for, or a text without marks."""
    if not part.startswith("<"):
        return part.encode()
    if part in HEADERS:
        return HEADERS[part]
    if many := re.fullmatch(r"<(\d+)\*(.*)>", part):
        return many[2].encode() * int(many[1])
    if numbered := re.fullmatch(r"<reads (\d+)\.\.(\d+)>", part):
        return reads(int(numbered[1]), int(numbered[2]))
    return bytes.fromhex(part[1:-1])


def line_bytes(line):
    """The bytes of a line, with its end if it has one."""
    many = re.match(r"<(\d+) lines of>", line)
    text = line[many.end() :] if many else line
    end = b"" if text.endswith("<end>") else b"\n"
    parts = re.split("(<[^>]*>)", text.removesuffix("<end>"))
    return (b"".join(map(marked, parts)) + end) * (int(many[1]) if many else 1)


def bytes_of(text):
    """The bytes that a row's lines stand for."""
    return b"".join(line_bytes(line) for whole in lines_of(text) for line in whole.split(" / "))
