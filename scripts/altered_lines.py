"""altered_lines.py ABD [SHARE]

A line is read in one of three ways: as `abd` writes it, as members in any order, or as JSON. Here each byte of a line of each kind, in a
history of either version and in orders, is given each of 256 values, and `abd` is asked three times: of the line, of the line after a
blank, which `abd` never writes, and of the line with a member that means nothing and has an array, which the JSON reader alone takes. All
have to answer the same: `check`, and of a history's line `justify` too, since it looks at the tags of notes. SHARE, 1 by default, is how
many of the alterations are tried, in a hundred.
"""

import os
import random
import subprocess
import sys
import tempfile
from concurrent.futures import ProcessPoolExecutor
from functools import partial

HISTORY = [
    b'{"abd":"history","version":1}',
    b'{"call":0,"client":1,"do":"write","key":"x","row":"invoke","value":"a"}',
    b'{"call":0,"number":1,"row":"note","writer":1}',
    b'{"call":0,"row":"respond"}',
    b'{"call":1,"client":2,"do":"read","key":"x","row":"invoke"}',
    b'{"call":1,"number":1,"row":"note","writer":1}',
    b'{"call":1,"row":"respond","value":"a"}',
    b'{"call":2,"client":2,"do":"read","key":"y","row":"invoke"}',
    b'{"call":2,"number":0,"row":"note","writer":0}',
    b'{"call":2,"row":"respond","value":null}',
]
ORDERS = [b'{"abd":"orders","version":1}', b'{"key":"x","order":[0,1]}', b'{"key":"y","order":[2]}']
# x is of hall 0 and y of hall 1, whose calls have numbers of their own.
HALLS = [
    b'{"abd":"history","ask":2,"halls":2,"put":2,"version":2,"votes":[1,1,1]}',
    b'{"call":0,"client":1,"do":"write","hall":0,"key":"x","row":"invoke","value":"a"}',
    b'{"call":0,"hall":0,"number":1,"row":"note","writer":1}',
    b'{"call":0,"hall":0,"row":"respond"}',
    b'{"call":1,"client":2,"do":"read","hall":0,"key":"x","row":"invoke"}',
    b'{"call":1,"hall":0,"number":1,"row":"note","writer":1}',
    b'{"call":1,"hall":0,"row":"respond","value":"a"}',
    b'{"call":0,"client":2,"do":"read","hall":1,"key":"y","row":"invoke"}',
    b'{"call":0,"hall":1,"number":0,"row":"note","writer":0}',
    b'{"call":0,"hall":1,"row":"respond","value":null}',
]
# The files of a check, by what is altered in them: the history, its orders, and which of the two it is.
FILES = {
    "history": (HISTORY, ORDERS, 0),
    "halls": (HALLS, [ORDERS[0], ORDERS[1], b'{"key":"y","order":[0]}'], 0),
    "orders": (HISTORY, ORDERS, 1),
}


def answers(abd, folder, history, orders, commands):
    """What `abd` says of these lines."""
    with tempfile.TemporaryDirectory(dir=folder) as place:
        for name, lines in (("h", history), ("o", orders)):
            with open(f"{place}/{name}", "wb") as file:
                file.write(b"".join(line + b"\n" for line in lines))
        ran = [subprocess.run([abd, *words], cwd=place, capture_output=True) for words in commands]
        return [(it.returncode, it.stdout, it.stderr) for it in ran]


def forms(line):
    """The line, and forms that mean the same and are read in another way."""
    yield line
    yield b" " + line
    if line.startswith(b"{"):
        yield b'{"other":[],' + line[1:]


def differs(abd, folder, alteration):
    """Whether the altered line is answered otherwise in another form."""
    kind, at, line = alteration
    history, orders, altered = FILES[kind]
    commands = [("check", "h", "o"), ("justify", "h")][: 2 - altered]
    said = []
    for text in forms(line):
        files = [list(history), list(orders)]
        files[altered][at] = text
        said.append(answers(abd, folder, *files, commands))
    return said if any(it != said[0] for it in said) else None


def alterations(share):
    """The altered lines: of which kind of files, which line, and its bytes."""
    draw = random.Random(1)
    for kind, (history, orders, altered) in FILES.items():
        for at, line in enumerate((history, orders)[altered]):
            if at == 0:
                continue
            yield kind, at, line
            for place in range(len(line)):
                for value in range(256):
                    if value != line[place] and draw.random() * 100 < share:
                        yield kind, at, line[:place] + bytes([value]) + line[place + 1 :]


def check_files(abd, folder):
    """The files as they stand have to be well: else the alterations would show nothing."""
    for kind, (history, orders, _) in FILES.items():
        for status, output, said in answers(abd, folder, history, orders, [("check", "h", "o"), ("justify", "h")]):
            if status != 0:
                sys.exit(f"{kind}: status {status} {output} {said}")


def main():
    abd = os.path.abspath(sys.argv[1])
    share = float(sys.argv[2]) if len(sys.argv) > 2 else 1.0
    tried = other = 0
    with tempfile.TemporaryDirectory() as folder, ProcessPoolExecutor() as pool:
        check_files(abd, folder)
        asked = list(alterations(share))
        for one, said in zip(asked, pool.map(partial(differs, abd, folder), asked, chunksize=100)):
            tried += 1
            if said:
                other += 1
                print(one, said)
    print(f"{tried} lines, {other} of them answered otherwise in another form")
    sys.exit(other > 0)


if __name__ == "__main__":
    main()
