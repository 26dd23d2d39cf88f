"""split.py ABD [--calls N] [--million M] [--parts P] [--keys K]

Measures `abd split` of a history of N calls (10,000,000) on K keys (1,000) into P pieces (8), which long_history.py writes, beside
`abd check` of one of M calls (1,000,000), the most that it takes; and `abd monitor` of the pieces by GNU parallel on 1, 2 and 4 processors,
beside `abd monitor` of the whole on one. Of each it prints the seconds that pass, the processor time and that of a line, and the greatest
memory of a process. Then it reads a piece with and without the numbers of its lines, in turn; and splits and monitors a history of which one
key has half of the calls. Files stand in $TMPDIR: 5 GB for 10,000,000 calls.
"""

import argparse
import os
import re
import subprocess
import sys
import tempfile
import time

MAKER = os.path.join(os.path.dirname(os.path.abspath(__file__)), "long_history.py")


def make(name, calls, keys, *options):
    """Writes such a history into the file. How many lines it has."""
    with open(name, "wb") as file:
        subprocess.run([sys.executable, MAKER, "--calls", str(calls), "--keys", str(keys), *options], stdout=file, check=True)
    return lines_in(name)


def lines_in(name):
    with open(name, "rb") as file:
        return sum(block.count(b"\n") for block in iter(lambda: file.read(1 << 20), b""))


def measure(words, processors=None):
    """What the command prints at last, the seconds that pass, its processor time, and the greatest memory of a process in MiB."""
    chosen = ["taskset", "-c", f"0-{processors - 1}"] if processors else []
    begun = time.monotonic()
    process = subprocess.Popen([*chosen, *words], stdout=subprocess.PIPE)
    said = process.stdout.read().decode().strip()
    _, status, used = os.wait4(process.pid, 0)
    process.returncode = os.waitstatus_to_exitcode(status)
    if process.returncode != 0:
        sys.exit(f"{' '.join(words)}: status {process.returncode}: {said[-200:]}")
    return said.rpartition("\n")[2][:60], time.monotonic() - begun, used.ru_utime + used.ru_stime, used.ru_maxrss / 1024


def tell(title, lines, found):
    said, passed, seconds, memory = found
    print(f"{title}: {passed:.2f} s, processor {seconds:.2f} s, {seconds / lines * 1e9:.0f} ns a line, {memory:.1f} MiB {said}", flush=True)


def tell_check(abd, place, calls, keys):
    """`abd check` of a history, with orders by values."""
    lines = make(f"{place}/h", calls, keys)
    with open(f"{place}/o", "wb") as file:
        subprocess.run([abd, "justify", "--by", "values", f"{place}/h"], stdout=file, check=True)
    tell(f"check of {calls} calls", lines, measure([abd, "check", f"{place}/h", f"{place}/o"]))
    os.remove(f"{place}/h")
    os.remove(f"{place}/o")


def pieces_in(folder):
    return [os.path.join(folder, name) for name in sorted(os.listdir(folder))]


def tell_split(abd, title, history, lines, parts, folder):
    """`abd split`, and `abd monitor` of the whole and of the pieces."""
    tell(f"{title}: split into {parts}", lines, measure([abd, "split", history, "--parts", str(parts), "--into", folder]))
    tell(f"{title}: monitor of the whole on 1", lines, measure([abd, "monitor", history], 1))
    for processors in (1, 2, 4):
        words = ["parallel", "--will-cite", "-j", str(processors), abd, "monitor", ":::", *pieces_in(folder)]
        tell(f"{title}: monitor of the pieces on {processors}", lines, measure(words, processors))


def without_lines(piece, name):
    """The piece without the numbers of its lines."""
    with open(piece, "rb") as file, open(name, "wb") as plain:
        for line in file:
            plain.write(re.sub(rb'"line":\d+,', b"", line, count=1))


def tell_reading(abd, place, piece):
    """`abd monitor` of a piece, and of the same rows without the numbers of their lines, in turn; of three runs each the fastest."""
    plain = f"{place}/plain"
    without_lines(piece, plain)
    found = {piece: [], plain: []}
    for _ in range(3):
        for name, runs in found.items():
            runs.append(measure([abd, "monitor", name], 1))
    for title, name in (("a piece", piece), ("the same without `line`", plain)):
        tell(f"monitor of {title}, {os.path.getsize(name)} bytes", lines_in(name), min(found[name], key=lambda it: it[2]))


def main():
    parser = argparse.ArgumentParser(description=__doc__, formatter_class=argparse.RawDescriptionHelpFormatter)
    parser.add_argument("abd")
    parser.add_argument("--calls", type=int, default=10_000_000)
    parser.add_argument("--million", type=int, default=1_000_000)
    parser.add_argument("--parts", type=int, default=8)
    parser.add_argument("--keys", type=int, default=1_000)
    words = parser.parse_args()
    abd = os.path.abspath(words.abd)
    with tempfile.TemporaryDirectory() as place:
        tell_check(abd, place, words.million, words.keys)
        for title, options in ((f"{words.calls} calls", []), ("one key has half", ["--half"])):
            history, folder = f"{place}/history", f"{place}/pieces{len(options)}"
            lines = make(history, words.calls, words.keys, *options)
            tell_split(abd, title, history, lines, words.parts, folder)
            if not options:
                tell_reading(abd, place, pieces_in(folder)[0])


main()
