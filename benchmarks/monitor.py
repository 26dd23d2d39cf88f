"""monitor.py ABD [--base BASE] [--calls N] [--million M]

Measures `abd monitor` on histories that long_history.py writes into a pipe: N calls (50,000,000) by 16 clients on 100 keys, and of M calls
(1,000,000) those that keep more. Of each it prints the processor time and that of a line, the greatest memory, and that when M calls had
been judged; beside them `abd check` of a history of M calls made the same way, with its orders by `abd justify --by values`; and BASE, the
program that is to be compared, with the word `monitor`. At last it prints how long after a fault came through the pipe its line was there.
"""

import argparse
import os
import subprocess
import sys
import tempfile
import time

MAKER = os.path.join(os.path.dirname(os.path.abspath(__file__)), "long_history.py")


def make(calls, options, out):
    return subprocess.Popen([sys.executable, MAKER, "--calls", str(calls), *options], stdout=out, stderr=subprocess.DEVNULL)


def measure(words, source):
    """The status, processor seconds and greatest memory in MiB of the command with that standard input."""
    process = subprocess.Popen(words, stdin=source, stdout=subprocess.PIPE)
    said = process.stdout.read().decode().strip()
    _, status, used = os.wait4(process.pid, 0)
    process.returncode = os.waitstatus_to_exitcode(status)
    return said, used.ru_utime + used.ru_stime, used.ru_maxrss / 1024


def through_pipe(words, calls, options):
    """The same of the command that reads such a history through a pipe; and how many lines that has."""
    maker = make(calls, options, subprocess.PIPE)
    found = measure(words, maker.stdout)
    maker.stdout.close()
    maker.wait()
    return found


def tell(name, lines, found):
    said, seconds, memory = found
    print(f"{name}: {seconds:.2f} s, {seconds / lines * 1e9:.0f} ns a line, {memory:.1f} MiB: {said.splitlines()[-1][:70] if said else ''}", flush=True)


def check_beside(abd, calls):
    """`abd check` of a history in a file, with orders by values."""
    with tempfile.TemporaryDirectory() as place:
        with open(f"{place}/h", "wb") as file:
            make(calls, [], file).wait()
        with open(f"{place}/o", "wb") as file:
            subprocess.run([abd, "justify", "--by", "values", f"{place}/h"], stdout=file, check=True)
        with open(f"{place}/h", "rb") as file:
            lines = sum(1 for _ in file)
        tell(f"check of {calls} calls", lines, measure([abd, "check", f"{place}/h", f"{place}/o"], subprocess.DEVNULL))


def refusal_seconds(abd, calls):
    """How many seconds after all was written the line of a refusal is there, while the pipe stays open."""
    maker = make(calls, ["--fault"], subprocess.PIPE)
    process = subprocess.Popen([abd, "monitor"], stdin=subprocess.PIPE, stdout=subprocess.PIPE)
    while block := maker.stdout.read(65_536):
        process.stdin.write(block)
    process.stdin.flush()
    begun = time.monotonic()
    process.stdout.readline()
    seconds = time.monotonic() - begun
    process.stdin.close()
    process.wait()
    return seconds


def main():
    parser = argparse.ArgumentParser(description=__doc__, formatter_class=argparse.RawDescriptionHelpFormatter)
    parser.add_argument("abd")
    parser.add_argument("--base")
    parser.add_argument("--calls", type=int, default=50_000_000)
    parser.add_argument("--million", type=int, default=1_000_000)
    words = parser.parse_args()
    programs = {"abd": [words.abd, "monitor"], **({"base": [words.base, "monitor"]} if words.base else {})}
    check_beside(words.abd, words.million)
    for name, command in programs.items():
        for calls in (words.million, words.calls):
            tell(f"{name}, {calls} calls", 2 * calls, through_pipe(command, calls, []))
            tell(f"{name}, {calls} calls, 1 % never end", 2 * calls, through_pipe(command, calls, ["--pending", "1"]))
        for title, options in (
            ("1,000,000 keys", ["--keys", "1000000"]),
            ("one key, 4,096 clients", ["--keys", "1", "--clients", "4096"]),
            ("a reader pending for 900,000 lines", ["--late-reader", "900000"]),
        ):
            tell(f"{name}, {words.million} calls, {title}", 2 * words.million, through_pipe(command, words.million, options))
    print(f"abd, from the fault to its line: {refusal_seconds(words.abd, words.million):.3f} s")


main()
