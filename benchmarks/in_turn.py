"""in_turn.py TIMES NAME=COMMAND NAME=COMMAND ..

Runs the commands by turns, so many times each, and writes of each the median, the least and the greatest of the elapsed time, of the
processor time in the program and in the system, and of the peak memory; of a command that says `read in N` on standard error, of that
time too. Then how long the host gave the processors to others meanwhile (`/proc/stat`). What the commands write is thrown away. A command
that ends with another status than 0 ends it.
"""

import os
import re
import shlex
import statistics
import subprocess
import sys
import tempfile
import time

UNITS = {"s": 1.0, "ms": 1e-3, "µs": 1e-6, "ns": 1e-9}


def stolen():
    """The seconds that the host gave to others since it started, over all processors."""
    with open("/proc/stat", encoding="ascii") as file:
        return int(file.readline().split()[8]) / os.sysconf("SC_CLK_TCK")


def ran(command):
    """Elapsed time, time in the program and in the system, MiB, and the time of a reading where it is said."""
    with tempfile.TemporaryFile("w+", encoding="utf-8") as said:
        start = time.monotonic()
        program = subprocess.Popen(shlex.split(command), stdout=subprocess.DEVNULL, stderr=said)
        _, status, used = os.wait4(program.pid, 0)
        elapsed = time.monotonic() - start
        program.returncode = os.waitstatus_to_exitcode(status)
        said.seek(0)
        text = said.read()
    if program.returncode != 0:
        sys.exit(f"{command}: status {program.returncode}\n{text}")
    found = {"elapsed s": elapsed, "program s": used.ru_utime, "system s": used.ru_stime, "MiB": used.ru_maxrss / 1024}
    if reading := re.search(r"read in ([0-9.]+)(s|ms|µs|ns)", text):
        found["reading s"] = float(reading[1]) * UNITS[reading[2]]
    return found


def main():
    times, commands = int(sys.argv[1]), [it.split("=", 1) for it in sys.argv[2:]]
    before = stolen()
    runs = {name: [] for name, _ in commands}
    for _ in range(times):
        for name, command in commands:
            runs[name].append(ran(command))
    for name, found in runs.items():
        parts = []
        for what in found[0]:
            numbers = [it[what] for it in found]
            form = "{:.0f}" if what == "MiB" else "{:.3f}"
            median, least, most = (form.format(it) for it in (statistics.median(numbers), min(numbers), max(numbers)))
            parts.append(f"{what} {median} ({least} to {most})")
        print(f"{name}: {'; '.join(parts)}")
    print(f"{times} times in turn; {stolen() - before:.2f} s stolen")


if __name__ == "__main__":
    main()
