"""little_memory.py ABD [RUNS]

Runs `abd run` with an address space of 4,000 to 400,000 KiB, in steps of 4,000, so many times each (10), with several loads; then under a limit of
processes, and on one processor. Each run has to end within 10 seconds, with a status that docs/FORMATS.md names, and with 0 only where
`justify` and `check` say yes of what it wrote. Prints a table: for each load, from which limit on which statuses came.
"""

import collections
import os
import resource
import subprocess
import sys
import tempfile

SECONDS = 10
LOADS = [
    ["--calls", "2000"],
    ["--callers", "1", "--calls", "200"],
    ["--callers", "16", "--halls", "8"],
    ["--callers", "16", "--calls", "200", "--replicas", "15", "--halls", "8", "--keys", "8"],
    ["--replicas", "15"],
]
# What the system answers where it can't load a program in so little room: a signal from the kernel, or the loader's own status.
NOT_LOADED = (127, -11, -9, -7)


def limited(kibibytes=None, processes=None, processor=None):
    """What a child does before it becomes the program."""

    def limit():
        if processor is not None:
            os.sched_setaffinity(0, {processor})
        if kibibytes is not None:
            resource.setrlimit(resource.RLIMIT_AS, (kibibytes * 1024, kibibytes * 1024))
        if processes is not None:
            # root has no limit of processes
            resource.setrlimit(resource.RLIMIT_NPROC, (processes, processes))
            os.setgid(65534)
            os.setuid(65534)

    return limit


def run(abd, words, place, **limits):
    """The status of one run, or None where it didn't end; and what it said last on standard error."""
    with open(f"{place}/h", "wb") as out:
        try:
            ran = subprocess.run([abd, "run", *words], stdout=out, stderr=subprocess.PIPE, preexec_fn=limited(**limits), timeout=SECONDS)
        except subprocess.TimeoutExpired:
            return None, "it didn't end"
    said = ran.stderr.decode(errors="replace").splitlines()
    return ran.returncode, said[-1] if said else ""


def is_atomic(abd, place):
    """Whether the history that was written is justified and checked."""
    with open(f"{place}/o", "wb") as orders:
        justified = subprocess.run([abd, "justify", f"{place}/h"], stdout=orders)
    checked = subprocess.run([abd, "check", f"{place}/h", f"{place}/o"], stdout=subprocess.DEVNULL)
    return justified.returncode == 0 and checked.returncode == 0


def judge(abd, words, place, status, said, where):
    """Says what is wrong with a run; whether anything is."""
    if status in (4, *NOT_LOADED):
        return False
    if status == 0 and is_atomic(abd, place):
        return False
    print(f"abd run {' '.join(words)}, {where}: status {status}: {said}", flush=True)
    return True


def sweep(abd, words, runs, place):
    """Goes over the limits of memory. Whether anything is wrong."""
    bad, by_limit = False, []
    for kibibytes in range(4_000, 400_001, 4_000):
        found = collections.Counter()
        for _ in range(runs):
            status, said = run(abd, words, place, kibibytes=kibibytes)
            found[status] += 1
            bad |= judge(abd, words, place, status, said, f"{kibibytes} KiB")
        by_limit.append((kibibytes, found))
    print(f"abd run {' '.join(words)}")
    for first, last, kinds in in_ranges(by_limit):
        total = sum((found for limit, found in by_limit if first <= limit <= last), collections.Counter())
        print(f"  {first} to {last} KiB: {', '.join(f'{total[kind]} times {kind}' for kind in kinds)}", flush=True)
    return bad


def in_ranges(by_limit):
    """The limits with the same kinds of status, as ranges."""
    ranges = []
    for limit, found in by_limit:
        kinds = sorted(found, key=str)
        if ranges and ranges[-1][2] == kinds:
            ranges[-1][1] = limit
        else:
            ranges.append([limit, limit, kinds])
    return ranges


def others(abd, place):
    """Runs under a limit of processes, and on one processor. Whether anything is wrong."""
    bad = False
    os.chmod(place, 0o777)
    for processes in (1, 2, 4, 6, 8, 12, 20, 40):
        for words in LOADS:
            status, said = run(abd, words, place, processes=processes)
            bad |= judge(abd, words, place, status, said, f"{processes} processes")
            print(f"abd run {' '.join(words)}, at most {processes} processes: status {status} {said}", flush=True)
    for words in LOADS:
        status, said = run(abd, words, place, processor=0)
        bad |= judge(abd, words, place, status, said, "one processor")
        print(f"abd run {' '.join(words)}, one processor: status {status} {said}", flush=True)
    return bad


def main():
    abd = os.path.abspath(sys.argv[1])
    runs = int(sys.argv[2]) if len(sys.argv) > 2 else 10
    bad = False
    with tempfile.TemporaryDirectory() as place:
        for words in LOADS:
            bad |= sweep(abd, words, runs, place)
        bad |= others(abd, place)
    sys.exit(bad)


if __name__ == "__main__":
    main()
