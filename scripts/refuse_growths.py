"""refuse_growths.py LIBRARY TOP [all] [NAME ..]

Runs built programs with the library before them that refuses one allocation, the first, the second and so on until a run meets none. Of a row
with more than 600 allocations the first 300 are refused and 300 more, evenly spread up to the last.

With the word `all` every allocation from that one on is refused, for each of abd, store_example and test_store, whose runs wait most of
their time, so that many are under way at once. Each run has to end within 10 seconds (test_store within 60: a row that waits for a
worker which couldn't be started gives up after seconds), with a status that docs/FORMATS.md names. What is said of one refused allocation below holds there too, but for test_store: any row may come out otherwise,
and the lines may end.

- abd: a check, an explain and a draw with orders and one each without, two decides, three monitors, a draw by values, two draws of all keys together, a
  justify of each kind, a simulate, a trace and its page. With a refusal a run has the very answer of a run without one, or status 4, nothing
  on standard output (of a monitor, a beginning of the answer) and one line on standard error, which names memory and a line of the file, or
  the number after its last if all lines were read. The first line that is named is line 1, and a later allocation never names an earlier line.
- abd run: with a refusal it writes a history that justify and check say yes of, and of its callers no more is said than that a call
  was refused, or that one was unavailable (a replica's thread may have met the refusal); or status 4, nothing on standard output, and
  after such lines one that names memory or a thread.
- the row programs: each row alone, but none of limits.rows, whose runs take too long. What is said of it is what is expected, up to a line that
  names memory, or a step that the program couldn't make, or to the program's end.
- store_example: a key that it names has the verdict yes, whatever was refused.
- refused_calls, a crate in the folder that REFUSED_CALLS names: each of its tests. It passes (it calls again after a refused one, and compares whole
  worlds, pools, replicas, clients and histories as they were before the call and after it, and verdicts), or it ends early, since an allocation
  of its own was refused.
- test_store: 300 allocations, evenly spread over a run of all rows, most of which wait for threads. Each run ends, and at most one row, the
  one that met the refusal, comes out otherwise.
"""

import concurrent.futures
import os
import re
import subprocess
import sys
import tempfile

# A row that goes over all small parts takes millions of allocations: where there are more than both together, so many first ones are refused,
# and so many others.
FIRST = 300
SPREAD = 300
# How many runs of test_store are under way at once.
AT_ONCE = 48
# What threads do differs from run to run: so many allocations more than were counted may be met.
MORE = 1000


# What a row program says where it couldn't go on for want of memory.
WANT = "(?i)memory|NO SUCH |not understood"
ROWS = ["test_files", "test_protocol", "test_records"]
# Files of rows that are left out.
LEFT_OUT = ["limits.rows"]
# The tests that are gone over, by what their names have.
TESTS = {"refused_calls": "refused_growth"}


class Wrong(Exception):
    """Something came out that mustn't."""


def spread(first, last, count):
    """So many numbers behind the first, evenly spread up to the last."""
    return [first + (last - first) * k // count for k in range(1, count + 1)]


def chosen(count, all_of_them):
    """Which allocations of so many are refused."""
    if all_of_them or count <= FIRST + SPREAD:
        return list(range(1, count + 1))
    return [*range(1, FIRST + 1), *spread(FIRST, count, SPREAD)]


class Runs:
    """Runs of one program in one folder."""

    # whether all allocations from the refused one on are refused, too
    lasting = False

    def __init__(self, library, program, folder, seconds=600):
        self.library, self.program, self.folder, self.seconds = library, program, folder, seconds

    def run(self, words, at):
        """What was said of allocations, the status, and what came out on the two outputs."""
        with tempfile.TemporaryFile() as told:
            def report():
                os.dup2(told.fileno(), 9)
            env = {**os.environ, "LD_PRELOAD": self.library, "REFUSE_AT": str(at), **({"REFUSE_ALL": "1"} if self.lasting else {})}
            given = {"cwd": self.folder, "env": env, "preexec_fn": report, "pass_fds": [9]}
            try:
                ran = subprocess.run([self.program, *words], **given, capture_output=True, timeout=self.seconds)
            except subprocess.TimeoutExpired:
                raise Wrong(f"{self.program} {' '.join(words)}, growth {at}: it didn't end in {self.seconds} s") from None
            told.seek(0)
            said = told.read()
        return said, ran.returncode, ran.stdout.decode(errors="replace"), ran.stderr.decode(errors="replace")

    def whole(self, words):
        """How many allocations a run without a refusal has, the status, and what came out."""
        count, *wanted = self.run(words, 0)
        if wanted[0] not in (0, 1) or not any(count):
            raise Wrong(f"{' '.join(words)} fails without a refusal, or meets no growth: {wanted}")
        return int.from_bytes(count, "little"), wanted

    def go_over(self, words, judge, all_of_them):
        """Refuses one allocation after another. How many were, of how many the answer was the one without a refusal, and how many there are."""
        count, wanted = self.whole(words)
        refused = same = 0
        for at in [*chosen(count, all_of_them), *range(count + 1, count + MORE)]:
            met, *found = self.run(words, at)
            if found != wanted and met:
                judge(at, *found)
            elif found != wanted:
                raise Wrong(f"growth {at} was not met, but the answer is another: {found}")
            if met:
                refused += 1
                same += found == wanted
            elif at > count:
                return refused, same, at - 1
        raise Wrong(f"{' '.join(words)} meets more than {count + MORE} growths")


def lines_of(path):
    with open(path, "rb") as file:
        return max(len(file.read().splitlines()), 1)


COMMANDS = [
    ["check", "two_calls.history", "two_calls.orders"],
    ["explain", "two_calls.history", "two_calls_refused.orders"],
    ["explain", "new_then_old.history"],
    ["decide", "skipped_write_back.history"],
    ["decide", "new_then_old.history", "--json"],
    ["monitor", "two_calls.history"],
    ["monitor", "new_then_old.history", "--json"],
    ["monitor", "skipped_write_back.history", "--all"],
    ["draw", "two_calls.history", "two_calls_refused.orders"],
    ["draw", "new_then_old.history"],
    ["draw", "--by", "values", "skipped_write_back.history"],
    ["draw", "--whole", "two_calls.history", "two_calls_refused.orders"],
    ["draw", "--whole", "--by", "values", "new_then_old.history"],
    ["justify", "new_then_old.history"],
    ["justify", "--by", "values", "new_then_old.history"],
    ["simulate", "new_then_old.script"],
    ["trace", "new_then_old.script"],
    ["trace", "new_then_old.script", "--draw"],
]


def commands(library, top):
    """The commands that read files."""
    folder = f"{top}/examples"
    runs = Runs(library, f"{top}/crates/abd/out/abd", folder, 10)

    def is_beginning(words, out):
        """Whether the command writes what it finds before it ends, and that is a beginning of its answer."""
        return words[0] == "monitor" and runs.run(words, 0)[2].startswith(out)

    for words in COMMANDS:
        # each file that was named, and its lines, as the refused growth came later and later
        named = {}

        def judge(at, status, out, errors):
            found = re.fullmatch(r"abd: (?:(\S+): line (\d+): (?:fault 14|script fault 8) memory|no memory)\n", errors)
            if status != 4 or not found or out and not is_beginning(words, out):
                raise Wrong(f"abd {' '.join(words)}, growth {at}: status {status}, {out!r}, {errors!r}")
            if found[1]:
                if found[1] not in words or not 1 <= int(found[2]) <= lines_of(f"{folder}/{found[1]}") + 1:
                    raise Wrong(f"abd {' '.join(words)}, growth {at}: no such line: {errors!r}")
                lines = named.setdefault(found[1], [])
                lines.append(int(found[2]))
                if lines != sorted(lines) or list(named)[-1] != found[1]:
                    raise Wrong(f"abd {' '.join(words)}, growth {at}: a later growth names an earlier line: {errors!r}")

        count, same, _ = runs.go_over(words, judge, True)
        for file, lines in named.items():
            if lines[0] != 1:
                raise Wrong(f"abd {' '.join(words)}: the first line of {file} that is named is {lines[0]}")
        where = ", ".join(f"{file} {sorted(set(lines))}" for file, lines in named.items())
        print(f"abd {' '.join(words)}: {count} growths, the right answer all the same at {same} of them, else status 4; lines named: {where}", flush=True)


# Loads for abd run: one caller, and two callers in two halls while parcels are lost and doubled.
LOADS = [
    ["run", "--callers", "1", "--calls", "2", "--keys", "1"],
    ["run", "--callers", "2", "--calls", "3", "--halls", "2", "--drop", "5", "--double", "7"],
]
# While no allocation succeeds any more: 1 and 16 callers, 1 and 8 halls, 3 and 15 replicas.
LASTING_LOADS = [
    ["run", "--callers", callers, "--calls", "2", "--halls", halls, "--replicas", replicas]
    for callers in ("1", "16")
    for halls in ("1", "8")
    for replicas in ("3", "15")
]
CALL_REFUSED = r"abd: caller \d+: call refused (?:1 Unavailable|5 Memory)"
RUN_FAILED = r"abd: (?:no memory|no thread|close refused 2 Memory)"


def is_atomic(abd, history):
    """Whether justify makes orders of the history, on which check says yes."""
    with tempfile.TemporaryDirectory() as place:
        with open(f"{place}/h", "w", encoding="utf-8") as file:
            file.write(history)
        justified = subprocess.run([abd, "justify", "h"], cwd=place, capture_output=True)
        with open(f"{place}/o", "wb") as file:
            file.write(justified.stdout)
        checked = subprocess.run([abd, "check", "h", "o"], cwd=place, capture_output=True, text=True)
    return justified.returncode == 0 and checked.returncode == 0 and all(line.endswith(": yes") for line in checked.stdout.splitlines())


def loads(library, top):
    """Runs of a store under a load."""
    abd = os.path.abspath(f"{top}/crates/abd/out/abd")
    runs = Runs(library, abd, top, 10)
    for words in LASTING_LOADS if Runs.lasting else LOADS:
        ends = {"written whole": 0, "written, calls refused": 0, "not written": 0}
        met, at = True, 0
        while met:
            at += 1
            met, status, out, errors = runs.run(words, at)
            said = errors.splitlines()
            if status == 4 and not out and said and re.fullmatch(RUN_FAILED, said[-1]):
                end = "not written"
                said.pop()
            elif status == 0 and is_atomic(abd, out):
                end = "written, calls refused" if said else "written whole"
            else:
                raise Wrong(f"abd {' '.join(words)}, growth {at}: status {status}, {out!r}, {errors!r}")
            if any(not re.fullmatch(CALL_REFUSED, line) for line in said) or not met and end != "written whole":
                raise Wrong(f"abd {' '.join(words)}, growth {at}: status {status}, {out!r}, {errors!r}")
            ends[end] += bool(met)
        print(f"abd {' '.join(words)}: {at - 1} growths; {', '.join(f'{end} {count}' for end, count in ends.items())}", flush=True)


def store(library, top):
    """The program that runs a store."""
    runs = Runs(library, os.path.abspath(f"{top}/crates/store_example/out/store_example"), top, 10)
    met, at, good = True, 0, 0
    while met:
        at += 1
        met, status, out, errors = runs.run([], at)
        lines = out.splitlines()
        if status not in (0, 1) or errors or any(not line.endswith(": yes") for line in lines[1:]) or not met and status:
            raise Wrong(f"store_example, growth {at}: status {status}, {out!r}, {errors!r}")
        good += status == 0
    print(f"store_example: {at - (not met)} growths; it ended well at {good - (not met)} of them", flush=True)


def rows(library, top, name):
    """The rows of a row program, each alone."""
    folder = f"{top}/crates/{name}"
    total = equal = left = 0
    with open(f"{folder}/args", encoding="utf-8") as file:
        files = [data for data in file.read().split() if data not in LEFT_OUT]
    for data in files:
        with open(f"{folder}/data/{data}", encoding="utf-8") as file:
            blocks = file.read().split("\n### ")[1:]
        for block in blocks:
            with tempfile.TemporaryDirectory() as place:
                # a row that reads a file of data/ finds it
                for it in os.listdir(f"{folder}/data"):
                    os.symlink(os.path.abspath(f"{folder}/data/{it}"), f"{place}/{it}")
                with open(f"{place}/one.row", "w", encoding="utf-8") as file:
                    file.write(f"# one row\n\n### {block}")
                runs = Runs(library, os.path.abspath(f"{folder}/out/{name}"), place)
                wanted = runs.run(["one.row"], 0)[2].splitlines()

                def judge(at, status, out, errors):
                    lines = out.splitlines()
                    other = next((k for k, line in enumerate(lines) if wanted[k : k + 1] != [line]), len(lines))
                    told = lines[other : other + 4]
                    wants = not told or re.search(WANT, "\n".join(told))
                    if status == 0 or not wants:
                        raise Wrong(f"{name}, {data}, {block.splitlines()[0]!r}, growth {at}: status {status}, {out!r}, {errors!r}")

                refused, same, count = runs.go_over(["one.row"], judge, False)
                total, equal, left = total + refused, equal + same, left + (refused < count)
    print(f"{name}: {total} growths of its rows, each row alone; as expected all the same at {equal} of them, else memory is named; {left} rows have more", flush=True)


def hostile_run(runs, at, wanted):
    """One run of the rows of hostile gates. How many rows came out otherwise."""
    _, status, out, errors = runs.run([], at)
    lines = out.splitlines()
    others = sum(line != expected for line, expected in zip(lines, wanted))
    few = not runs.is_lasting and (len(lines) != len(wanted) or others > 1)
    if status or errors or few:
        raise Wrong(f"test_store, growth {at}: status {status}, {out!r}, {errors!r}")
    return others


def hostile_rows(library, top):
    """The rows of hostile gates, seats and stores, most of which wait for threads: so many runs at once."""
    runs = Runs(library, os.path.abspath(f"{top}/crates/test_store/out/test_store"), top, 60)
    runs.is_lasting = Runs.lasting
    count, (_, out, _) = runs.whole([])
    places = list(range(1, count + 1)) if Runs.lasting else spread(0, count, SPREAD)
    with concurrent.futures.ProcessPoolExecutor(AT_ONCE) as pool:
        others = pool.map(hostile_run, *zip(*[(runs, at, out.splitlines()) for at in places]), chunksize=8)
        same = sum(found == 0 for found in others)
    print(f"test_store: {len(places)} of {count} growths; each run ended, and every row came out as expected at {same} of them", flush=True)


def tests(library, top, crate):
    """The tests of a crate of which it is said what a refused allocation leaves."""
    runs = Runs(library, f"{top}/crates/{crate}/out/{crate}_tests", top)
    listed = subprocess.run([runs.program, "--list"], capture_output=True, text=True).stdout
    names = [name for name in re.findall(r"^(\S+): test$", listed, re.M) if TESTS[crate] in name]
    if not names:
        raise Wrong(f"{crate}: it has no such test")
    for name in names:

        def judge(at, status, out, errors):
            if not re.search(r"(?i)error: \"?(memory|no memory|allocfailed)", out + errors):
                raise Wrong(f"{name}, growth {at}: status {status}, {out!r}, {errors!r}")

        refused, same, count = runs.go_over([name], judge, True)
        print(f"{name}: {refused} of {count} growths; at {same} of them all was as it was, and the rest are the test's own", flush=True)


def main():
    library, top, *names = sys.argv[1:]
    if names[:1] == ["all"]:
        Runs.lasting = True
        names = names[1:] or ["abd", "store_example", "test_store"]
    bad = False
    for name in names or ["abd", *ROWS, "store_example", "test_store", *TESTS]:
        place = os.environ.get("REFUSED_CALLS", top) if name == "refused_calls" else top
        program = f"{place}/crates/{name}/out/{name}{'_tests' if name in TESTS else ''}"
        if not os.path.isfile(program):
            print(f"{name} is not built")
            bad = True
            continue
        try:
            if name == "abd":
                commands(library, top)
                loads(library, top)
            elif name == "store_example":
                store(library, top)
            elif name == "test_store":
                hostile_rows(library, top)
            elif name in ROWS:
                rows(library, top, name)
            else:
                tests(library, place, name)
        except Wrong as it:
            print(it)
            bad = True
    sys.exit(bad)


if __name__ == "__main__":
    main()
