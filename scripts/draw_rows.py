"""draw_rows.py ABD

Goes over the worked rows of pages, crates/abd/rows/pages: runs `abd draw` or `abd trace --draw` with the words of each, on its files, and
compares the status, what the page says and shows, and what is said on standard error, with what the row expects. What the program says
below the line of a fault is left out where the row leaves it out.

A last page has room for the calls of two keys, 20,000 in all, and not for the one call of a third.
"""

import difflib
import glob
import os
import re
import subprocess
import sys
import tempfile
from concurrent.futures import ThreadPoolExecutor
from typing import NamedTuple

from page_elements import Wrong, expect
from page_lines import KINDS, say_page

ROWS = os.path.join(os.path.dirname(os.path.abspath(__file__)), "..", "crates", "abd", "rows", "pages")
SECONDS = 120  # that a command has
NOT_DRAWN = "Keys that are not drawn (--most says how many are, up to 20,000 calls on a page; --key draws one)"


class Row(NamedTuple):
    """What a row shows, what is said of its page, the words of the command, its files by name, and what is expected."""

    title: str
    kind: str
    words: list
    files: dict
    wanted: str


def orders_of(line):
    """The lines of orders for which a line stands: `<2 keys a [7]>` for those of `a0` and `a1`."""
    found = re.fullmatch(r"<(\d+) keys (\S+) (\S+)>", line)
    if not found:
        return line + "\n"
    count, name, order = found.groups()
    return "".join(f'{{"key":"{name}{number}","order":{order}}}\n' for number in range(int(count)))


def files_of(command, lines):
    """The files of a row, by name: a script, or a history and, after a line `orders:`, orders."""
    divider = lines.index("orders:") if "orders:" in lines else len(lines)
    files = {"s" if command == "trace" else "h": "".join(line + "\n" for line in lines[:divider])}
    if divider < len(lines):
        files["o"] = "".join(map(orders_of, lines[divider + 1 :]))
    return files


def read_row(block):
    """The row of a block: lines with its title, its kind and its words, those of its files, a line `---`, and what is expected."""
    title, asked, *lines = block.split("\n")
    expect("---" in lines, "a row without a line ---:", title)
    kind, *words = asked.split(" ")
    expect(kind in KINDS, "kind", kind, "of the row:", title)
    divider = lines.index("---")
    return Row(title, kind, words, files_of(words[0], lines[:divider]), "\n".join(lines[divider + 1 :]))


def rows_of(path):
    """The rows of a file."""
    with open(path, encoding="utf-8", newline="") as file:
        blocks = file.read().split("\n### ")[1:]
    expect(blocks, "no rows in", path)
    return [read_row(block) for block in blocks]


def full_page():
    """A row of more calls than a page shows."""
    calls = "".join(
        f'{{"call":{call},"client":1,"do":"read","key":"{key}","row":"invoke"}}\n'
        f'{{"call":{call},"number":0,"row":"note","writer":0}}\n{{"call":{call},"row":"respond","value":null}}\n'
        for call, key in enumerate(["a"] * 10000 + ["b"] * 10000 + ["c"])
    )
    wanted = [
        "status 0",
        "sum: Keys refused: 0 of 3",
        "yes | a: yes | #key-0 | 10000 | 1 | 0 | 1",
        "yes | b: yes | #key-1 | 10000 | 1 | 0 | 1",
        "yes | c: yes | 1 | 1 | 0 | 1",
        f"rest: {NOT_DRAWN}: 1, refused ones among them: 0",
        "heading 2: a: yes",
        "shown: Calls shown: 0 to 9999 (10000 of 10000)",
        "heading 2: b: yes",
        "shown: Calls shown: 10000 to 19999 (10000 of 10000)",
    ]
    files = {"h": '{"abd":"history","version":1}\n' + calls}
    return Row("a full page", "keys", ["draw", "h", "--calls", "10000"], files, "".join(line + "\n" for line in wanted))


def run(abd, row):
    """Runs the row's command on its files. The status, and what went to standard output and to standard error."""
    with tempfile.TemporaryDirectory() as place:
        for name, text in row.files.items():
            with open(os.path.join(place, name), "w", encoding="utf-8", newline="") as file:
                file.write(text)
        ran = subprocess.run([abd, *row.words], cwd=place, capture_output=True, timeout=SECONDS)
    return ran.returncode, ran.stdout.decode(), ran.stderr.decode()


def without_explanations(errors):
    """The lines of standard error, but for those below the line of a fault, which begin with two blanks."""
    return re.sub("^  .*\n", "", errors, flags=re.M)


def difference(abd, row):
    """How what comes of the row differs from what it expects; nothing if it doesn't."""
    try:
        status, page, errors = run(abd, row)
        said = f"status {status}{say_page(page, row.kind) if page else ''}\n"
    except (Wrong, UnicodeDecodeError, subprocess.TimeoutExpired) as fault:
        return f"{row.title}: its page can't be read: {fault}"
    briefly = said + without_explanations(errors)
    if row.wanted in (briefly, said + errors):
        return ""
    lines = difflib.unified_diff(row.wanted.split("\n"), briefly.split("\n"), "expected", "found", lineterm="")
    return "\n".join([f"{row.title}:", *lines])


def main():
    abd = os.path.abspath(sys.argv[1])
    rows = [row for path in sorted(glob.glob(os.path.join(ROWS, "*.rows"))) for row in rows_of(path)]
    expect(rows, "no rows in", ROWS)
    with ThreadPoolExecutor(os.cpu_count()) as pool:
        differences = list(filter(None, pool.map(lambda row: difference(abd, row), [*rows, full_page()])))
    print("\n".join([*differences, f"{len(rows)} rows and a full page, {len(differences)} otherwise"]))
    sys.exit(len(differences) > 0)


if __name__ == "__main__":
    try:
        main()
    except Wrong as wrong:
        sys.exit(f"the rows can't be read: {wrong}")
