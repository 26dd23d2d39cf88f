"""command_rows.py ABD

Goes over the worked rows of crates/abd/rows: runs the program as each says, and compares its status and what it prints, to the letter, with
what the row expects. The head of each file says what its rows ask for; devices that give little, take little or fail are made by
rows/devices.c, which cc or clang compiles. Prints the rows of which something else comes; the status is 1 then, and also if there is no
row, or one that asks for what there isn't.
"""

import os
import sys
import tempfile
from concurrent.futures import ThreadPoolExecutor

from rows.commands import say_history, say_orders, say_scripts, say_seeds
from rows.faults import say_history_why, say_orders_why, say_script_why
from rows.monitors import say_monitored
from rows.program import Program, compiled
from rows.row import Wrong, rows_in
from rows.runs import say_loads, say_rooms, say_runs

FOLDER = os.path.join(os.path.dirname(os.path.abspath(__file__)), "..", "crates", "abd", "rows")
# Of each kind of row what comes of it, and the options that it may have.
KINDS = {
    "simulate": (say_scripts, {"fails", "each-room", "each-messages"}),
    "trace": (say_scripts, {"most", "fails", "each-room", "each-messages"}),
    "justify": (say_history, {"values", "unchecked", "people", "fails", "each-room", "each-messages"}),
    "decide": (say_history, {"keys", "most", "json", "fails", "each-room", "each-messages"}),
    "explain-tags": (say_history, {"key", "most", "fails", "each-room", "each-messages"}),
    "explain": (say_orders, {"key", "most", "fails", "each-room", "each-messages"}),
    "check": (say_orders, {"json", "workers", "pieces", "fails", "each-room", "each-messages"}),
    "seeds": (say_seeds, {"first", "last"}),
    "monitor": (say_monitored, {"all", "give-up", "json", "each", "fails", "room"}),
    "why-history": (say_history_why, {"cut"}),
    "why-orders": (say_orders_why, {"cut"}),
    "why-script": (say_script_why, set()),
    "run": (say_runs, set()),
    "load": (say_loads, set()),
    "rooms": (say_rooms, set()),
}


def found_of(program, row):
    """What comes of the row."""
    say, options = KINDS.get(row.kind, (None, set()))
    if say is None or not options.issuperset(row.options):
        raise Wrong(f"{row.title}: there is no such row: {row.kind} {' '.join(row.options)}")
    with tempfile.TemporaryDirectory() as place:
        return say(program, place, row)


def is_expected(program, row):
    """Whether what the row expects comes of it; prints what comes of it if not."""
    try:
        found = found_of(program, row)
    except Exception as failure:
        found = f"{type(failure).__name__}: {failure}\n"
    if found != row.wanted:
        print(f"{row.title}:\n{found}--- and not\n{row.wanted}")
    return found == row.wanted


def main():
    abd = os.path.abspath(sys.argv[1])
    rows = rows_in(FOLDER)
    with tempfile.TemporaryDirectory() as place, ThreadPoolExecutor(os.cpu_count()) as pool:
        program = Program(abd, compiled(place))
        bad = list(pool.map(lambda row: is_expected(program, row), rows)).count(False)
    print(f"{len(rows)} rows, {bad} otherwise")
    sys.exit(bad != 0 or not rows)


if __name__ == "__main__":
    main()
