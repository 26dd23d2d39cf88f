"""Rows of `abd run`: what goes out, and what comes of it in `justify` and `check`."""

import json

from rows.commands import write
from rows.monitors import ended
from rows.program import Devices, text_of
from rows.row import lines_of
from rows.spans import extent_of, spans_of


def say_runs(program, place, row):
    """Each line is a run: all that it says."""
    return "".join(ended(program.run(place, line.split(" "))) for line in lines_of(row.lines))


def reads_own_writes(rows):
    """Whether each read of `k0` by client 1 gave what it wrote there last, and there is such a read."""
    pending, written, found = None, None, False
    for it in rows:
        if it["row"] == "invoke" and it["client"] == 1 and it["key"] == "k0":
            pending, written = it["call"], it.get("value", written)
        elif it["row"] == "respond" and it["call"] == pending and "value" in it and written is not None:
            if it["value"] != written:
                return False
            found = True
    return found


def counted(history):
    """How many halls and calls the history has, and whether caller 1 reads its own writes."""
    header, *rows = [json.loads(line) for line in history.splitlines()]
    halls = header.get("halls", 1)
    calls = sum(it["row"] == "invoke" for it in rows)
    own = any(reads_own_writes([it for it in rows if it.get("hall", 0) == hall]) for hall in range(halls))
    return f"{halls} halls, {calls} calls, caller 1 reads {'its own writes' if own else 'no write of its own'}"


def loaded(program, place, words):
    """What comes of a run, of the justification of its history, and of their check."""
    ran = program.run(place, words)
    write(place, "h", ran.out)
    justified = program.run(place, ["justify", "h"])
    write(place, "o", justified.out)
    checked = program.run(place, ["check", "h", "o"])
    statuses = f"run {ran.status}, justify {justified.status}, check {checked.status}"
    return f"{statuses}, {counted(ran.out)}\n{text_of(checked.out)}{text_of(ran.errors)}"


def say_loads(program, place, row):
    """Each line is a run: what comes of its history."""
    return "".join(loaded(program, place, line.split(" ")) for line in lines_of(row.lines))


def say_rooms(program, place, row):
    """The line is a run with each room for what it writes."""
    words = row.lines.strip().split(" ")
    whole = program.run(place, words).out

    def answer(room):
        said = program.run(place, words, Devices(room=room))
        errors = said.errors.decode("utf-8").rstrip() or "nothing said"
        extent = "what there is room for" if not said.out else extent_of(said.out, whole, room)
        return f"status {said.status}, {extent}, {errors}"

    return spans_of(range(len(whole) + 1), answer)
