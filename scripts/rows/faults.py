"""Rows of faults of files, and why: what `abd explain` says of them."""

import re

from rows.commands import write
from rows.notation import HEADERS


def file_of(row):
    """The bytes of the row's file: with `cut` its last line has no end."""
    return (row.lines.rstrip() if row.has("cut") else row.lines).encode()


def is_refused(said):
    """Whether the command ended as one does whose file is faulty."""
    return said.status == 3 and not said.out


def explained(program, place, words, content):
    """What `abd explain` says of the file, by its name and through a pipe."""
    write(place, "f", content)
    for name, given in (("f", {}), ("/dev/stdin", {"input": content})):
        said = program.run(place, ["explain", *words, name], **given)
        yield said.errors.decode("utf-8").replace(f"abd: {name}: ", "", 1) if is_refused(said) else f"{said}\n"


def agreed(texts):
    """The text that all of them are, or all of them."""
    first, *others = texts
    return first if all(other == first for other in others) else "".join([first, *others])


def say_history_why(program, place, row):
    """The first fault of a history file, and why it is one."""
    return agreed(explained(program, place, [], file_of(row)))


def say_orders_why(program, place, row):
    """The first fault of an order file, and why it is one."""
    write(place, "h", HEADERS["<history>"])
    return agreed(explained(program, place, ["h"], file_of(row)))


def say_script_why(program, place, row):
    """The first fault of a script, as `abd simulate` says it, and why it is one, as `abd explain` says it of a script that is given to it
    as a history."""
    texts = [re.sub(r"\Aline 1: fault \d+ .*\n  as a script: ", "", text) for text in explained(program, place, [], file_of(row))]
    found = agreed(texts)
    said = program.run(place, ["simulate", "f"])
    first = f"abd: f: {found.partition(chr(10))[0]}\n"
    return found if is_refused(said) and said.errors.decode("utf-8") == first else f"{found}{said}\n"
