"""Rows of `abd monitor`: the command on a row's file, in pieces of several sizes."""

from rows.commands import words_of, write
from rows.notation import bytes_of
from rows.program import Devices, Said, outputs_of, text_of
from rows.row import lines_of

# The sizes of pieces in which a file is read once more.
SIZES = [2, 3, 7, 65_535, 65_536]


def ended(said):
    """The status, and what goes to both outputs."""
    return f"status {said.status}\n{outputs_of(said)}"


def devices_of(row, size):
    """The devices of the row, with pieces of that size."""
    return Devices(pieces=size, fails="h" if row.has("fails") else None, room=row.numbers("room", [None])[0])


def monitored(program, place, row, size):
    """What comes of the command on the file, in pieces of that size."""
    return program.run(place, ["monitor", *words_of(row), "h"], devices_of(row, size))


def left_of(program, place, row):
    """What comes of the command on the file as its standard input, read a byte at a time, and what isn't read of it."""
    with open(f"{place}/h", "rb", buffering=0) as file:
        said = program.run(place, ["monitor", *words_of(row)], devices_of(row, 1), stdin=file)
        return Said(said.status, said.out, said.errors.replace(b"abd: standard input: ", b"abd: h: ")), file.read()


def say_file(program, place, row, content):
    """What comes of a file read a byte at a time, and what isn't read of it; and read otherwise, if it is something else."""
    write(place, "h", content)
    said, left = left_of(program, place, row)
    found = ended(said) + (f"not read:\n{text_of(left)}" if left else "")
    for size in [1, *SIZES]:
        other = monitored(program, place, row, size)
        if other != said:
            found += f"OTHERWISE IN PIECES OF {size}:\n{ended(other)}"
    return found


def say_monitored(program, place, row):
    """The row's lines are a file, or with `each` each of them is one."""
    if row.has("each"):
        return "".join(say_file(program, place, row, bytes_of(line + "\n")) for line in lines_of(row.lines))
    return say_file(program, place, row, bytes_of(row.lines))
