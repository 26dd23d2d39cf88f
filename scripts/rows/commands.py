"""Rows of commands that read whole files: scripts, histories, and orders."""

import itertools
import re

from rows.notation import bytes_of
from rows.program import Devices, Said, outputs_of
from rows.row import Wrong, lines_of
from rows.spans import rooms_of, spans_of

# The sizes of pieces in which the first file is read, unless the row has others.
SIZES = [1, 7, 1_048_576]
# With each room of which output a command is run.
ROOMS = {"each-room": "out", "each-messages": "errors"}
# Options that a row with rooms doesn't have.
WAYS = {"fails", "people", "pieces", "workers"}
# The words of the command line for an option.
WORDS = {"json": ["--json"], "all": ["--all"], "unchecked": ["--unchecked"], "values": ["--by", "values"]}


def words_of(row):
    """The words of the command line for the row's options."""
    words = []
    for option, value in row.options.items():
        if option in ("key", "most", "give-up"):
            words += ["--" + option, value]
        elif option == "keys":
            words += [word for key in value.split(",") for word in ("--key", key)]
        else:
            words += WORDS.get(option, [])
    return words


def write(place, name, content):
    """Makes the file of that name."""
    with open(f"{place}/{name}", "wb") as file:
        file.write(content)


def said_so(name, said):
    """The command's name and status, and what goes to both outputs."""
    return f"{name}: status {said.status}\n{outputs_of(said)}"


class FileCommand:
    """The row's command on files that stand in a folder."""

    def __init__(self, program, place, row, names):
        self.program, self.place, self.row, self.names = program, place, row, names
        self.command = row.kind.partition("-")[0]

    def run(self, devices, *words):
        """What comes of the command. Why a file has its fault, which two of them say below the fault's line, stands in rows of its own."""
        said = self.program.run(self.place, [self.command, *words_of(self.row), *words, *self.names], devices)
        if self.command not in ("explain", "decide"):
            return said
        return Said(said.status, said.out, re.sub(rb"(?m)^  .*\n", b"", said.errors))

    def ways(self):
        """The devices and further words with which the command is run, of which the same should come."""
        fails = self.names[0] if self.row.has("fails") else None
        workers = [["--workers", str(count)] for count in self.row.numbers("workers", [])] or [[]]
        for size, words in itertools.product(self.row.numbers("pieces", SIZES), workers):
            yield Devices(pieces=size, fails=fails, terminal=self.row.has("people")), words

    def said(self):
        """What comes of the command, and of those that go on with what it wrote."""
        (devices, words), *others = self.ways()
        first = self.run(devices, *words)
        for devices, words in others:
            other = self.run(devices, *words)
            if other != first:
                return f"{said_so(self.row.kind, first)}OTHERWISE {devices} {words}: {said_so(self.row.kind, other)}"
        return said_so(self.row.kind, first) + self.said_on(first)

    def said_on(self, first):
        """What comes of the commands that go on with what it wrote."""
        if self.command == "simulate" and first.status == 0:
            write(self.place, "h", first.out)
            justified = self.program.run(self.place, ["justify", "h"])
            return said_so("justify", justified) + self.checked(justified)
        return self.checked(first) if self.command == "justify" else ""

    def checked(self, justified):
        """What comes of the check of a justification's orders, if it is good; of orders by values also where keys are left out."""
        if justified.status != 0 and not (self.row.has("values") and justified.out):
            return ""
        write(self.place, "o", justified.out)
        return said_so("check", self.program.run(self.place, ["check", "h", "o"]))

    def answer(self):
        """What comes of the row on these files."""
        rooms = [option for option in ROOMS if self.row.has(option)]
        if not rooms:
            return self.said()
        if rooms[1:] or WAYS.intersection(self.row.options):
            raise Wrong(f"{self.row.title}: {rooms[0]} stands beside no other device")
        return rooms_of(self.run, ROOMS[rooms[0]])


def say_scripts(program, place, row):
    """Each line is a script."""
    found = ""
    for line in lines_of(row.lines):
        write(place, "s", bytes_of(line + "\n"))
        found += FileCommand(program, place, row, ["s"]).answer()
    return found


def say_history(program, place, row):
    """The lines are a history."""
    write(place, "h", bytes_of(row.lines))
    return FileCommand(program, place, row, ["h"]).answer()


def say_orders(program, place, row):
    """The lines up to `orders:` are a history, those from each such line on are orders."""
    history, *orders = row.lines.split("orders:\n")
    write(place, "h", bytes_of(history))
    found = ""
    for lines in orders:
        write(place, "o", bytes_of(lines))
        found += FileCommand(program, place, row, ["h", "o"]).answer()
    return found


def statuses_of(program, place, script):
    """The statuses of a simulation, of the justification of its history and of the check of both, and whether there is a key."""
    write(place, "s", bytes_of(script))
    simulated = program.run(place, ["simulate", "s"])
    write(place, "h", simulated.out)
    justified = program.run(place, ["justify", "h"])
    write(place, "o", justified.out)
    checked = program.run(place, ["check", "h", "o"])
    keys = "some keys" if checked.out else "no key"
    return f"simulate {simulated.status}, justify {justified.status}, check {checked.status}, {keys}"


def say_seeds(program, place, row):
    """A script with each seed in place of the word SEED."""
    first, last = row.numbers("first", [1])[0], row.numbers("last", [1])[0]
    seeds = range(first, last + 1)
    return spans_of(seeds, lambda seed: statuses_of(program, place, row.lines.replace("SEED", str(seed), 1)))
