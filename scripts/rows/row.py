"""Worked rows: what a row shows, what it asks for, its lines, and what is expected."""

import glob
from dataclasses import dataclass


class Wrong(Exception):
    """A row that can't be understood."""


@dataclass(frozen=True)
class Row:
    """A row. Its options are a table from name to value, which is empty where the option has none."""

    title: str
    kind: str
    options: dict
    lines: str
    wanted: str

    def has(self, option):
        return option in self.options

    def numbers(self, option, otherwise):
        """The numbers that the option has, or those."""
        return [int(number) for number in self.options[option].split(",")] if self.has(option) else otherwise


def options_of(words):
    """The table of options."""
    options = {name: value for name, _, value in (word.partition("=") for word in words)}
    if len(options) != len(words):
        raise Wrong(f"an option twice: {' '.join(words)}")
    return options


def row_of(block):
    """The row of a block: lines with its title, with what it asks for, its own, a line `---`, and those that are expected."""
    title, asked, rest = block.split("\n", 2)
    above, _, wanted = ("\n" + rest).partition("\n---\n")
    if not wanted:
        raise Wrong(f"{title}: nothing is expected of it")
    kind, *words = asked.split(" ")
    return Row(title, kind, options_of(words), above[1:] + "\n" if above else "", wanted)


def rows_in(folder):
    """The rows of all files of the folder."""
    rows = []
    for path in sorted(glob.glob(f"{folder}/*.rows")):
        with open(path, encoding="utf-8", newline="") as file:
            _, *blocks = file.read().split("\n### ")
        if not blocks:
            raise Wrong(f"{path}: it has no row")
        rows += map(row_of, blocks)
    return rows


def lines_of(text):
    """The lines of a text, each of which has an end there."""
    return text.split("\n")[:-1]
