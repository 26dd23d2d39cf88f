"""Brings the numbers of tags into the range that `abd` reads, by rank: python3 rank_tags.py big.history > run.history

Each number of a note becomes its place among all numbers of notes, from 1; 0 stays 0. What was equal stays equal, and what was greater
stays greater, so each key's verdict is the same. Numbers may be of any size: revisions, times, offsets of a log.
"""

import json
import sys


def rows_of(lines):
    """The rows of a history file, header first."""
    rows = [json.loads(line) for line in lines]
    for place, row in enumerate(rows, 1):
        if row.get("row") == "note" and (type(row.get("number")) is not int or row["number"] < 0):
            raise ValueError(f"line {place}: the number of a note should be a whole number from 0")
    return rows


def rank(rows):
    """The same rows, with ranks in the place of numbers."""
    notes = [row for row in rows if row.get("row") == "note"]
    places = {number: place for place, number in enumerate(sorted({row["number"] for row in notes} | {0}))}
    for row in notes:
        row["number"] = places[row["number"]]
    return rows


def main():
    if len(sys.argv) != 2:
        sys.exit(__doc__)
    with open(sys.argv[1], encoding="utf-8") as file:
        rows = rank(rows_of(file))
    for row in rows:
        print(json.dumps(row, ensure_ascii=False, separators=(",", ":")))


if __name__ == "__main__":
    main()
