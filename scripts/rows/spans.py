"""Answers to numbers that follow one another, and what a command does with each room for what it writes."""

import itertools

from rows.program import WELL, Devices


def spans_of(numbers, answer):
    """What is answered to each of the numbers, a line for each span with one answer."""
    lines = []
    for text, span in itertools.groupby(((number, answer(number)) for number in numbers), key=lambda found: found[1]):
        span = [number for number, _ in span]
        lines.append(f"{span[0]} to {span[-1]}: {text}\n")
    return "".join(lines)


def extent_of(found, whole, room):
    """How much went out of what goes out where there is room for all, or else what went out, with semicolons between its lines."""
    if not found and whole:
        return "nothing"
    if found == whole:
        return "all"
    if room is not None and found == whole[:room]:
        return "what there is room for"
    return "; ".join(found.decode("utf-8").rstrip().split("\n"))


def rooms_of(run, narrow):
    """What comes of the command with each room of that output, from none to that of all that it writes."""
    whole = run(WELL)

    def answer(room):
        said = run(Devices(room=room, narrow=narrow))
        rooms = {"out": None, "errors": None, narrow: room}
        out, errors = extent_of(said.out, whole.out, rooms["out"]), extent_of(said.errors, whole.errors, rooms["errors"])
        return f"status {said.status}, standard output: {out}, standard error: {errors}"

    return spans_of(range(len(getattr(whole, narrow)) + 1), answer)
