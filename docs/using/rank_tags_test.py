"""The ranks of big numbers, and the same orders by them: python3 rank_tags_test.py ABD"""

import io
import json
import subprocess
import sys

from rank_tags import rank, rows_of
from recorder import Recorder

NUMBERS = {1: 1_731_234_567_890_123, 2: 1_731_234_567_890_124, 3: 9_223_372_036_854_775_807}


def recorded(numbers):
    """Three writes and reads of them, the last write pending, and a read of an absent key, with these numbers for 1, 2 and 3."""
    file = io.StringIO()
    log = Recorder(file)
    reader = log.new_client()
    for place, number in numbers.items():
        write = log.invoke_write(log.new_client(), "x", str(place))
        log.note(write, number, place)
        if place < 3:
            log.respond_write(write)
        read = log.invoke_read(reader, "x")
        log.note(read, number, place)
        log.respond_read(read, str(place))
    read = log.invoke_read(reader, "y")
    log.note(read, 0, 0)
    log.respond_read(read, None)
    return file.getvalue()


def justified(abd, history):
    """The orders that the tags make."""
    return subprocess.run([abd, "justify", "/dev/stdin"], input=history, capture_output=True, text=True)


def main():
    ranked = "".join(json.dumps(row) + "\n" for row in rank(rows_of(recorded(NUMBERS).splitlines())))
    small = recorded({place: place for place in NUMBERS})
    assert [json.loads(line) for line in ranked.splitlines()] == [json.loads(line) for line in small.splitlines()]
    assert justified(sys.argv[1], ranked).stdout.splitlines()[1:] == ['{"key":"x","order":[0,1,2,3,4,5]}', '{"key":"y","order":[6]}']
    assert "fault 5 range" in justified(sys.argv[1], recorded(NUMBERS)).stderr
    try:
        rows_of(['{"row":"note","call":0,"number":1.5,"writer":0}'])
    except ValueError as fault:
        assert str(fault) == "line 1: the number of a note should be a whole number from 0"


main()
