"""What the recorder refuses, and four threads that call a map with one lock: python3 recorder_test.py > run.history

One call in twenty gets no answer: it may have taken effect, and its thread goes on as a new client.
"""

import io
import random
import sys
import threading
from concurrent.futures import ThreadPoolExecutor

from recorder import CALLS, Names, Recorder

lock = threading.Lock()
pairs = {}


def refused(call, words):
    """A call that should be refused with these words."""
    try:
        call()
    except ValueError as error:
        assert str(error) == words, f"{error}, not {words}"
    else:
        raise AssertionError(f"not refused: {words}")


def refusals():
    """Each refusal, at the call that makes it; nothing is written then."""
    file = io.StringIO()
    log = Recorder(file)
    read = log.invoke_read(7, "x")
    write = log.invoke_write(65_535, "Aa0._-", "é" * 128)
    log.note(write, 1_000_001, 65_535)
    written = file.getvalue()
    refused(lambda: log.invoke_read(0, "x"), "client 0 should be a number from 1 to 65,535")
    refused(lambda: log.invoke_read(65_536, "x"), "client 65536 should be a number from 1 to 65,535")
    refused(lambda: log.invoke_read("1", "x"), "client '1' should be a number from 1 to 65,535")
    refused(lambda: log.invoke_read(7, "x"), "client 7 has call 0 pending: after a call without an answer take a new client")
    refused(lambda: log.invoke_read(1, "user:17"), "key 'user:17' should be 1 to 64 letters, digits, '.', '_' or '-'")
    refused(lambda: log.invoke_read(1, ""), "key '' should be 1 to 64 letters, digits, '.', '_' or '-'")
    refused(lambda: log.invoke_read(1, "x\n"), "key 'x\\n' should be 1 to 64 letters, digits, '.', '_' or '-'")
    refused(lambda: log.invoke_read(1, "x" * 65), f"key '{'x' * 65}' should be 1 to 64 letters, digits, '.', '_' or '-'")
    refused(lambda: log.invoke_write(1, "x", "é" * 128 + "e"), "a value has 257 bytes, and should have at most 256")
    refused(lambda: log.invoke_write(1, "x", 17), "value 17 should be a text, a str")
    refused(lambda: log.invoke_write(1, "x", "\ud800"), "value '\\ud800' has no UTF-8")
    refused(lambda: log.respond_read(read, b"a"), "value b'a' should be a text, a str")
    refused(lambda: log.respond_write(read), "call 0 is a read, not a write")
    refused(lambda: log.respond_read(write, None), "call 1 is a write, not a read")
    refused(lambda: log.respond_write(2), "call 2 isn't pending")
    refused(lambda: log.note(write, 1, 1), "call 1 has a note")
    refused(lambda: log.note(read, -1, 1), "number -1 should be a number from 0 to 9,223,372,036,854,775,807")
    refused(lambda: log.note(read, 1, 65_536), "writer 65536 should be a number from 0 to 65,535")
    refused(log.new_client, "client 65536 should be a number from 1 to 65,535")
    log._calls = CALLS
    refused(lambda: log.invoke_read(1, "x"), "a history has at most 1,000,000 calls")
    assert file.getvalue() == written
    log.respond_read(read, None)
    refused(lambda: log.respond_read(read, None), "call 0 isn't pending")


def names():
    """The same name for the same key, and lines that say which."""
    keys = Names("k")
    assert [keys.of(it) for it in ("user:17", 4, "user:17")] == ["k0", "k1", "k0"]
    assert keys.lines() == ["k0 user:17", "k1 4"]


def calls_of(recorder, number):
    """A thread's calls, each value once."""
    client = recorder.new_client()
    for turn in range(100):
        key, is_answered = random.choice(("x", "y")), random.random() < 0.95
        if random.random() < 0.5:
            write(recorder, client, key, f'"{number}"\t\\{turn} é', is_answered)
        else:
            read(recorder, client, key, is_answered)
        if not is_answered:
            client = recorder.new_client()


def write(recorder, client, key, value, is_answered):
    call = recorder.invoke_write(client, key, value)
    if is_answered or random.random() < 0.5:
        with lock:
            tag = (pairs.get(key, ((0, 0), None))[0][0] + 1, client)
            recorder.note(call, *tag)
            pairs[key] = (tag, value)
    if is_answered:
        recorder.respond_write(call)


def read(recorder, client, key, is_answered):
    call = recorder.invoke_read(client, key)
    with lock:
        tag, value = pairs.get(key, ((0, 0), None))
    recorder.note(call, *tag)
    if is_answered:
        recorder.respond_read(call, value)


def main():
    refusals()
    names()
    sys.stdout.reconfigure(encoding="utf-8")
    recorder = Recorder(sys.stdout)
    with ThreadPoolExecutor(4) as threads:
        list(threads.map(lambda number: calls_of(recorder, number), range(1, 5)))


main()
