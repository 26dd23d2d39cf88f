"""A recorder for a store's test, to copy: it writes a history file for `abd`.

All threads of a run share one recorder. Its lock is the run's one clock: a call precedes another if its response was recorded before the
other's invocation. Each line is flushed, so what was recorded stays if the process dies. What `abd` would refuse is refused here, at the
call that makes it: a ValueError says what is wrong, and nothing is written.
"""

import json
import re
import threading
from dataclasses import dataclass

CALLS, CLIENTS, VALUE_BYTES = 1_000_000, 65_535, 256
KEY = re.compile(r"[A-Za-z0-9._-]{1,64}")


@dataclass
class Pending:
    """A call without a response."""

    client: int
    does: str
    is_noted: bool = False


class Recorder:
    """Writes the rows of a run as they happen."""

    def __init__(self, file):
        self._file = file
        self._lock = threading.Lock()
        self._calls = 0
        self._last_client = 0
        self._pending = {}
        self._busy = {}
        self._write({"abd": "history", "version": 1})

    def new_client(self):
        """A client's name that nobody has: for each thread, and for a thread whose last call got no answer."""
        with self._lock:
            require_number("client", self._last_client + 1, 1, CLIENTS)
            self._last_client += 1
            return self._last_client

    def invoke_read(self, client, key):
        """Record this before the call's first message goes out. The number of the call."""
        return self._invoke({"client": client, "do": "read", "key": key, "row": "invoke"})

    def invoke_write(self, client, key, value):
        """The same for a write of the text `value`."""
        require_value(value)
        return self._invoke({"client": client, "do": "write", "key": key, "row": "invoke", "value": value})

    def note(self, call, number, writer):
        """Only for a store with tags: the tag of a pending call. Numbers above 1,000,000 want rank_tags.py afterwards."""
        require_number("number", number, 0, 2**63 - 1)
        require_number("writer", writer, 0, CLIENTS)
        with self._lock:
            pending = self._find(call)
            if pending.is_noted:
                raise ValueError(f"call {call} has a note")
            pending.is_noted = True
            self._write({"call": call, "number": number, "row": "note", "writer": writer})

    def respond_read(self, call, value):
        """Record this after the answer has come, before the caller is told. `value` is None if the key was absent."""
        if value is not None:
            require_value(value)
        self._respond(call, "read", {"call": call, "row": "respond", "value": value})

    def respond_write(self, call):
        """The same for a write."""
        self._respond(call, "write", {"call": call, "row": "respond"})

    def _invoke(self, row):
        client = row["client"]
        require_number("client", client, 1, CLIENTS)
        require_key(row["key"])
        with self._lock:
            if client in self._busy:
                raise ValueError(f"client {client} has call {self._busy[client]} pending: after a call without an answer take a new client")
            if self._calls == CALLS:
                raise ValueError(f"a history has at most {CALLS:,} calls")
            call = self._calls
            self._write({"call": call, **row})
            self._calls += 1
            self._last_client = max(self._last_client, client)
            self._pending[call] = Pending(client, row["do"])
            self._busy[client] = call
            return call

    def _respond(self, call, does, row):
        with self._lock:
            pending = self._find(call)
            if pending.does != does:
                raise ValueError(f"call {call} is a {pending.does}, not a {does}")
            self._write(row)
            del self._pending[call]
            del self._busy[pending.client]

    def _find(self, call):
        if call not in self._pending:
            raise ValueError(f"call {call} isn't pending")
        return self._pending[call]

    def _write(self, row):
        # members in the byte order of their names and no spaces: `abd` reads such lines fastest
        self._file.write(json.dumps(row, ensure_ascii=False, separators=(",", ":")) + "\n")
        self._file.flush()


class Names:
    """Names for keys or values that no history takes: with `Names("k")`, `of("user:17")` is `k0`, and the same each time."""

    def __init__(self, prefix):
        self._prefix = prefix
        self._lock = threading.Lock()
        self._names = {}

    def of(self, it):
        """The name of a key or a value."""
        with self._lock:
            return self._names.setdefault(it, f"{self._prefix}{len(self._names)}")

    def lines(self):
        """Each name and what it stands for: to print after the run."""
        with self._lock:
            return [f"{name} {it}" for it, name in self._names.items()]


def require_number(what, it, least, most):
    """Raises a ValueError if `it` is no whole number in the range."""
    if type(it) is not int or not least <= it <= most:
        raise ValueError(f"{what} {it!r} should be a number from {least} to {most:,}")


def require_key(key):
    """Raises a ValueError if no history takes the key."""
    if not isinstance(key, str) or not KEY.fullmatch(key):
        raise ValueError(f"key {key!r} should be 1 to 64 letters, digits, '.', '_' or '-'")


def require_value(value):
    """Raises a ValueError if no history takes the value."""
    if not isinstance(value, str):
        raise ValueError(f"value {value!r} should be a text, a str")
    try:
        size = len(value.encode())
    except UnicodeEncodeError:
        raise ValueError(f"value {value!r} has no UTF-8") from None
    if size > VALUE_BYTES:
        raise ValueError(f"a value has {size} bytes, and should have at most {VALUE_BYTES}")
