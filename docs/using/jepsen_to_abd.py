"""Makes a history for `abd` of a Jepsen history of registers: python3 jepsen_to_abd.py history.edn > run.history

Operations have `:f :read` or `:f :write`. They stand one after another or in a vector, as maps or as records (`#jepsen.history.Op{..}`).
What the nemesis does is passed over. If the values are pairs `[key value]`, as those of `jepsen.independent`, each key is a register of its
own; else there is one, of the name `register`.

- A call that ends with `:fail` did nothing, and goes.
- A call that ends with `:info` stays pending. Its process goes on under a new client's name.
- A compare-and-set reads and writes at once, which no call of a register does: `:f :cas` is refused. So is a write of nil.
"""

import argparse
import itertools
import re
import sys
from collections import Counter
from dataclasses import dataclass

from recorder import KEY, VALUE_BYTES, Recorder

TOKEN = re.compile(
    r"""(?: (?:[\s,]|;[^\n]*)+
          | (?P<opening>\#\{|[\[({]) | (?P<closing>[\])}])
          | (?P<text>"(?:\\.|[^"\\])*")
          | (?P<discard>\#_) | (?P<tag>\#[A-Za-z][^\s,()\[\]{}";]*)
          | (?P<atom>[^\s,()\[\]{}";]+) )""", re.X | re.S)
CLOSING = {"[": "]", "(": ")", "{": "}", "#{": "}"}
DISCARD = object()
ADVICE = """\
Writes whose value another write of their key has, too: {}. So abd decide may say `undecided`. Let the generator count:
  (let [last (atom 0)] (fn [_ _] {{:type :invoke, :f :write, :value (swap! last inc)}}))"""


class EdnFault(Exception):
    """Why a text makes no history."""


@dataclass
class Items:
    """What stands between brackets, and the line on which it begins."""

    opening: str
    items: list
    line: int

    def __str__(self):
        return f"{self.opening}{' '.join(map(str, self.items))}{CLOSING[self.opening]}"

    def members(self):
        """A map's members, by key."""
        return dict(zip(map(str, self.items[::2]), self.items[1::2]))


class Reader:
    """Reads a text of EDN. Atoms and texts stay as they are written, and tags are passed over."""

    def __init__(self, text):
        self.text, self.place, self.line = text, 0, 1

    def token(self):
        """The kind of the next token, and the token. At the end there is no kind."""
        while self.place < len(self.text):
            found = TOKEN.match(self.text, self.place)
            if found is None:
                raise EdnFault(f"line {self.line}: no EDN: {self.text[self.place:self.place + 20]}")
            self.place = found.end()
            self.line += found[0].count("\n")
            if found.lastgroup not in (None, "tag"):
                return found.lastgroup, found[0]
        return None, "the end"

    def items(self, closing=None):
        """What stands up to that bracket; without one, up to the end."""
        found = []
        while True:
            kind, token = self.token()
            if kind in (None, "closing"):
                if token != (closing or "the end"):
                    raise EdnFault(f"line {self.line}: {token} where {closing or 'the end'} should be")
                return found
            found.append(DISCARD if kind == "discard" else self.item(kind, token))
            if len(found) > 1 and found[-2] is DISCARD and found[-1] is not DISCARD:
                del found[-2:]

    def item(self, kind, token):
        if kind != "opening":
            return token
        line = self.line
        return Items(token, self.items(CLOSING[token]), line)


@dataclass
class Call:
    """A call of a process. It ends with `:ok`, `:fail` or `:info`, as which one without an end counts."""

    process: str
    does: str
    key: str
    value: str
    end: str = ":info"
    number: int = None


def operations(text):
    """What the processes that are numbers do: members, and the line of each."""
    found = Reader(text).items()
    if len(found) == 1 and isinstance(found[0], Items) and found[0].opening != "{":
        found = found[0].items
    for it in found:
        members = it.members() if isinstance(it, Items) and it.opening == "{" else {}
        if ":process" not in members or ":type" not in members:
            raise EdnFault(f"no operation, since it lacks :process or :type: {str(it)[:60]}")
        if str(members[":process"]).isdecimal():
            yield members, it.line


def events(text):
    """The calls, each as it begins and once more as it ends, with whether it begins there."""
    pending, is_paired = {}, None
    for members, line in operations(text):
        process, kind = members[":process"], members[":type"]
        value = members.get(":value", "nil")
        if kind == ":invoke":
            is_paired = is_pair(value) if is_paired is None else is_paired
            if process in pending:
                raise EdnFault(f"line {line}: process {process} begins a call before its last one has ended")
            pending[process] = Call(process, str(members.get(":f")), *key_and_value(value, is_paired, line))
            require_register(pending[process], line)
            yield pending[process], True
        elif process not in pending:
            raise EdnFault(f"line {line}: process {process} ends a call that it hasn't begun")
        else:
            call = pending.pop(process)
            call.end = kind
            if kind == ":ok" and call.does == ":read":
                call.value = key_and_value(value, is_paired, line)[1]
            yield call, False


def is_pair(value):
    return isinstance(value, Items) and value.opening == "[" and len(value.items) == 2


def key_and_value(value, is_paired, line):
    if not is_paired:
        return "register", str(value)
    if not is_pair(value):
        raise EdnFault(f"line {line}: the first value is a pair of a key and a value, and this one isn't: {value}")
    return str(value.items[0]), str(value.items[1])


def require_register(call, line):
    """Raises an EdnFault if no register has such a call."""
    if call.does == ":cas":
        raise EdnFault(f"line {line}: a compare-and-set reads and writes at once, which no call of a register does: "
                       "leave :cas out of the test's generator")
    if call.does not in (":read", ":write"):
        raise EdnFault(f"line {line}: {call.does} is no call of a register: :read and :write are")
    if call.does == ":write" and call.value == "nil":
        raise EdnFault(f"line {line}: nil is what a read of an absent key answers, so nothing can write it: write another value")


class Texts:
    """The texts of keys or values: what EDN says, without a colon or quotes, if a history takes it, and else one that is made up."""

    def __init__(self, what, is_lawful):
        self.what, self.is_lawful = what, is_lawful
        self.texts, self.taken, self.made_up = {}, set(), []

    def of(self, edn):
        """The text; never one text for two."""
        if edn not in self.texts:
            text = re.sub(r'^:|^"([^\\]*)"$', r"\1", edn)
            if not self.is_lawful(text) or text in self.taken:
                text = self.new_text()
                self.made_up.append(f"{self.what} {edn[:60]} is {text} in the history")
            self.texts[edn] = text
            self.taken.add(text)
        return self.texts[edn]

    def new_text(self):
        return next(it for it in (f"{self.what}-{i}" for i in itertools.count()) if it not in self.taken)


class Conversion:
    """Writes the rows of calls."""

    def __init__(self, file):
        self.recorder = Recorder(file)
        self.keys = Texts("key", KEY.fullmatch)
        self.values = Texts("value", lambda text: len(text.encode()) <= VALUE_BYTES)
        self.clients, self.writes, self.failed = {}, Counter(), 0

    def write_initial(self, keys, value):
        """For each key a write of what it holds at the start."""
        client = self.recorder.new_client()
        for key in keys:
            self.writes[key, value] += 1
            self.recorder.respond_write(self.recorder.invoke_write(client, self.keys.of(key), self.values.of(value)))

    def write_event(self, call, begins):
        if call.end == ":fail":
            self.failed += begins
        elif begins:
            self.invoke(call)
        elif call.end != ":ok":
            del self.clients[call.process]
        elif call.does == ":write":
            self.recorder.respond_write(call.number)
        else:
            self.recorder.respond_read(call.number, None if call.value == "nil" else self.values.of(call.value))

    def invoke(self, call):
        if call.process not in self.clients:
            self.clients[call.process] = self.recorder.new_client()
        client, key = self.clients[call.process], self.keys.of(call.key)
        if call.does == ":read":
            call.number = self.recorder.invoke_read(client, key)
        else:
            self.writes[call.key, call.value] += 1
            call.number = self.recorder.invoke_write(client, key, self.values.of(call.value))

    def words(self):
        """What a reader of the history should know."""
        if self.failed:
            yield f"Calls that failed, and went: {self.failed}"
        yield from self.keys.made_up
        yield from self.values.made_up
        repeated = sum(count for count in self.writes.values() if count > 1)
        if repeated:
            yield ADVICE.format(repeated)


def convert(text, file, initial=None):
    """Writes the history of a text of EDN. What a reader should know of it."""
    found = list(events(text))
    conversion = Conversion(file)
    if initial is not None:
        conversion.write_initial(sorted({call.key for call, _ in found}), initial)
    for call, begins in found:
        conversion.write_event(call, begins)
    return list(conversion.words())


def main():
    parser = argparse.ArgumentParser(description=__doc__, formatter_class=argparse.RawDescriptionHelpFormatter)
    parser.add_argument("history", help="Jepsen's history.edn")
    parser.add_argument("--initial", metavar="VALUE", help="what each key holds at the start; if this is missing, keys are absent")
    words = parser.parse_args()
    try:
        with open(words.history, encoding="utf-8") as file:
            told = convert(file.read(), sys.stdout, words.initial)
    except (EdnFault, OSError, ValueError) as fault:
        sys.exit(f"{words.history}: {fault}")
    print(*told, sep="\n", end="\n" if told else "", file=sys.stderr)


if __name__ == "__main__":
    main()
