"""What jepsen_to_abd.py makes of histories: python3 jepsen_test.py"""

import io
import json

from jepsen_to_abd import EdnFault, convert

HEADER = {"abd": "history", "version": 1}


def op(kind, process, does, value, extra=""):
    return f"{{:type {kind}, :process {process}, :f {does}, :value {value}{extra}}}\n"


def invoke(call, client, does, value=None, key="register"):
    row = {"call": call, "client": client, "do": does, "key": key, "row": "invoke"}
    return row if value is None else {**row, "value": value}


def answer(call, *value):
    row = {"call": call, "row": "respond"}
    return {**row, "value": value[0]} if value else row


WRITTEN = op(":invoke", 0, ":write", 1) + op(":ok", 0, ":write", 1)
MAKES = [
    ("a write and a read of it",
     WRITTEN + op(":invoke", 7, ":read", "nil") + op(":ok", 7, ":read", 1), None,
     [invoke(0, 1, "write", "1"), answer(0), invoke(1, 2, "read"), answer(1, "1")], []),
    ("a read that finds nothing",
     op(":invoke", 0, ":read", "nil") + op(":ok", 0, ":read", "nil"), None, [invoke(0, 1, "read"), answer(0, None)], []),
    ("calls that fail go, and the others are numbered without them",
     op(":invoke", 0, ":write", 1) + op(":invoke", 1, ":write", 2) + op(":fail", 0, ":write", 1) + op(":ok", 1, ":write", 2)
     + op(":invoke", 0, ":read", "nil") + op(":fail", 0, ":read", "nil") + op(":invoke", 0, ":write", 3), None,
     [invoke(0, 1, "write", "2"), answer(0), invoke(1, 2, "write", "3")], ["Calls that failed, and went: 2"]),
    ("after :info a call is pending, and its process another client, whether its number is new or not",
     op(":invoke", 0, ":write", 1) + op(":info", 0, ":write", 1, ', :error "timeout"') + op(":invoke", 0, ":read", "nil")
     + op(":ok", 0, ":read", 1), None,
     [invoke(0, 1, "write", "1"), invoke(1, 2, "read"), answer(1, "1")], []),
    ("the nemesis, comments, commas, tags, discarded items, and a vector around all",
     "; a run\n[" + op(":info", ":nemesis", ":kill", '["n1"]') + "#jepsen.history.Op" + WRITTEN.replace("\n", ",", 1)
     + "#_ {:a #_ #_ 1 2}]", None, [invoke(0, 1, "write", "1"), answer(0)], []),
    ("keys of their own", op(":invoke", 0, ":write", "[3 1]") + op(":invoke", 1, ":read", "[:x nil]") + op(":ok", 1, ":read", "[:x nil]")
     + op(":invoke", 1, ":read", "[3 nil]") + op(":ok", 1, ":read", "[3 1]"), None,
     [invoke(0, 1, "write", "1", "3"), invoke(1, 2, "read", key="x"), answer(1, None), invoke(2, 2, "read", key="3"), answer(2, "1")], []),
    ("no text for two keys or values, and none that a history refuses",
     op(":invoke", 0, ":write", "[3 1]") + op(":invoke", 1, ":write", '["3" "1"]') + op(":invoke", 2, ":write", '["a b" "x y"]'), None,
     [invoke(0, 1, "write", "1", "3"), invoke(1, 2, "write", "value-0", "key-0"), invoke(2, 3, "write", "x y", "key-1")],
     ['key "3" is key-0 in the history', 'key "a b" is key-1 in the history', 'value "1" is value-0 in the history']),
    ("what keys hold at the start", op(":invoke", 0, ":read", "nil") + op(":ok", 0, ":read", 0), "0",
     [invoke(0, 1, "write", "0"), answer(0), invoke(1, 2, "read"), answer(1, "0")], []),
    ("a value that is written twice", WRITTEN + WRITTEN, None,
     [invoke(0, 1, "write", "1"), answer(0), invoke(1, 1, "write", "1"), answer(1)],
     ["Writes whose value another write of their key has, too: 2. So abd decide may say `undecided`. Let the generator count:\n"
      "  (let [last (atom 0)] (fn [_ _] {:type :invoke, :f :write, :value (swap! last inc)}))"]),
    ("the same value of two keys", op(":invoke", 0, ":write", "[3 1]") + op(":invoke", 1, ":write", "[4 1]"), None,
     [invoke(0, 1, "write", "1", "3"), invoke(1, 2, "write", "1", "4")], []),
]
REFUSES = [
    (WRITTEN + op(":invoke", 0, ":cas", "[1 2]"), "line 3: a compare-and-set reads and writes at once, which no call of a register does: "
     "leave :cas out of the test's generator"),
    (op(":invoke", 0, ":txn", "[[:r 1 nil]]"), "line 1: :txn is no call of a register: :read and :write are"),
    (op(":invoke", 0, ":write", "nil"),
     "line 1: nil is what a read of an absent key answers, so nothing can write it: write another value"),
    (op(":invoke", 0, ":read", "nil") * 2, "line 2: process 0 begins a call before its last one has ended"),
    (op(":ok", 0, ":read", "nil"), "line 1: process 0 ends a call that it hasn't begun"),
    (op(":invoke", 0, ":write", "[3 1]") + op(":invoke", 1, ":write", "2"),
     "line 2: the first value is a pair of a key and a value, and this one isn't: 2"),
    ("{:type :invoke", "line 1: the end where } should be"),
    ("[{:type :ok]}", "line 1: ] where } should be"),
    ("[]]", "line 1: ] where the end should be"),
    ('{:type "a', 'line 1: no EDN: "a'),
    ("{:a 1}", "no operation, since it lacks :process or :type: {:a 1}"),
]


def main():
    for what, edn, initial, rows, words in MAKES:
        file = io.StringIO()
        told = convert(edn, file, initial)
        made = [json.loads(line) for line in file.getvalue().splitlines()]
        assert made == [HEADER, *rows], f"{what}: {made}"
        assert told == words, f"{what}: {told}"
    for edn, words in REFUSES:
        try:
            convert(edn, io.StringIO())
        except EdnFault as fault:
            assert str(fault) == words, f"{fault}, not {words}"
        else:
            raise AssertionError(f"not refused: {words}")


main()
