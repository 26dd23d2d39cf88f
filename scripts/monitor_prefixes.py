"""monitor_prefixes.py ABD [COUNT]

Draws COUNT (300) small histories, with values that are written again, and compares what `abd monitor` says of each with a search over all
lists of calls, prefix by prefix: the line that it names is the first at which no list is an order any more; where it says nothing of a key,
each prefix has one; the calls that it names are those of the history; and `abd decide` of the lines so far says the same, where it decides.
Ends with status 1 where they differ.
"""

import json
import random
import re
import subprocess
import sys
import tempfile

HEADER = '{"abd":"history","version":1}'
CALL = re.compile(
    r'  call (\d+), client (\d+), (?:writes "(?P<written>\w+)" to (?P<to>\w+)|reads (?P<of>\w+) and answers (?P<answer>null|"\w+"))'
    r" \(began at line (?P<began>\d+), not noted, (?:answered at line (?P<answered>\d+)|not answered)\)"
)


def draw(chance):
    """The rows of a history: calls of a few clients on a store that now and then answers what is old."""
    rows, pending, past = [], {}, {}
    clients, values, keys = chance.randint(2, 4), chance.randint(2, 6), chance.choice((1, 1, 2))
    calls = 0
    for _ in range(chance.randint(4, 22)):
        client = chance.randint(1, clients)
        if client in pending:
            call, key, written = pending.pop(client)
            if written is not None:
                past.setdefault(key, []).append(written)
                rows.append({"call": call, "row": "respond"})
            else:
                seen = past.get(key, []) + [it[2] for it in pending.values() if it[1] == key and it[2] is not None]
                row = {"call": call, "row": "respond", "value": None}
                if seen and chance.random() < 0.9:
                    row["value"] = seen[-1] if chance.random() < 0.7 else chance.choice(seen)
                rows.append(row)
        elif calls < 9:
            key = f"k{chance.randint(1, keys)}"
            written = f"v{chance.randint(1, values)}" if chance.random() < 0.5 else None
            row = {"call": calls, "client": client, "do": "read" if written is None else "write", "key": key, "row": "invoke"}
            if written is not None:
                row["value"] = written
            rows.append(row)
            pending[client] = (calls, key, written)
            calls += 1
    return rows


def calls_of(rows, key):
    """The calls on the key: number, whether it writes, its value, where it began and was answered."""
    calls = {}
    for place, row in enumerate(rows):
        if row["row"] == "invoke" and row["key"] == key:
            calls[row["call"]] = [row["do"] == "write", row.get("value"), place, None, row["client"]]
        elif row["row"] == "respond" and row["call"] in calls:
            call = calls[row["call"]]
            call[3] = place
            if not call[0]:
                call[1] = row.get("value")
    return calls


def has_order(calls):
    """Whether some list of the calls, with all that were answered and any pending writes, is an order of them."""
    chosen = [it for it in calls.values() if it[0] or it[3] is not None]
    needed = sum(1 << at for at, it in enumerate(chosen) if it[3] is not None)
    seen, left = set(), [(0, None)]
    while left:
        done, value = left.pop()
        if done & needed == needed:
            return True
        if (done, value) in seen:
            continue
        seen.add((done, value))
        first_end = min(it[3] for at, it in enumerate(chosen) if not done >> at & 1 and it[3] is not None)
        for at, it in enumerate(chosen):
            if not done >> at & 1 and it[2] < first_end and (it[0] or it[1] == value):
                left.append((done | 1 << at, it[1] if it[0] else value))
    return False


def first_without(rows, key):
    """The line of the first row after which the key's calls have no order; None if each prefix has one."""
    for count in range(1, len(rows) + 1):
        row = rows[count - 1]
        if row["row"] == "respond" and not has_order(calls_of(rows[:count], key)):
            return count + 1
    return None


def run(abd, words, lines):
    """What the command says of the lines, and its status."""
    done = subprocess.run([abd, *words], input="".join(f"{it}\n" for it in lines), capture_output=True, text=True, check=False)
    return done.stdout, done.returncode


def named_calls_are_so(text, rows):
    """Whether each call that the text tells is one of the history, as far as it was answered by then."""
    for line in text.splitlines():
        if line.startswith("  call ") and ", client " in line:
            told = CALL.fullmatch(line)
            if told is None:
                return False
            call, client = int(told[1]), int(told[2])
            key = told["to"] or told["of"]
            write, value, began, answered, by = calls_of(rows, key).get(call, [None] * 5)
            answer = "null" if value is None else f'"{value}"'
            if by != client or began + 2 != int(told["began"]) or write != (told["to"] is not None):
                return False
            if told["written"] not in (None, value) or told["answer"] not in (None, answer):
                return False
            if (told["answered"] and int(told["answered"])) != (answered and answered + 2):
                return False
    return True


def differences(abd, rows):
    """What `abd monitor --all` says of the rows, compared with the search, key by key."""
    lines = [HEADER] + [json.dumps(it, separators=(",", ":")) for it in rows]
    text, status = run(abd, ["monitor", "--all"], lines)
    objects = [json.loads(it) for it in run(abd, ["monitor", "--all", "--json"], lines)[0].splitlines()]
    refused = {it["key"]: it for it in objects if it.get("verdict") == "not atomic" and "key" in it}
    doubtful = {it["key"] for it in objects if it.get("verdict") == "undecided" and "key" in it}
    keys = {it["key"] for it in rows if it["row"] == "invoke"}
    if status != (1 if refused else 5 if doubtful else 0):
        yield f"status {status}"
    if not named_calls_are_so(text, rows):
        yield f"a call that the history hasn't got:\n{text}"
    for key in sorted(keys):
        first = first_without(rows, key)
        if key in refused:
            line = refused[key]["line"]
            if line != first:
                yield f"{key}: refused from line {line} on, and the search says {first}"
            decided = json.loads(run(abd, ["decide", "--json", "--key", key, "/dev/stdin"], lines[:line])[0].splitlines()[0])
            fault = refused[key]["fault"]
            if decided["verdict"] == "atomic" or decided.get("fault", fault) not in ((1, 4, 5) if fault == 1 else (fault,)):
                yield f"{key}: fault {fault}, and decide says {decided}"
        elif key not in doubtful and first is not None:
            yield f"{key}: not refused, and the search says {first}"
    first = min((it["line"] for it in refused.values()), default=None)
    alone, status = run(abd, ["monitor"], lines)
    if first is not None and (status != 1 or f"  from line {first} on" not in alone):
        yield f"without --all status {status}:\n{alone}"


def main():
    abd, count = sys.argv[1], int(sys.argv[2]) if len(sys.argv) > 2 else 300
    tally = {}
    for seed in range(count):
        rows = draw(random.Random(seed))
        found = list(differences(abd, rows))
        if found:
            with tempfile.NamedTemporaryFile("w", suffix=".history", delete=False) as file:
                file.write("".join(f"{it}\n" for it in [HEADER] + [json.dumps(it, separators=(",", ":")) for it in rows]))
            print(f"seed {seed} ({file.name}): " + "; ".join(found))
            sys.exit(1)
        state = "no order" if any(first_without(rows, key) for key in {it["key"] for it in rows if it["row"] == "invoke"}) else "an order"
        tally[state] = tally.get(state, 0) + 1
    print(f"{count} histories: the first line without an order is the one that is named; {tally}")


if __name__ == "__main__":
    main()
