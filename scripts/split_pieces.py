"""split_pieces.py ABD [COUNT]

Draws COUNT (60) histories with several keys, clients, notes and pending calls, and compares what `abd split` makes of each with plain Python:
each key stands in one piece, its rows in their order, calls are numbered anew, and `line` is the line in the history; `abd decide`,
`abd monitor` and `abd check` say of each key of a piece what they say of it in the whole. Of a faulty history nothing is left; a folder that
isn't empty stays as it was; a piece that can't be opened, written or renamed is named, and nothing is left; a command that is killed leaves
no piece with its own name. Ends with status 1 where they differ.
"""

import json
import os
import pty
import random
import re
import resource
import signal
import subprocess
import sys
import tempfile
import time

HEADER = '{"abd":"history","version":1}'
VALUES = ("a", "b", "c", 'a "quoted" one', "two\nlines", "back\\slash", "é 履歴 😀", "", "7")


def draw(chance):
    """The rows of a history: clients that call several keys, some of them with notes, of which some calls never end."""
    rows, pending, seen = [], {}, {}
    keys = [f"key-{number}" for number in range(chance.randint(1, 9))]
    clients = chance.sample(range(1, 65536), chance.randint(1, 5))
    calls = 0
    for _ in range(chance.randint(0, 90)):
        client = chance.choice(clients)
        if client not in pending:
            row = {"row": "invoke", "call": calls, "client": client, "key": chance.choice(keys), "do": chance.choice(("read", "write"))}
            if row["do"] == "write":
                row["value"] = chance.choice(VALUES)
            rows.append(row)
            pending[client] = row, set()
            calls += 1
            continue
        row, noted = pending[client]
        if not noted and chance.random() < 0.3:
            rows.append({"row": "note", "call": row["call"], "number": chance.randint(1, 9), "writer": chance.choice(clients)})
            noted.add(1)
        elif chance.random() < 0.9:
            answer = {"row": "respond", "call": row["call"]}
            if row["do"] == "read":
                answer["value"] = seen.get(row["key"]) if chance.random() < 0.9 else chance.choice(VALUES)
            else:
                seen[row["key"]] = row["value"]
            rows.append(answer)
            del pending[client]
    return rows


def text_of(rows, chance):
    """The lines of the rows; the members of some in another order, with blanks, and with one that nobody knows."""
    lines = [HEADER]
    for row in rows:
        members = list(row.items())
        if chance.random() < 0.2:
            members.append(("at", 3))
            chance.shuffle(members)
        lines.append(json.dumps(dict(members), separators=chance.choice(((",", ":"), (", ", ": "))), ensure_ascii=chance.random() < 0.5))
    return "".join(f"{line}\n" for line in lines)


def pieces_of(rows, parts):
    """The rows of each piece, as the documents say: keys are dealt in turn as they are first seen."""
    keys, moved, counts, pieces = [], {}, [0] * parts, [[] for _ in range(parts)]
    for place, row in enumerate(rows):
        if row["row"] == "invoke":
            if row["key"] not in keys:
                keys.append(row["key"])
            piece = keys.index(row["key"]) % parts
            moved[row["call"]] = piece, counts[piece]
            counts[piece] += 1
        piece, call = moved[row["call"]]
        pieces[piece].append({**row, "call": call, "line": place + 2})
    return pieces


def names_of(parts):
    """The names of the pieces' files."""
    return [f"piece-{number:0{len(str(parts))}}.history" for number in range(1, parts + 1)]


def split(abd, words, source=None, **options):
    """What comes of `abd split`: its status, and what standard error has; standard output has nothing."""
    ran = subprocess.run([abd, "split", *words], input=source, capture_output=True, check=False, **options)
    return ran.returncode, ran.stderr.decode() + ran.stdout.decode()


def files_in(folder):
    """The names in the folder, in order; None if there is no such folder."""
    return sorted(os.listdir(folder)) if os.path.isdir(folder) else None


def run(abd, words):
    """What the program prints, line by line, and its status."""
    ran = subprocess.run([abd, *words], capture_output=True, check=False)
    return ran.stdout.decode().splitlines(), ran.returncode


def judged(abd, words, file, lines, numbers):
    """What `decide` or `monitor` says of each key, with numbers of calls and lines as in the whole history."""
    found = {}
    for text in run(abd, [*words, "--json", file])[0]:
        said = json.loads(text)
        if "key" in said:
            said["calls"] = [numbers[call] for call in said.get("calls", [])]
            if "line" in said:
                said["line"] = lines[said["line"]]
            found.setdefault(said.pop("key"), []).append(said)
    return found


def checked(abd, file, place):
    """What `check` says of each key, by the orders that the values make."""
    with open(f"{place}/orders", "wb") as orders:
        subprocess.run([abd, "justify", "--by", "values", "--unchecked", file], stdout=orders, stderr=subprocess.DEVNULL, check=False)
    lines, status = run(abd, ["check", file, f"{place}/orders"])
    return {line.split(":")[0]: line.split(":")[1][:4] for line in lines}, status


def verdicts_differ(abd, whole, rows, pieces, folder, place, is_checked):
    """Which command says of a key of a piece what it doesn't say of it in the whole."""
    same_lines, same_calls = {line: line for line in range(len(rows) + 2)}, {row["call"]: row["call"] for row in rows}
    for words in (["decide"], ["monitor", "--all"]):
        wanted, found = judged(abd, words, whole, same_lines, same_calls), {}
        for piece, name in zip(pieces, names_of(len(pieces))):
            lines = {at: row["line"] for at, row in enumerate(piece, 2)}
            numbers = {row["call"]: rows[row["line"] - 2]["call"] for row in piece}
            said = judged(abd, words, f"{folder}/{name}", lines, numbers)
            if said.keys() & found.keys():
                yield f"{words}: keys {said.keys() & found.keys()} stand in two pieces"
            found.update(said)
        if found != wanted:
            yield f"{words}: {found} and not {wanted}"
    if is_checked:
        wanted, found = checked(abd, whole, place)[0], {}
        for name in names_of(len(pieces)):
            said, status = checked(abd, f"{folder}/{name}", place)
            found.update(said)
            if status not in (0, 1):
                yield f"check of {name}: status {status}"
        if found != wanted:
            yield f"check: {found} and not {wanted}"


def pieces_differ(abd, seed, place):
    """What `abd split` makes of a drawn history otherwise than plain Python."""
    chance = random.Random(seed)
    rows, parts = draw(chance), chance.choice((1, 2, 3, 4, 7, 12))
    text, whole, folder = text_of(rows, chance).encode(), f"{place}/whole.history", f"{place}/pieces{seed}"
    with open(whole, "wb") as file:
        file.write(text)
    if chance.random() < 0.5:
        os.mkdir(folder)
    words = ["--parts", str(parts), "--into", folder + chance.choice(("", "/"))]
    ran = split(abd, words, text) if chance.random() < 0.5 else split(abd, [whole, *words])
    if ran != (0, ""):
        yield f"{ran}"
        return
    names, pieces = names_of(parts), pieces_of(rows, parts)
    if files_in(folder) != sorted(names):
        yield f"{files_in(folder)} and not {names}"
        return
    for name, piece in zip(names, pieces):
        with open(f"{folder}/{name}", encoding="utf-8") as file:
            lines = file.read().split("\n")
        if lines[0] != HEADER or lines.pop() != "":
            yield f"{name} begins or ends otherwise"
        if [json.loads(line) for line in lines[1:]] != piece:
            yield f"{name}: {lines[1:]} and not {piece}"
        if any(list(row) != sorted(row) for row in map(json.loads, lines)):
            yield f"{name}: members in another order"
    yield from verdicts_differ(abd, whole, rows, pieces, folder, place, seed < 12)


def wanted(name, found, should):
    """That something isn't as it should be."""
    if found != should:
        yield f"{name}: {found!r} and not {should!r}"


GOOD = "".join(
    f'{{"call":{call},"client":1,"do":"write","key":"k{call % 9}","row":"invoke","value":"{call}"}}\n{{"call":{call},"row":"respond"}}\n'
    for call in range(4_000)
)
PARTS = ["--parts", "3", "--into"]
TOLD = re.compile(
    r"(\rabd: \d+ calls on \d+ keys, \d+ calls a second\x1b\[K)*\rabd: 4001 calls on 10 keys, \d+ calls a second\x1b\[K"
    r"(\r\x1b\[K)+abd: 4001 calls on 10 keys in 3 pieces\r\n"
)


def faults_left(abd, place):
    """What a faulty history leaves in a folder that was there, or wasn't."""
    text = HEADER + "\n" + GOOD + "{\n"
    with open(f"{place}/faulty.history", "w", encoding="utf-8") as file:
        file.write(text)
    for source, name in ((None, f"{place}/faulty.history"), (text.encode(), "standard input")):
        words = [] if source else [name]
        said = (3, f"abd: {name}: line 8002: fault 1 not JSON\n")
        yield from wanted("a faulty history", split(abd, [*words, *PARTS, f"{place}/new"], source), said)
        yield from wanted("a folder that was made for it", files_in(f"{place}/new"), None)
        os.makedirs(f"{place}/old", exist_ok=True)
        yield from wanted("a faulty history", split(abd, [*words, *PARTS, f"{place}/old"], source), said)
        yield from wanted("a folder that was there", files_in(f"{place}/old"), [])


def filled_left(abd, place):
    """What becomes of a folder that isn't empty."""
    folder, name = f"{place}/filled", "piece-1.history"
    os.mkdir(folder)
    with open(f"{folder}/{name}", "w", encoding="utf-8") as file:
        file.write("kept")
    ran = split(abd, [*PARTS, folder], (HEADER + "\n" + GOOD).encode())
    yield from wanted("a folder that isn't empty", ran, (3, f"abd: {folder}: isn't empty\n"))
    with open(f"{folder}/{name}", encoding="utf-8") as file:
        yield from wanted("its file", (files_in(folder), file.read()), ([name], "kept"))


def limited(kind, limit):
    """Options with which a process has that limit, and an error where a file grows beyond it."""
    return {"preexec_fn": lambda: resource.setrlimit(kind, (limit, limit)), "restore_signals": False}


def piece_in(ran):
    """The name of the piece that standard error names."""
    return "piece-" + ran[1].partition("/piece-")[2].partition(".part")[0]


def refused_left(abd, place):
    """What is said and left where the system opens no more files, or writes no more of one."""
    folder, text = f"{place}/refused", (HEADER + "\n" + GOOD).encode()
    ran = split(abd, ["--parts", "100", "--into", folder], text, **limited(resource.RLIMIT_NOFILE, 40))
    said = f"abd: {folder}/{piece_in(ran)}.part: cannot open: Too many open files (os error 24)\n"
    yield from wanted("too many files", ran, (4, said))
    yield from wanted("too many files: a folder", files_in(folder), None)
    ran = split(abd, [*PARTS, folder], text, **limited(resource.RLIMIT_FSIZE, 40_000))
    said = f"abd: output failed\nabd: {folder}/{piece_in(ran)}.part: cannot write: File too large (os error 27)\n"
    yield from wanted("a file that is too large", ran, (4, said))
    yield from wanted("a file that is too large: a folder", files_in(folder), None)


def begun(abd, folder, errors=subprocess.PIPE):
    """`abd split` that has read half of a history, once its files are there."""
    process = subprocess.Popen([abd, "split", *PARTS, folder], stdin=subprocess.PIPE, stderr=errors)
    process.stdin.write((HEADER + "\n" + GOOD).encode())
    process.stdin.flush()
    while len(files_in(folder) or []) < 3 and process.poll() is None:
        time.sleep(0.01)
    return process


def unnamed_left(abd, place):
    """What is said and left where a piece can't get its name, and where the command is killed."""
    folder = f"{place}/unnamed"
    process = begun(abd, folder)
    os.mkdir(f"{folder}/piece-2.history")
    said = process.communicate()[1].decode()
    yield from wanted("a name that is taken", said, f"abd: {folder}/piece-2.history.part: cannot rename: Is a directory (os error 21)\n")
    yield from wanted("a name that is taken: status", process.returncode, 4)
    yield from wanted("a name that is taken: a folder", files_in(folder), ["piece-2.history"])
    folder = f"{place}/killed"
    process = begun(abd, folder)
    process.send_signal(signal.SIGKILL)
    process.communicate()
    yield from wanted("a command that is killed", files_in(folder), [f"{name}.part" for name in names_of(3)])


def terminal_said(abd, place):
    """What a terminal is told."""
    shown, terminal = pty.openpty()
    process = begun(abd, f"{place}/shown", terminal)
    time.sleep(1.1)
    process.stdin.write(b'{"call":4000,"client":7,"do":"read","key":"z","row":"invoke"}\n')
    process.stdin.close()
    process.wait()
    os.close(terminal)
    said = b""
    try:
        while block := os.read(shown, 65_536):
            said += block
    except OSError:
        pass
    os.close(shown)
    if not TOLD.fullmatch(said.decode()):
        yield f"a terminal is told {said!r}"


def main():
    abd, count = os.path.abspath(sys.argv[1]), int(sys.argv[2]) if len(sys.argv) > 2 else 60
    with tempfile.TemporaryDirectory() as place:
        for seed in range(count):
            found = list(pieces_differ(abd, seed, place))
            if found:
                sys.exit(f"seed {seed}: " + "\n".join(found))
        found = [wrong for left in (faults_left, filled_left, refused_left, unnamed_left, terminal_said) for wrong in left(abd, place)]
        if found:
            sys.exit("\n".join(found))
    print(f"{count} histories: their pieces are those of plain Python, and say the same of each key")


if __name__ == "__main__":
    main()
