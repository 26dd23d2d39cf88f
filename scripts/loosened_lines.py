"""loosened_lines.py ABD [TIMES [WRITE_SPEED]]

Random histories of 10,000 rows, as `abd` writes them and in loosened form: members in another order, blanks, escapes in half of the lines,
members that mean nothing, members that come twice, of which the last counts. `abd justify` has to make the same orders of both, and
`abd check` to say the same of them. With the built program `write_speed` (benchmarks/build_programs.sh), which writes the history that it
reads, both also have to be written as the first.
"""

import json
import os
import random
import subprocess
import sys
import tempfile

HERE = os.path.dirname(os.path.abspath(__file__))


def text_of(draw, text, share):
    """The text as a JSON string, of whose letters that share is escaped."""
    return '"' + "".join(f"\\u{ord(letter):04x}" if draw.random() < share else json.dumps(letter)[1:-1] for letter in text) + '"'


def loosened(draw, line):
    """The line's value in another form."""
    members = list(json.loads(line).items())
    if draw.random() < 0.3:
        members.append(("more", draw.choice([[1, {"call": 2}], 12345678901234567890, -1, 0.5, None, True, "x", ""])))
    draw.shuffle(members)
    if draw.random() < 0.2:
        at = draw.randrange(len(members))
        members.insert(draw.randint(0, at), (members[at][0], draw.choice([0, 7, None, "other", [1]])))
    share = draw.choice([0, 0.2])
    blank = lambda: draw.choice(["", " ", "\t", "  ", "\r"])
    value = lambda it: text_of(draw, it, share) if isinstance(it, str) else json.dumps(it)
    inside = ",".join(f"{blank()}{text_of(draw, name, share)}{blank()}:{blank()}{value(it)}{blank()}" for name, it in members)
    return f"{blank()}{{{inside}}}{blank()}{draw.choice(['', chr(13)])}"


def said(abd, *words):
    ran = subprocess.run([abd, *words], capture_output=True)
    return ran.returncode, ran.stdout, ran.stderr


def is_written(writer, name):
    """Whether the history of that file is written as the file `written` has it."""
    with open("written", "rb") as file:
        return subprocess.run([writer, name], capture_output=True).stdout == file.read()


def main():
    abd = os.path.abspath(sys.argv[1])
    times = int(sys.argv[2]) if len(sys.argv) > 2 else 10
    writer = os.path.abspath(sys.argv[3]) if len(sys.argv) > 3 else None
    bad = 0
    with tempfile.TemporaryDirectory() as place:
        os.chdir(place)
        for seed in range(1, times + 1):
            draw = random.Random(seed)
            subprocess.run([sys.executable, f"{HERE}/../benchmarks/big_history.py", "--calls", "3334", "--keys", "7", "--clients", "9",
                            "--seed", str(seed), "--history", "written", "--orders", "orders"], check=True)
            for name in ("written", "orders"):
                with open(name, encoding="utf-8") as file:
                    lines = file.read().splitlines()
                with open(f"{name}.loose", "w", encoding="utf-8", newline="\n") as file:
                    file.write("".join((loosened(draw, line) if draw.random() < 0.9 else line) + "\n" for line in lines))
            justified = said(abd, "justify", "written") == said(abd, "justify", "written.loose")
            checked = {said(abd, "check", history, orders) for history in ("written", "written.loose") for orders in ("orders", "orders.loose")}
            equal = writer is None or all(is_written(writer, name) for name in ("written", "written.loose"))
            bad += not (equal and justified and len(checked) == 1 and next(iter(checked))[0] == 0)
    print(f"{times} histories, {bad} of them answered otherwise in loosened form")
    sys.exit(bad > 0)


if __name__ == "__main__":
    main()
