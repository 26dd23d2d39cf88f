"""Writes answers for the goals that edits break, so that a refused edit costs the gate no second run.

Where a goal has no written answer and the prover's own search fails, it runs once more to print the proof file that it
would want; nobody reads that in a gate. With an answer `search rules` the same search runs, fails as an error with its
place, and nothing is printed. What is read is what `EDITS_LOG=LOG scripts/edits.sh ..` kept of the edits' checks:

    scripts/answers.py LOG..

Each answer is written into crates/NAME/proofs/../Answers.antt; `rt verdict` in the crate, which proves it from nothing, says
whether the crate is proved with them, and where it isn't, that goal's answer goes again. (`rt check` over kept work called
a crate proved with answers that the gate then refused; why wasn't found.)
"""

import os
import re
import sys

COMMON = "use Rattle.std.proofs.Common.{"


def offers(log):
    """Gives crate, file, the import of its goals, and pairs (goal, the words before its hole) of each offered file."""
    crate, lines = "", open(log, encoding="utf-8").read().split("\n")
    for at, line in enumerate(lines):
        if line.startswith("== "):
            crate = os.path.basename(line)
        found = re.match(r"help: (?:write|add these lines to) \./(proofs/\S+?/Answers\.antt)", line)
        if found:
            text = []
            for it in lines[at + 1 :]:
                if it and not it.startswith("    "):
                    break
                text.append(it[4:])
            goals = [it for it in text if it.endswith(".Goals as goal")]
            holes = [re.match(r"(returns\S*|\S+)((?: \w+)*) = \?$", it) for it in text]
            yield crate, found[1], (goals or [""])[0], [(it[1], it[0][:-4]) for it in holes if it]


def write_answers(crate, file, goals, holes):
    """Adds the answers that the file lacks, and returns their names."""
    path = f"crates/{crate}/{file}"
    text = open(path, encoding="utf-8").read() if os.path.isfile(path) else ""
    new = [(name, head) for name, head in holes if not re.search(rf"^(pub )?{re.escape(name)} :", text, re.M)]
    if not new or not goals or (text and goals not in text):
        return []
    if not text:
        text = f"{COMMON}rules}}\n{goals}\n"
    elif COMMON not in text:
        text = f"{COMMON}rules}}\n{text}"
    elif not re.search(r"Common\.\{[^}]*\brules\b", text):
        text = text.replace(COMMON, f"{COMMON}rules, ")
    for name, head in new:
        text += f"\npub {name} : goal.{name}\n{head} = search rules\n"
    os.makedirs(os.path.dirname(path), exist_ok=True)
    open(path, "w", encoding="utf-8").write(text)
    return [name for name, _ in new]


def main(logs):
    for log in logs:
        for crate, file, goals, holes in offers(log):
            for name in write_answers(crate, file, goals, holes):
                print(f"{crate}/{file}: {name}")


if __name__ == "__main__":
    main(sys.argv[1:])
