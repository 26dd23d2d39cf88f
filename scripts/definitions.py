"""definitions.py [--check]

Run it at the top when a file of crates/*/specs has changed. It writes docs/DEFINITIONS.md from the comments of these files, so that the
prose stands once: a list for each file, crates in the order and groups of crates.txt. With `--check` it writes nothing, and ends with
status 1 if the page is stale.

A definition is an `abbrev`, an `unfoldable` function, a record or a data type; every other item is a lemma. Its sentence is the comment
right above it. One without a comment is named, and stands in the line of the one before it. Comments of a record's fields, or of the cases
of a data type, come below their definition. A file's first comment stands at its head. HEAD and FIRST hold what no comment says.
"""

import os
import re
import sys
import textwrap

PAGE = "docs/DEFINITIONS.md"
WIDTH = 138

HEAD = """# The definitions

What the contracts say rests on these definitions and on nothing else. Each stands in a file of `crates/NAME/specs`, as a relation over
all pairs, all places, all calls; none repeats a loop of the code. The sentences are the comments of these files: `scripts/definitions.py`
writes this page from them. [GLOSSARY](GLOSSARY.md) has the words, [PROOF](PROOF.md) the invariant, and [GUARANTEES](GUARANTEES.md) which
clause cites what.

Places are numbers of rows in a whole history, from 0. A call is *pending* from its invocation until its response, and *completed* from then
on. A definition without a sentence of its own stands beside the one before it.

To read a definition in its file:

| Written | Means |
|---|---|
| `(x : A) → P` | for every `x` of the type `A`, `P` holds |
| `(x : A) × P` | there is an `x` of the type `A` for which `P` holds |
| `P → Q`, `P × Q`, `P ⊎ Q`, `P ↔ Q` | if `P` then `Q`; both; one of them; each if the other |
| `P → ⊥` | not `P` |
| `a ≡ b`, `a ≢ b` | `a` is `b`; `a` isn't `b` |
| `record IsX (..) : Type 0 where` and its fields | all fields hold, or a value with these fields |
| `ℕ`, `List A`, `Option A`, `A × B` | a number; a list; `Some a` or `None`; a pair, its parts `.0` and `.1` |
| `slice_get list i ≡ Some a` | `a` stands at place `i` of the list, from 0 |
| `Contains list a`, `take n list`, `a ∷ list`, `list ++ more` | `a` is in the list; its first `n`; `a` before the list; both lists |
| `old`, `new` | what a function got, and what it left |
"""

# The definitions to read first: what they are about, and each as crate.NAME.
FIRST = (
    ("Tags and records", "tag.Tag tag.IsBelow recorder.IsWellFormed recorder.IsPart recorder.Precedes"),
    ("Orders and tags", "recorder.IsLegal recorder.IsOrder recorder.IsLinearizable recorder.TagSound recorder.IsByTag"
     " store_orders.IsStoreOrder"),
    ("Verdicts", "certificate_check.IsVerdict tag_check.IsTagVerdict parallel_keys.AreVerdictsOnHistory"),
    ("The protocol", "quorum.IsAskQuorum quorum.IsPutQuorum world_steps.System world_steps.Steps world_steps.Sound world_steps.IsSound"),
    ("The running store", "hall_lock.HasOneHall recorder.IsLog seats.IsAnswered node_threads.IsClosed node_threads.Closes"),
    ("Files and commands", "counted_devices.Splits file_format.history_text cli.Ends cli.EndsCheck cli.EndsSimulation run_command.EndsRun"),
)


def read_groups():
    """The groups of crates.txt with their crates, in its order."""
    groups = []
    with open("crates.txt", encoding="utf-8") as file:
        for line in file:
            if line.startswith("#"):
                groups.append((line[1:].strip(), []))
            elif ":" in line:
                groups[-1][1].append(line.split(":")[0].split()[0])
    return groups


def escaped(text):
    """The text, so that Markdown shows it as it is."""
    pieces = re.split(r"(`[^`]*`)", text)
    return "".join(it if it.startswith("`") else re.sub(r"([*_<>|\[\]])", r"\\\1", it) for it in pieces)


def sentence(comment):
    """The comment's lines as a sentence: with a capital and a full stop."""
    text = escaped(" ".join(comment).strip())
    if text and re.match(r"(?!abd\b)[a-z]+\b(?! ?[=:(])", text) and not re.match(r"[a-z]_", text):
        text = text[0].upper() + text[1:]
    return text if not text or text[-1] in ".:;?!" else text + "."


class File:
    """A spec file: what stands at its head, and its definitions: their names, their comment, and the comments of their parts."""

    def __init__(self, path):
        self.path, self.head, self.definitions = path, [], []
        with open(path, encoding="utf-8") as file:
            lines = file.read().split("\n")
        used = next((i for i, it in enumerate(lines) if it.strip() and not it.startswith("--")), len(lines))
        if used < len(lines) and lines[used].startswith("use "):
            self.head = [it[2:].strip() for it in lines[:used] if it.startswith("--")]
            lines = lines[used:]
        self.read(lines)

    def read(self, lines):
        """Reads the lines after the head."""
        comment, margin, inside = [], 0, False
        for line in lines:
            text, indent = line.strip(), len(line) - len(line.lstrip())
            if text.startswith("--"):
                comment = [] if text.startswith("-- ----") else comment + [text[2:].strip()]
                continue
            if text.startswith("module "):
                margin = 2
            if text.startswith("infix"):
                continue
            head = re.match(r"(?:abbrev|unfoldable|(?:pub )?(record|data))(?: pub)? (\S+)|pub use .*\{(.*)\}", text)
            if text and indent <= margin:
                inside = bool(head and head[1])
            if head and indent in (0, margin):
                self.add(head[2] or head[3], comment)
            elif inside and comment and indent > margin:
                self.definitions[-1][2].append(comment)
            comment = []

    def add(self, name, comment):
        """One more definition."""
        if not comment:
            print(f"{self.path}: {name} has no comment")
        if comment or not self.definitions:
            self.definitions.append(([name], comment, []))
        else:
            self.definitions[-1][0].append(name)


def wrapped(text, first, rest):
    """The text in lines, of which the first begins so, and the others so."""
    return textwrap.fill(text, WIDTH, initial_indent=first, subsequent_indent=rest, break_long_words=False, break_on_hyphens=False)


def shown(title, comment, parts):
    """The lines of a definition."""
    told = sentence(comment)
    if parts and told.endswith("."):
        told = told[:-1] + ":"
    yield wrapped(f"{title}: {told}" if told else title, "- ", "  ")
    for part in parts:
        yield wrapped(sentence(part), "  - ", "    ")


def link(file):
    """A link to the file, from docs/."""
    return f"[{os.path.basename(file.path)}](../{file.path})"


def files_of(crate):
    """The crate's spec files that have definitions, by name."""
    folder = f"crates/{crate}/specs"
    names = sorted(os.listdir(folder)) if os.path.isdir(folder) else []
    files = [File(f"{folder}/{it}") for it in names if it.endswith(".antt") and it != "Lib.antt"]
    return [it for it in files if it.definitions]


def first_lines(by_crate):
    """The section of the definitions to read first."""
    yield "## To read first\n"
    for title, wanted in FIRST:
        yield f"{title}:\n"
        for it in wanted.split():
            crate, name = it.split(".")
            found = [(file, one) for file in by_crate.get(crate, []) for one in file.definitions if name in one[0]]
            if len(found) != 1:
                sys.exit(f"definitions: FIRST has {it}, which {len(found)} definitions have as their name")
            file, (_, comment, parts) = found[0]
            yield from shown(f"`{name}` ({link(file)})", comment, parts)
        yield ""


def crate_lines(crate, files):
    """The section of a crate."""
    yield f"## {crate}\n"
    for file in files:
        yield wrapped(f"**{link(file)}** {sentence(file.head)}".strip(), "", "") + "\n"
        for names, comment, parts in file.definitions:
            yield from shown(", ".join(f"`{it}`" for it in names), comment, parts)
        yield ""


def page():
    """The text of the page."""
    groups = [(name, [(crate, files_of(crate)) for crate in crates]) for name, crates in read_groups()]
    groups = [(name, [it for it in crates if it[1]]) for name, crates in groups]
    crates = [it for _, crates in groups for it in crates]
    lines = [HEAD, *first_lines(dict(crates)), "## By crate\n"]
    lines += [wrapped(f"{name}: " + ", ".join(f"[{it}](#{it})" for it, _ in crates), "- ", "  ") for name, crates in groups if crates]
    lines.append("")
    for crate, files in crates:
        lines += crate_lines(crate, files)
    return "\n".join(lines).rstrip("\n") + "\n"


def main():
    if sys.argv[1:] not in ([], ["--check"]):
        sys.exit("usage: scripts/definitions.py [--check]")
    text = page()
    if not sys.argv[1:]:
        with open(PAGE, "w", encoding="utf-8") as file:
            file.write(text)
        return
    with open(PAGE, encoding="utf-8") as file:
        if file.read() != text:
            sys.exit(f"definitions: {PAGE} is stale; run scripts/definitions.py")


if __name__ == "__main__":
    main()
