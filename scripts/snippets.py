"""snippets.py [--program | --line]

Compares the code in README.md, docs/USING.md and docs/LIBRARY.md with the files that it is of, so that none says what nobody compiles. What
a block is stands in a comment above it:

- `<!-- excerpt of FILE -->`: each piece, between lines with `..` alone, stands in the file line by line, however far it is indented.
- `<!-- signatures -->`: each function, struct and enum stands so in the sources of crates; blanks, ends of lines, comments, lifetimes and
  what a function is generic over don't count.
- `<!-- program -->`, `<!-- line of crates.txt -->`: a program and its crate's line, which `scripts/snippets.sh --compile` compiles; with
  `--program` or `--line` that block is printed.

A block of docs/LIBRARY.md without such a comment is a mistake. Ends with status 1 if there is one.
"""

import glob
import os
import re
import sys
import textwrap

TOP = os.path.realpath(os.path.join(os.path.dirname(os.path.abspath(__file__)), ".."))
LIBRARY = "docs/LIBRARY.md"
DOCUMENTS = ["README.md", "docs/USING.md", LIBRARY]
COMMENT = re.compile(r"<!-- (.*) -->")


def text_of(path):
    with open(f"{TOP}/{path}", encoding="utf-8") as file:
        return file.read()


def blocks_of(document):
    """The indented blocks: the line on which each begins, what the comment above it says, and its text."""
    found, said, lines = [], None, []
    for number, line in enumerate(text_of(document).split("\n") + ["end"], 1):
        if line.startswith("    ") or not line and lines:
            lines.append(line)
            continue
        if lines:
            found.append((number - len(lines), said, textwrap.dedent("\n".join(lines)).strip("\n")))
            said, lines = None, []
        if line:
            comment = COMMENT.fullmatch(line)
            said = comment[1] if comment else None
    return found


def pieces_of(block):
    """What stands between the lines that leave something out."""
    return [textwrap.dedent(it).strip("\n").split("\n") for it in re.split(r"^ *\.\.$", block, flags=re.M)]


def stands_in(piece, lines):
    """Whether the lines of a piece follow each other there."""
    windows = (lines[place:place + len(piece)] for place in range(len(lines) - len(piece) + 1))
    return any(textwrap.dedent("\n".join(it)).split("\n") == piece for it in windows if it[0].strip() == piece[0].strip())


def wrong_pieces(block, path):
    lines = text_of(path).split("\n")
    return [" / ".join(it) for it in pieces_of(block) if not stands_in(it, lines)]


def plain(code):
    """Code without comments, attributes, lifetimes, what functions are generic over, and layout."""
    code = re.sub(r"//[^\n]*|#\[[^\]]*\]", " ", code)
    code = re.sub(r"<'\w+>", "", code)
    code = re.sub(r"\bfn (\w+)<(?:->|[^<>]|<[^<>]*>)*>\(", r"fn \1(", code)
    code = re.sub(r" ?([(){}<>,;:&|]) ?", r"\1", re.sub(r"\s+", " ", code))
    return re.sub(r",([)}])", r"\1", code)


def sources():
    """All code of crates."""
    paths = sorted(glob.glob(f"{TOP}/crates/*/src/**/*.rt", recursive=True))
    return "\n".join(plain(text_of(os.path.relpath(path, TOP))) for path in paths)


def declarations(block):
    """What a block declares: lines that go on, indented, are one; a line with a crate's name alone is none."""
    joined = re.sub(r"\n +", " ", block)
    lines = [it for it in joined.split("\n") if it and not it.endswith("::")]
    return [re.sub(r" {2,}where .*", "", it) for it in lines]


def declared(line):
    """A declaration as the sources have it."""
    if line.startswith("pub "):
        return plain(line)
    return plain("fn " + re.sub(r"^(\w+(::|\.))?", "", line))


def wrong_declarations(block, code):
    return [it for it in declarations(block) if declared(it) not in code]


def wrong_in(document, code):
    """What is wrong in a document."""
    for line, said, block in blocks_of(document):
        wrong = []
        if said is None and document == LIBRARY:
            wrong = ["a block without a comment"]
        elif said and said.startswith("excerpt of "):
            wrong = wrong_pieces(block, said.removeprefix("excerpt of "))
        elif said == "signatures":
            wrong = wrong_declarations(block, code)
        for it in wrong:
            yield f"{document}, line {line}: {it}"


def main():
    if len(sys.argv) > 1:
        wanted = {"--program": "program", "--line": "line of crates.txt"}[sys.argv[1]]
        print(next(block for _, said, block in blocks_of(LIBRARY) if said == wanted))
        return
    code = sources()
    found = [it for document in DOCUMENTS for it in wrong_in(document, code)]
    for it in found:
        print(it)
    sys.exit(len(found) > 0)


if __name__ == "__main__":
    main()
