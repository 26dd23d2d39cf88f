"""using.py ABD [--without-servers] [DOCUMENT ..]

Runs the shell snippets of documents (docs/USING.md, docs/TEACHING.md and README.md if none is named) with the built program, in a folder
that has docs and examples as a reader has them.

A snippet is a line of an indented block that begins with `$ `. It has to end with 0, or as a comment behind it says: `# status 1`. Below it
stands what it prints, on standard output and standard error; `..` stands for any lines. Where nothing stands, or the comment says `each run
differs`, anything may come. Blocks with etcd, redis-server or GNU parallel are passed over if these aren't installed, which is said, or
with `--without-servers`.

Ends with status 1 if a snippet prints something else or ends otherwise.
"""

import os
import re
import shutil
import subprocess
import sys
import tempfile
from dataclasses import dataclass, field

TOP = os.path.realpath(os.path.join(os.path.dirname(os.path.abspath(__file__)), ".."))
DOCUMENTS = ["docs/USING.md", "docs/TEACHING.md", "README.md"]
SERVERS = {"etcd.py": "etcd", "redis.py": "redis-server", "parallel ": "parallel"}
SECONDS = 120


@dataclass
class Snippet:
    """A command, where it stands, and the lines that it should print."""

    document: str
    line: int
    command: str
    expected: list = field(default_factory=list)

    def status(self):
        """How it should end."""
        said = re.search(r"# status (\d+)", self.command)
        return int(said[1]) if said else 0

    def servers(self):
        """The servers, or other programs, that it wants."""
        return {program for word, program in SERVERS.items() if word in self.command}

    def is_met(self, status, lines):
        """Whether it should end and print so."""
        is_fixed = len(self.expected) > 0 and "each run differs" not in self.command
        return status == self.status() and (not is_fixed or matches(self.expected, lines))


def blocks_of(document):
    """The snippets of a document, block by block."""
    blocks, is_inside = [], False
    with open(f"{TOP}/{document}", encoding="utf-8") as file:
        for number, line in enumerate(file, 1):
            if not line.startswith("    "):
                is_inside = False
            elif line.startswith("    $ "):
                if not is_inside:
                    blocks.append([])
                is_inside = True
                blocks[-1].append(Snippet(document, number, line[6:].rstrip()))
            elif is_inside:
                blocks[-1][-1].expected.append(line[4:].rstrip())
    return blocks


def matches(expected, printed):
    """Whether the lines are those; `..` stands for any."""
    if not expected:
        return not printed
    if expected[0] == "..":
        return any(matches(expected[1:], printed[place:]) for place in range(len(printed) + 1))
    return bool(printed) and printed[0].rstrip() == expected[0] and matches(expected[1:], printed[1:])


def is_right(snippet, room, environment):
    """Runs it. Whether it ends and prints as it should; if not, that is said."""
    ended = subprocess.run(["bash", "-c", snippet.command], cwd=room, env=environment, stdout=subprocess.PIPE, stderr=subprocess.STDOUT,
                           text=True, errors="replace", timeout=SECONDS)
    if snippet.is_met(ended.returncode, ended.stdout.splitlines()):
        return True
    print(f"{snippet.document}, line {snippet.line}: {snippet.command}: ended with {ended.returncode}, and printed:\n{ended.stdout[:3000]}")
    return False


def run_blocks(abd, documents, room, are_servers_wanted):
    """Runs all blocks. How many snippets were wrong."""
    os.makedirs(f"{room}/bin")
    os.symlink(os.path.realpath(abd), f"{room}/bin/abd")
    for name in ("docs", "examples"):
        os.symlink(f"{TOP}/{name}", f"{room}/{name}")
    environment = {**os.environ, "PATH": f"{room}/bin:{os.environ['PATH']}", "PYTHONDONTWRITEBYTECODE": "1"}
    wrong, missing = 0, set()
    for block in (it for document in documents for it in blocks_of(document)):
        servers = set().union(*(it.servers() for it in block))
        lacking = {it for it in servers if shutil.which(it) is None}
        if not servers or are_servers_wanted and not lacking:
            wrong += sum(not is_right(it, room, environment) for it in block)
        elif are_servers_wanted:
            missing |= lacking
    for server in sorted(missing):
        print(f"passed over, since it isn't installed: {server}")
    return wrong


def main():
    abd, *words = sys.argv[1:]
    documents = [it for it in words if it != "--without-servers"]
    with tempfile.TemporaryDirectory() as room:
        wrong = run_blocks(abd, documents or DOCUMENTS, room, "--without-servers" not in words)
    sys.exit(wrong > 0)


if __name__ == "__main__":
    main()
