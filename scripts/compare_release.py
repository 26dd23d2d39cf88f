"""compare_release.py ABD

Compares the program of the package in release/ with ABD, which was built of this state: their help, and what they print and end with on
the worked rows of commands and of files, as histories, orders and scripts. The packed one runs with an empty environment.

The checksums have to be right in any case. If crates, docs, examples or README.md differ from the commit that the checksums name, the
programs may differ: then it says how old the package is, and that is all.
"""

import glob
import hashlib
import os
import re
import subprocess
import sys
import tempfile
from concurrent.futures import ThreadPoolExecutor

TOP = os.path.join(os.path.dirname(os.path.abspath(__file__)), "..")
ROWS = ["crates/abd/rows", "crates/test_files/data"]
COMPARED = ["crates", "docs", "examples", "README.md"]
ON_HISTORIES = [["justify", "h"], ["justify", "--unchecked", "h"], ["explain", "h"], ["draw", "h"], ["decide", "h"]]
ON_HISTORIES += [["decide", "--json", "h"], ["monitor", "h"], ["monitor", "--all", "--json", "h"]]
ON_BOTH = [["check", "h", "o"], ["check", "--json", "h", "o"], ["explain", "h", "o"], ["draw", "h", "o"]]
ON_SCRIPTS = [["simulate", "s"], ["trace", "s"], ["trace", "--draw", "s"], ["explain", "s"]]
# With one caller the record of a run is the same each time.
ALONE = [["run", "--callers", "1", "--calls", "20"], ["run", "--callers", "1", "--calls", "9", "--drop", "2", "--rounds", "2"],
         ["run", "--callers", "1", "--calls", "9", "--double", "2", "--reads", "short"], ["check", "h", "missing"], ["draw", "missing"]]


def git(*words):
    return subprocess.run(["git", *words], cwd=TOP, capture_output=True, text=True)


def read_sums(path):
    """The commit that the checksums name, and of each file its sum."""
    with open(path, encoding="utf-8") as file:
        text = file.read()
    commit = re.search(r"^commit ([0-9a-f]{40})$", text, re.M)[1]
    return commit, {name: sum for sum, name in re.findall(r"^([0-9a-f]{64})  (\S+)$", text, re.M)}


def wrong_sums(folder, sums):
    """The files of the package whose bytes aren't those of the checksums."""
    wrong = []
    for name, wanted in sums.items():
        with open(f"{folder}/{name}", "rb") as file:
            if hashlib.sha256(file.read()).hexdigest() != wanted:
                wrong.append(name)
    return wrong


def age(commit):
    """How old the package is, if what it packs has changed since its commit; else nothing."""
    if git("cat-file", "-e", commit + "^{commit}").returncode:
        return f"of {commit[:7]}, which this clone doesn't have"
    if not git("diff", "--quiet", commit, "--", *COMPARED).returncode:
        return None
    count = git("rev-list", "--count", f"{commit}..HEAD").stdout.strip()
    return f"of {commit[:7]}, {count} commits ago"


def files_of(row):
    """The files that a row's input makes, as a history, orders or a script may be: each a table from name to text."""
    kind, _, text = row.partition("\n")
    text = text.replace("<end>\n", "").replace("<history>", '{"abd":"history","version":1}\n')
    history, *orders = text.split("orders:\n")
    made = [{"h": history, "o": it} for it in orders or [""]]
    if kind.split(" ")[0] in ("why-orders", "key-orders"):
        made.append({"h": '{"abd":"history","version":1}\n', "o": text})
    if kind.split(" ")[0] in ("why-script", "script"):
        made.append({"s": text})
    made += [{"s": line.replace(" / ", "\n") + "\n"} for line in text.split("\n") if " / " in line]
    return made


def cases():
    """The files and words of each comparison."""
    found = [({}, words) for words in ALONE]
    for path in sorted(path for folder in ROWS for path in glob.glob(f"{TOP}/{folder}/*.rows")):
        with open(path, encoding="utf-8") as file:
            rows = [it.split("\n", 1)[1].split("---\n")[0] for it in file.read().split("\n### ")[1:]]
        for row in rows:
            if row.startswith(("words\n", "first-lines\n")):
                lines = [re.sub(r" says .*", "", line).split("|")[1:] for line in row.split("\n")[1:] if line]
                found += [({}, words) for words in lines if "run" not in words or "--help" in words]
            else:
                for files in files_of(row):
                    asked = ON_SCRIPTS if "s" in files else ON_HISTORIES + ON_BOTH
                    found += [(files, words) for words in asked]
    return found


def answer(program, words, folder, env):
    try:
        ran = subprocess.run(["abd", *words], executable=program, cwd=folder, capture_output=True, env=env, timeout=60)
    except ValueError:
        return None
    return ran.returncode, ran.stdout, ran.stderr


def differs(case, built, packed):
    """What differs between both programs' answers, in a line; else nothing."""
    files, words = case
    with tempfile.TemporaryDirectory() as folder:
        for name, text in files.items():
            with open(f"{folder}/{name}", "w", encoding="utf-8") as file:
                file.write(text)
        ours, theirs = answer(built, words, folder, None), answer(packed, words, folder, {})
    if ours == theirs:
        return None
    return f"abd {' '.join(words)}: {ours} of the build, {theirs} of the package\n{files}"


def main():
    built = os.path.abspath(sys.argv[1])
    folder = f"{TOP}/release"
    sums = sorted(glob.glob(f"{folder}/*.sums"))
    if len(sums) != 1:
        sys.exit(f"release: {len(sums)} files of checksums in release/, and there should be one")
    commit, files = read_sums(sums[0])
    if wrong := wrong_sums(folder, files):
        sys.exit(f"release: {', '.join(wrong)}: other bytes than the checksums say")
    if set(os.listdir(folder)) != {*files, os.path.basename(sums[0])}:
        sys.exit("release: a file that the checksums don't name")
    if old := age(commit):
        print(f"release: {old}")
        return
    with tempfile.TemporaryDirectory() as room:
        deb = next(name for name in files if name.endswith(".deb"))
        subprocess.run(["dpkg-deb", "-x", f"{folder}/{deb}", room], check=True)
        packed = f"{room}/usr/bin/abd"
        with ThreadPoolExecutor(os.cpu_count()) as pool:
            told = [it for it in pool.map(lambda case: differs(case, built, packed), cases()) if it]
    for it in told[:10]:
        print(it)
    if told:
        sys.exit(f"release: {len(told)} answers differ from the package's")


if __name__ == "__main__":
    main()
