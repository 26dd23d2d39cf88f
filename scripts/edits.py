"""Tries edits of the code that the prover has to refuse; scripts/edits.sh says how it is called.

An edit is a file `crates/NAME/must-fail/EDIT.edit` (`rt ci` tries it) or `crates/NAME/inner-edits/EDIT.edit` (this script
does): a line `file: src/FILE.rt`, and pairs of lines `old: TEXT` and `new: TEXT`, where the old text stands in the file
once. A line `gate: yes` says that the gate tries it too (`--in-gate`). Each is made in a copy of the crate, over what earlier
checks of it kept in out/, and `rt check` has to refuse it.

A function is proved by its own text and the contracts of those that it calls. So edits in the bodies of different functions are
tried in one check: each has to be refused at a goal of its own function. One that isn't refused so is tried again, alone. For the
same reason the gate checks of a crate with edits those functions alone that they change, and what these call: from nothing, over
the libraries that `rt ci` built.
"""

import concurrent.futures
import os
import re
import shutil
import subprocess
import sys
import tempfile

SUITES = ("must-fail", "inner-edits")
USAGE = "usage: scripts/edits.sh [--since COMMIT] [--gate | --inner | --in-gate] [--alone | --applied] [NAME[/EDIT]..]"
# The parts of a crate that a check reads.
PARTS = ("src", "specs", "proofs")
# How many edits one check tries at most.
TOGETHER = 12
FUNCTION = r"(\s*)(pub(\([a-z]+\))? )?(const )?(unsafe )?fn (\w+)"
# The head of an impl: the trait's name, if it has one, and the type's.
IMPL = r"impl(?:<.*?>)? (?:(?:\w+::)*(\w+)(?:<.*>)? for )?(?:\w+::)*(\w+)"
# An error of the source: what the edit wrote can't be compiled.
SPOILT = r"(\./)?src/.*(is not in scope|expected|no field|mismatch)"
# A proof file that names what the edit took away: its refusal says little of the contract.
NAMES_ONLY = r"(\./)?proofs/.*(has no field|is not in scope|has no `|was not admitted)"


def stop(why):
    sys.exit(f"edits: {why}")


def read_edit(path):
    """Returns the edit's pairs (file, old, new)."""
    pairs, file, old = [], "", None
    with open(path, encoding="utf-8") as lines:
        for line in lines.read().split("\n"):
            if line.startswith("file: "):
                file = line[6:].strip()
            elif line.startswith("old: "):
                old = line[5:]
            elif line.startswith("new:") and old is not None:
                pairs.append((file, old, re.sub(r"\A ", "", line[4:])))
                old = None
    return pairs


def edited(folder, edit):
    """Returns the changed texts by file, or why the edit can't be made."""
    texts = {}
    for file, old, new in read_edit(edit):
        if file not in texts:
            with open(f"{folder}/{file}", encoding="utf-8") as source:
                texts[file] = source.read()
        if texts[file].count(old) != 1:
            return None, f"its old text is in {file} {texts[file].count(old)} times, and not once"
        texts[file] = texts[file].replace(old, new)
    return (texts, None) if texts else (None, "it has no pair of old and new")


def function_at(lines, at):
    """Returns the first and last line, from 0, of the function that the line stands in, or the line alone."""
    for start in range(at, -1, -1):
        found = re.match(FUNCTION, lines[start])
        if found and (start == at or len(found[1]) < len(lines[at]) - len(lines[at].lstrip()) or lines[at].strip() in "{}"):
            ends = (i for i in range(start, len(lines)) if lines[i] in (found[1] + "}", found[1] + "{}"))
            return start, next(ends, len(lines) - 1)
    return at, at


def body_of(lines, first, last):
    """Returns the first line of a function's body."""
    return next((it for it in range(first, last + 1) if lines[it].strip() == "{" or lines[it].endswith(" {")), last)


def functions_of(folder, edit):
    """Returns the functions that an edit changes, each as (file, name, first line, last line), from 1; none where it changes more
    than their bodies, and so can be tried with no other."""
    found = []
    for file, old, _ in read_edit(edit):
        with open(f"{folder}/{file}", encoding="utf-8") as source:
            text = source.read()
        lines, at = text.split("\n"), text[: text.find(old)].count("\n")
        first, last = function_at(lines, at)
        head = re.match(FUNCTION, lines[first])
        if text.count(old) != 1 or not head or at <= body_of(lines, first, last):
            return []
        found.append((file, head[6], first + 1, last + 1))
    return found


def in_groups(folder, edits):
    """Returns the edits in groups that one check may try: in each, no two change functions of one name."""
    groups = []
    for edit in edits:
        names = {name for _, name, _, _ in functions_of(folder, edit)}
        free = (it for it in groups if names and it[1] and len(it[0]) < TOGETHER and not names & it[1])
        group = next(free, None)
        if group:
            group[0].append(edit)
            group[1].update(names)
        else:
            groups.append(([edit], names))
    return [edits for edits, _ in groups]


def own_lines(said, functions):
    """Returns the lines of what a check said that name a goal, or an error, of these functions."""
    names = {name for _, name, _, _ in functions}
    found = []
    for line in said:
        failed = re.match(r"fn (\S+): no proof: .* did not prove", line)
        error = re.match(r"(\./)?(\S+?):(\d+):\d+: error", line)
        if failed and failed[1].split("::")[-1] in names:
            found.append(line)
        elif error and any(error[2] == file and first <= int(error[3]) <= last for file, _, first, last in functions):
            found.append(line)
        elif error and error[2].startswith("proofs/") and error[2].split("/")[-2] in names:
            found.append(line)
    return found


def changed_lines(path, commit):
    """Returns the line numbers, from 0, of a file that changed since a commit."""
    told = subprocess.run(["git", "diff", "-U0", commit, "--", path], capture_output=True, text=True, check=True).stdout
    lines = set()
    for start, count in re.findall(r"^@@ -\S+ \+(\d+)(?:,(\d+))? @@", told, re.M):
        lines.update(range(int(start) - 1, int(start) - 1 + max(int(count or 1), 1)))
    return lines


def is_new(folder, edit, commit):
    """Returns whether neither suite had an edit of this name and text at the commit."""
    with open(edit, encoding="utf-8") as file:
        text = file.read()
    places = [f"{commit}:{folder}/{suite}/{os.path.basename(edit)}" for suite in SUITES]
    return all(subprocess.run(["git", "show", it], capture_output=True, text=True).stdout != text for it in places)


def has_changed(folder, edit, commit):
    """Returns whether the edit, or a function that it changes, has changed since the commit."""
    if is_new(folder, edit, commit):
        return True
    for file, old, _ in read_edit(edit):
        with open(f"{folder}/{file}", encoding="utf-8") as source:
            text = source.read()
        if text.count(old) != 1:
            return True
        first, last = function_at(text.split("\n"), text[: text.index(old)].count("\n"))
        if changed_lines(f"{folder}/{file}", commit) & set(range(first, last + 1)):
            return True
    return False


def below(name):
    """Returns the lines of crates.txt of a crate and of those of the repository that it stands on, by name."""
    with open("crates.txt", encoding="utf-8") as file:
        lines = {it.split(":")[0].split()[0]: it for it in file if re.match(r"\w.*:", it)}
    found, left = {}, [name]
    while left:
        crate = left.pop()
        if crate in lines and crate not in found:
            found[crate] = lines[crate]
            left += lines[crate].split(":")[1].split()
    return found


def copied(name, room, in_gate):
    """Copies a crate into a folder, and, but for the gate, what its checks kept and the libraries below it."""
    if in_gate:
        for part in PARTS:
            if os.path.isdir(f"crates/{name}/{part}"):
                shutil.copytree(f"crates/{name}/{part}", f"{room}/crates/{name}/{part}")
        return
    shutil.copy("HANDLES", room)
    with open(f"{room}/crates.txt", "w", encoding="utf-8") as file:
        file.writelines(below(name).values())
    for crate in below(name):
        for part in (*PARTS, "out" if crate == name else "out/rlib"):
            if os.path.isdir(f"crates/{crate}/{part}"):
                shutil.copytree(f"crates/{crate}/{part}", f"{room}/crates/{crate}/{part}")


def over_libraries(name, functions):
    """Returns the words of a check of these functions, or of the whole crate where there are none, over the libraries that
    `rt ci` built."""
    kit = os.path.dirname(os.path.dirname(os.path.realpath(shutil.which("rt"))))
    lines, crates = below(name), os.path.abspath("crates")
    used = lines[name].split("#")[0].split(":")[1].split()
    root = "src/main.rt" if os.path.isfile(f"crates/{name}/src/main.rt") else "src/lib.rt"
    words = [f"{kit}/bin/rattle", "check", "--crate-name", name, root]
    for it in ["std", *[it for it in used if it not in lines]]:
        words += ["--extern", f"{it}={kit}/rlibs/{it}.rlib"]
    words += ["-L", f"dependency={kit}/rlibs"]
    for it in used:
        words += ["--extern", f"{it}={crates}/{it}/out/rlib/{it}.rlib"] if it in lines else []
    for it in lines:
        words += ["-L", f"dependency={crates}/{it}/out/rlib"] if it != name else []
    words += ["--antt-project", f"{kit}/rattle/logic/antt-project.json", "--logic-built", f"{kit}/logic_built"]
    for it in functions:
        words += ["--only", it]
    return [*words, "--links", f"{name}=", "--jobs", "1"]


def checked(folder, words=("rt", "check", "--jobs", "1")):
    """Returns how a check of the crate there ended, and what it said."""
    ran = subprocess.run(words, cwd=folder, stdin=subprocess.DEVNULL, stdout=subprocess.PIPE, stderr=subprocess.STDOUT, text=True,
                         errors="replace")
    if log := os.environ.get("EDITS_LOG"):
        with open(log, "a", encoding="utf-8") as file:
            file.write(f"== {folder}\n{ran.stdout}")
    return ran


def is_refused_by(ran):
    """Returns whether the check came to an end and didn't prove all that it was asked for."""
    return ran.returncode == 1 and re.search(r"^(logic=not-proved|only=\d+ proved=\d+)", ran.stdout, re.M)


def refused(ran):
    """Returns whether that check refused the crate, and what it said first."""
    told = [it for it in ran.stdout.split("\n") if re.match(r"\S+:\d+:\d+: error|fn \S+: no(t| proof)", it)]
    first = next((it for it in told if not re.match(NAMES_ONLY, it)), "")
    if not is_refused_by(ran):
        return False, "NOT REFUSED: still proved" if ran.returncode == 0 else f"BAD EDIT: {ran.stdout[-400:]}"
    if re.match(SPOILT, first):
        return False, f"BAD EDIT: {first[:200]}"
    return True, f"refused: {first[:200]}" if first else f"refused only for a name that a proof lost: {(told or [''])[0][:160]}"


class Edited:
    """A crate's copy with changed texts, until the end of a `with`."""

    def __init__(self, folder, texts):
        self.folder, self.texts, self.were = folder, texts, {}

    def __enter__(self):
        for file, text in self.texts.items():
            with open(f"{self.folder}/{file}", encoding="utf-8") as source:
                self.were[file] = source.read()
            with open(f"{self.folder}/{file}", "w", encoding="utf-8") as source:
                source.write(text)

    def __exit__(self, *_):
        for file, text in self.were.items():
            with open(f"{self.folder}/{file}", "w", encoding="utf-8") as source:
                source.write(text)


def path_of(folder, function):
    """Returns the path by which a check names a function: its module, its type, with the trait's name after it, and its own name."""
    file, name, first, _ = function
    with open(f"{folder}/{file}", encoding="utf-8") as source:
        lines = source.read().split("\n")[:first]
    found = None
    if lines[-1].startswith(" "):
        found = re.match(IMPL, next((it for it in reversed(lines) if it.startswith("impl")), ""))
    module = re.sub(r"^src/(lib|main)$|^src/", "", file[:-3]).replace("/", "::")
    return "::".join(it for it in (module, found and f"{found[2]}{found[1] or ''}", name) if it)


def check_of(folder, edits):
    """Returns how a check of these edits ended in a copy of their crate: of the functions that they change alone where the copy has
    nothing kept, as in the gate."""
    if os.path.isdir(f"{folder}/out"):
        return checked(folder)
    name = os.path.basename(folder)
    functions = [it for edit in edits for it in functions_of(f"crates/{name}", edit)]
    ran = checked(folder, over_libraries(name, sorted({path_of(f"crates/{name}", it) for it in functions})))
    if ran.returncode == 2 and functions:
        # (an impl that a check names otherwise, one with types in brackets, say)
        modules = {re.sub(r"^src/", "", it[0][:-3]).replace("/", "::") for it in functions}
        ran = checked(folder, over_libraries(name, sorted(modules)))
    return ran


def try_together(folder, edits):
    """Tries edits of different functions in one check, and returns by edit what was said first of those that it refused."""
    texts = {}
    for edit in edits:
        for file, old, new in read_edit(edit):
            if file not in texts:
                with open(f"{folder}/{file}", encoding="utf-8") as source:
                    texts[file] = source.read()
            texts[file] = texts[file].replace(old, new)
    with Edited(folder, texts):
        ran = check_of(folder, edits)
    found = {}
    if is_refused_by(ran):
        for edit in edits:
            told = own_lines(ran.stdout.split("\n"), functions_of(folder, edit))
            first = next((it for it in told if not re.match(NAMES_ONLY, it)), "")
            if first and not re.match(SPOILT, first):
                found[edit] = first
    return found


def try_alone(folder, name, edit):
    """Tries one edit, and returns whether it was refused, and what was said."""
    texts, why = edited(f"crates/{name}", edit)
    if why:
        return False, f"BAD EDIT: {why}"
    with Edited(folder, texts):
        return refused(check_of(folder, [edit]))


def try_crate(name, edits, is_alone, in_gate=False):
    """Tries a crate's edits, and returns how many were not refused."""
    failures = 0
    with tempfile.TemporaryDirectory(prefix="edits-") as room:
        copied(name, room, in_gate)
        folder = f"{room}/crates/{name}"
        for group in [[it] for it in edits] if is_alone else in_groups(f"crates/{name}", edits):
            found = try_together(folder, group) if len(group) > 1 else {}
            for edit in group:
                is_refused, said = (True, f"refused: {found[edit][:200]}") if edit in found else try_alone(folder, name, edit)
                failures += not is_refused
                print(f"{edit.removeprefix('crates/')}: {said}", flush=True)
    return failures


def try_in_gate(asked):
    """Tries edits by crate, as many crates at once as the gate has lanes, the largest first. Returns how many were not refused."""
    def size(name):
        return sum(os.path.getsize(f"{at}/{it}") for at, _, files in os.walk(f"crates/{name}/src") for it in files)

    with concurrent.futures.ThreadPoolExecutor(int(os.environ.get("RT_JOBS") or os.cpu_count())) as pool:
        names = sorted(asked, key=size, reverse=True)
        return sum(pool.map(lambda name: try_crate(name, asked[name], False, True), names))


def is_of_gate(edit):
    """Returns whether the edit has the line which says that the gate tries it."""
    with open(edit, encoding="utf-8") as lines:
        return "gate: yes" in lines.read().split("\n")


def apply_crate(name, edits):
    """Applies a crate's edits to no file, and returns how many don't apply: of these it says why."""
    failures = 0
    for edit in edits:
        _, why = edited(f"crates/{name}", edit)
        if why:
            failures += 1
            print(f"{edit.removeprefix('crates/')}: BAD EDIT: {why}")
    return failures


def main(words):
    commit, suites, names, is_alone, only_applied, in_gate = None, SUITES, [], False, False, False
    while words:
        word = words.pop(0)
        if word == "--since" and words:
            commit = words.pop(0)
        elif word in ("--gate", "--inner", "--in-gate"):
            suites = SUITES[:1] if word == "--gate" else SUITES[1:]
            in_gate = word == "--in-gate"
        elif word == "--alone":
            is_alone = True
        elif word == "--applied":
            only_applied = True
        elif word.startswith("-"):
            stop(USAGE)
        else:
            names.append(word)
    crates = sorted(os.listdir("crates"))
    for name in names:
        if name.split("/")[0] not in crates:
            stop(f"there is no crate {name}")
    failures, tried, of_gate = 0, 0, {}
    for crate in crates:
        found = [f"crates/{crate}/{suite}/{it}" for suite in suites if os.path.isdir(f"crates/{crate}/{suite}")
                 for it in sorted(os.listdir(f"crates/{crate}/{suite}")) if it.endswith(".edit")]
        asked = lambda it: not names or crate in names or f"{crate}/{os.path.basename(it)[:-5]}" in names
        edits = [it for it in found if asked(it) and (not commit or has_changed(f"crates/{crate}", it, commit))]
        if in_gate:
            of_gate[crate] = [it for it in edits if is_of_gate(it)]
            tried += len(of_gate[crate])
        elif edits:
            failures += apply_crate(crate, edits) if only_applied else try_crate(crate, edits, is_alone)
            tried += len(edits)
    failures += try_in_gate({crate: edits for crate, edits in of_gate.items() if edits})
    print(f"{tried} edits, {failures} don't apply" if only_applied else f"{tried} edits tried, {failures} not refused")
    return 1 if failures else 0


if __name__ == "__main__":
    sys.exit(main(sys.argv[1:]))
