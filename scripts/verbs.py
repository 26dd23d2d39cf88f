"""verbs.py ABD

Runs each command of the program so that it ends with 0, 1, 2, 3, 4 and 5, as far as it can, and `--help` and `--version`. It says which
ends with another status, says nothing on standard error of a failure or doesn't name what failed, or writes to standard output what it
must not; and which faulty file is explained otherwise if it comes through a pipe, or if it was changed or another has its name by then.
Ends with status 1 then.
"""

import contextlib
import itertools
import os
import subprocess
import sys
import tempfile
import time

HISTORY = '{"abd":"history","version":1}\n'
ORDERS = '{"abd":"orders","version":1}\n'
WRITE = '{"call":0,"client":1,"do":"write","key":"x","row":"invoke","value":"a"}\n'
READ = '{"call":1,"client":2,"do":"read","key":"x","row":"invoke"}\n'
AGAIN = '{"call":1,"client":2,"do":"write","key":"x","row":"invoke","value":"a"}\n'
NOTE = '{"call":0,"number":1,"row":"note","writer":1}\n'
DONE = '{"call":0,"row":"respond"}\n'
FILES = {
    "good.history": HISTORY + WRITE + NOTE + DONE,
    "unnoted.history": HISTORY + WRITE + DONE,
    "bad.history": HISTORY + "{\n",
    "busy.history": HISTORY + WRITE + READ.replace('"client":2', '"client":1'),
    "cut.history": HISTORY + WRITE + DONE[:9],
    "wide.history": HISTORY + '{"call":0' + " " * 3_000_000 + "}\n",
    "late.history": HISTORY + WRITE + DONE + READ + '{"call":1,"row":"respond","value":null}\n',
    "doubt.history": HISTORY + WRITE + DONE + AGAIN + '{"call":1,"row":"respond"}\n' + READ.replace(":1,", ":2,", 1)
    + '{"call":2,"row":"respond","value":"a"}\n',
    "halls.history": '{"abd":"history","ask":1,"halls":1,"put":1,"version":2,"votes":[1]}\n',
    "twice.history": HISTORY + WRITE + AGAIN + READ.replace('"call":1,"client":2', '"call":2,"client":3')
    + '{"call":2,"row":"respond","value":"a"}\n',
    "waiting.history": HISTORY + READ.replace('"call":1', '"call":0') + NOTE + '{"call":0,"row":"respond","value":null}\n',
    "good.orders": ORDERS + '{"key":"x","order":[0]}\n',
    "refused.orders": ORDERS + '{"key":"x","order":[]}\n',
    "bad.orders": ORDERS + "{\n",
    "good.script": "replicas 1\njoin 1\ninvoke 1 read x\nfinish 1\n",
    "bad.script": "replicas 1\njion 1\n",
    "late.script": "replicas 1\n" + "# what follows is late\n" * 150_000 + "jion 1\n",
}
FULL = "abd: output failed"

# the words; the status; what standard error says: nothing, or a line that begins so; whether standard output is full; the file that is
# standard input
CASES = []


def add(status, words, errors="", full=False, source=None):
    CASES.append((words, status, errors, full, source))


def add_files(command, options=""):
    """The runs of a command whose file can't be read, or on a full device, with its file's last part and further words."""
    kind = "script" if command in ("simulate", "trace") else "history"
    for words, status, errors in (
        (f"{command} good.{kind}", 0, ""),
        (f"{command} missing", 3, "abd: missing: cannot open"),
        (f"{command} bad.{kind}", 3, f"abd: bad.{kind}: line 2: "),
        (f"{command} .", 4, "abd: .: line 1: "),
        (command, 2, "error: "),
        (f"{command} good.{kind} --frob", 2, "error: "),
    ):
        add(status, words + options, errors)
    add(4, f"{command} good.{kind}{options}", FULL, full=True)


def add_monitor():
    """The runs of `monitor`, each on a file and on the same file as standard input."""
    for options in ("", " --json", " --all", " --all --json"):
        for name, status, errors in (
            ("good.history", 0, ""),
            ("doubt.history", 0, ""),  # the first write was overwritten by the second
            ("late.history", 1, ""),
            ("twice.history", 5, ""),
            ("bad.history", 3, "line 2: fault 1 not JSON"),
            ("busy.history", 3, "line 3: fault 7 client busy"),
            ("cut.history", 3, "line 3: fault 1 not JSON"),
            ("wide.history", 3, "line 2: fault 11 line too long"),
            ("halls.history", 3, "line 1: fault 3 version"),
            ("good.orders", 3, "line 1: fault 2 no header"),
            (".", 4, "line 1: fault 13 device"),
        ):
            add(status, f"monitor {name}{options}", errors and f"abd: {name}: {errors}")
            add(status, f"monitor{options}", errors and f"abd: standard input: {errors}", source=name)
        for name in ("good.history", "late.history", "twice.history"):
            add(4, f"monitor {name}{options}", FULL, full=True)
            add(4, f"monitor{options}", FULL, full=True, source=name)
        add(0, f"monitor waiting.history{options} --give-up 2")
        add(5, f"monitor waiting.history{options} --give-up 1")
    add(3, "monitor missing", "abd: missing: cannot open")
    add(1, "monitor --give-up 4294967295 --all --json late.history")
    for words in ("--give-up 0", "--give-up 4294967296", "--give-up", "good.history more", "--key x", "--frob"):
        add(2, f"monitor {words}", "error: ", source="good.history")


def add_split():
    """The runs of `split`, each into a folder of its own, on a file and on the same file as standard input."""
    folders = (f"pieces{count}" for count in itertools.count())
    for name, status, errors in (
        ("good.history", 0, ""),
        ("late.history", 0, ""),
        ("bad.history", 3, "line 2: fault 1 not JSON"),
        ("busy.history", 3, "line 3: fault 7 client busy"),
        ("cut.history", 3, "line 3: fault 1 not JSON"),
        ("wide.history", 3, "line 2: fault 11 line too long"),
        ("halls.history", 3, "line 1: fault 3 version"),
        ("good.orders", 3, "line 1: fault 2 no header"),
        (".", 4, "line 1: fault 13 device"),
    ):
        for parts in (1, 3):
            options = f"--parts {parts} --into"
            add(status, f"split {name} {options} {next(folders)}", errors and f"abd: {name}: {errors}")
            add(status, f"split {options} {next(folders)}", errors and f"abd: standard input: {errors}", source=name)
    add(0, f"split good.history --parts 1000 --into {next(folders)}")
    options = "good.history --parts 2"
    add(3, "split missing --parts 2 --into pieces", "abd: missing: cannot open")
    add(3, f"split {options} --into .", "abd: .: isn't empty")
    add(3, f"split {options} --into good.history", "abd: good.history: cannot read the folder: Not a directory (os error 20)")
    add(3, f"split {options} --into no/pieces", "abd: no/pieces: cannot make the folder: No such file or directory (os error 2)")
    for words in (
        "",
        "good.history",
        options,
        "good.history --into pieces",
        *[f"good.history --into pieces --parts {parts}" for parts in ("0", "1001", "x", "1.5", "-1", "")],
        f"{options} --into",
        f"{options} --into pieces more",
        f"{options} --into pieces --json",
        f"{options} --into pieces --parts 2",
    ):
        add(2, f"split {words}", "error: ")


def add_all():
    add_monitor()
    add_split()
    for command in ("justify", "simulate", "decide", "explain", "draw", "trace"):
        add_files(command)
    add_files("trace", " --draw")
    for command in ("check", "explain", "draw"):
        add(0, f"{command} good.history good.orders")
        add(1, f"{command} good.history refused.orders")
        add(2, f"{command} good.history good.orders more", "error: ")
        add(3, f"{command} missing good.orders", "abd: missing: cannot open")
        add(3, f"{command} good.history missing", "abd: missing: cannot open")
        add(3, f"{command} bad.history good.orders", "abd: bad.history: line 2: fault 1 not JSON")
        add(3, f"{command} good.history bad.orders", "abd: bad.orders: line 2: fault 1 not JSON")
        add(4, f"{command} . good.orders", "abd: .: line 1: fault 13 device")
        add(4, f"{command} good.history .", "abd: .: line 1: fault 13 device")
        add(4, f"{command} good.history good.orders", FULL, full=True)
        add(4, f"{command} good.history refused.orders", FULL, full=True)
    add(2, "check good.history", "error: ")
    add(2, "check good.history good.orders --workers 17", "error: ")
    for command in ("explain", "draw"):
        add(1, f"{command} unnoted.history")
        add(1, f"{command} good.history --key z")
        add(2, f"{command} good.history --most 10001", "error: ")
    for words in ("decide", "decide --json"):
        add(0, f"{words} unnoted.history")
        add(1, f"{words} late.history")
        add(1, f"{words} good.history --key z")
        add(5, f"{words} doubt.history")
        add(4, f"{words} late.history", FULL, full=True)
    add(2, "decide good.history good.orders", "error: ")
    add(2, "decide good.history --most 10001", "error: ")
    add(2, "draw good.history --calls 0", "error: ")
    add(2, "draw good.history --around 4294967296", "error: ")
    add(0, "draw good.history good.orders --whole")
    add(1, "draw good.history refused.orders --whole")
    add(1, "draw unnoted.history --whole")
    add(2, "draw good.history --whole --key x", "abd: ")
    add(2, "draw good.history --whole --most 20", "abd: ")
    add(4, "draw good.history good.orders --whole", FULL, full=True)
    add(2, "trace good.script --most 4294967296", "error: ")
    add(1, "justify unnoted.history", "abd: key x: no note for call 0")
    add(1, "justify unnoted.history --unchecked", "abd: key x: no note for call 0")
    for words in ("justify --by values", "justify --by=values --unchecked"):
        add_files(words)
        add(0, f"{words} unnoted.history")
        add(1, f"{words} late.history", "x: not atomic 3 read 1 answers nothing, but call 0 had ended before it began")
        add(5, f"{words} doubt.history", "x: undecided: writes 0 and 1 wrote what read 2 answers")
    add_files("draw --by values")
    add(0, "draw unnoted.history --by values")
    add(1, "draw late.history --by values")
    add(5, "draw doubt.history --by values")
    add(1, "draw good.history --by values --key z")
    for words in ("justify good.history --by", "justify good.history --by both", "draw good.history --by both", "explain good.history --by values"):
        add(2, words, "error: " if words.endswith("--by") or "explain" in words else "abd: ")
    for by in ("tags", "values"):
        add(2, f"draw good.history good.orders --by {by}", "abd: ")
    add(0, "run --callers 1 --calls 2")
    add(2, "run --replicas 16", "error: ")
    add(2, "run --ask 2", "abd: ")
    add(2, "run good.script", "error: ")
    add(4, "run --callers 1 --calls 2", FULL, full=True)
    commands = ("check", "decide", "draw", "explain", "justify", "monitor", "run", "simulate", "split", "trace")
    for words in ("--help", "--version", *[f"{command} --help" for command in commands], *[f"help {command}" for command in commands]):
        add(0, words)
        add(4, words, FULL, full=True)
    add(2, "frob", "error: ")
    add(2, "--frob", "error: ")
    add(2, b"check \xff good.orders", "abd: the arguments aren't text; see abd --help")


def run(abd, place, words, full, source):
    with contextlib.ExitStack() as opened:
        given = os.open(os.path.join(place, source), os.O_RDONLY) if source else subprocess.DEVNULL
        if source:
            opened.callback(os.close, given)
        out = opened.enter_context(open("/dev/full", "wb")) if full else subprocess.PIPE
        return subprocess.run([abd, *words.split()], cwd=place, stdin=given, stdout=out, stderr=subprocess.PIPE)


def shown(words, full, source):
    words = words if isinstance(words, str) else words.decode(errors="replace")
    return f"abd {words}{f' < {source}' if source else ''}{' > /dev/full' if full else ''}"


def wrongs(ran, words, status, errors, full):
    """What is otherwise than it should be."""
    found = ran.stderr.decode(errors="replace")
    if ran.returncode != status:
        yield f"status {ran.returncode} and not {status}"
    if errors and not any(line.startswith(errors) for line in found.splitlines()):
        yield f"standard error doesn't say {errors!r} but {found!r}"
    if not errors and found:
        yield f"standard error says {found!r}"
    if full:
        return
    is_written = status == 0 or (status in (1, 5) and (not errors or "orders" in ran.stdout.decode()))
    if words[:6] == "split " and words != "split --help":
        is_written = False
    if is_written != (ran.stdout != b""):
        yield "standard output has something" if ran.stdout else "standard output has nothing"


TOO_LONG = "  not explained: the file can't be read again, and more than 16,777,216 bytes of it were read\n"


def said(abd, place, words, source=None, text=None):
    """What standard error says of the files, of which one may come from standard input, or as that text through a pipe."""
    ran = subprocess.run([abd, *words.split()], cwd=place, stdin=source, input=text and text.encode(), capture_output=True)
    return ran.stderr.decode()


def explained_otherwise(abd, place):
    """Which faulty file isn't explained, or is explained otherwise if it comes through a pipe or from an open file than by its name."""
    files = [("bad.history", "explain {}"), ("busy.history", "decide {}"), ("cut.history", "draw {}"), ("wide.history", "explain {}")]
    files += [("bad.script", "explain {}"), ("good.script", "decide {}"), ("late.script", "explain {}")]
    files += [("bad.orders", "explain good.history {}"), ("bad.history", "draw {} bad.orders"), ("busy.history", "explain {} good.orders")]
    for name, words in files:
        by_name = said(abd, place, words.format(name))
        wanted = by_name.replace(f"abd: {name}:", "abd: /dev/stdin:")
        words = words.format("/dev/stdin")
        if "\n  " not in by_name:
            yield f"abd {words}: {name} isn't explained but {by_name!r}"
        if said(abd, place, words, text=FILES[name]) != wanted:
            yield f"cat {name} | abd {words}: not {wanted!r}"
        with open(os.path.join(place, name), "rb") as file:
            if said(abd, place, words, file) != wanted:
                yield f"abd {words} < {name}: not {wanted!r}"


def through_pipes(abd, place, words, texts):
    """What standard error says of files that come through pipes of their own, with these texts."""
    pipes = [os.pipe() for _ in texts]
    for (_, given), text in zip(pipes, texts):
        os.write(given, text.encode())
        os.close(given)
    taken = [pipe for pipe, _ in pipes]
    words = words.format(*[f"/dev/fd/{pipe}" for pipe in taken]).split()
    ran = subprocess.run([abd, *words], cwd=place, capture_output=True, pass_fds=taken)
    for pipe in taken:
        os.close(pipe)
    return ran.stderr.decode()


def two_pipes_wrongs(abd, place):
    """Which fault of two files is explained otherwise if each comes through a pipe, or if both are standard input."""
    for names in (("good.history", "bad.orders"), ("busy.history", "bad.orders"), ("bad.history", "good.orders")):
        wanted = [line for line in said(abd, place, "explain {} {}".format(*names)).splitlines() if line.startswith("  ")]
        ran = through_pipes(abd, place, "explain {} {}", [FILES[name] for name in names])
        if ran.splitlines()[1:] != wanted:
            yield f"two pipes, of {names[0]} and {names[1]}: {ran!r}"
    ran = said(abd, place, "explain /dev/stdin /dev/stdin", text=FILES["good.history"])
    if not ran.startswith("abd: /dev/stdin: line 1: fault 2 no header\n  "):
        yield f"a pipe that is empty the second time: {ran!r}"


def long_history(calls):
    """A history of so many calls, and then a line that is none."""
    return HISTORY + "".join((WRITE + DONE).replace(":0,", f":{call},") for call in range(calls)) + "{\n"


def long_wrongs(abd, place):
    """Whether a fault is explained if no more was read than is kept, and if more was, that of a file that can be read again alone."""
    why = said(abd, place, "explain bad.history").split("\n", 1)[1]
    for calls, is_kept in ((100_000, True), (200_000, False)):
        text = long_history(calls)
        with open(os.path.join(place, "long.history"), "w") as file:
            file.write(text)
        line = f"line {2 * calls + 2}: fault 1 not JSON\n"
        if (len(text) < 16_777_216) != is_kept:
            yield f"{len(text)} bytes are no good row"
        for ran, name, wanted in (
            (said(abd, place, "explain long.history"), "long.history", why),
            (said(abd, place, "explain /dev/stdin", text=text), "/dev/stdin", why if is_kept else TOO_LONG),
        ):
            if ran != f"abd: {name}: {line}{wanted}":
                yield f"{name} of {len(text)} bytes: {ran!r}"
    ran = said(abd, place, "explain /dev/stdin", text="replicas 1\n" + "# a long script\n" * 1_100_000)
    if ran != "abd: /dev/stdin: line 1: fault 1 not JSON\n" + TOO_LONG:
        yield f"a long script: {ran!r}"


def opened_files(process):
    """The names of the files that the process has open."""
    folder = f"/proc/{process.pid}/fd"
    names = []
    with contextlib.suppress(OSError):
        for number in os.listdir(folder):
            names.append(os.path.basename(os.readlink(os.path.join(folder, number))))
    return names


def replaced_wrongs(abd, place):
    """Whether a fault is explained by the file that was opened, if another has its name before that is read."""
    wanted = said(abd, place, "explain busy.history good.orders")
    names = {name: os.path.join(place, name) for name in ("first.history", "second.history", "orders")}
    for name, text in (("first.history", FILES["busy.history"]), ("second.history", FILES["late.history"])):
        with open(names[name], "w") as file:
            file.write(text)
    os.mkfifo(names["orders"])
    process = subprocess.Popen([abd, "explain", "first.history", "orders"], cwd=place, stdout=subprocess.PIPE, stderr=subprocess.PIPE)
    while "first.history" not in opened_files(process) and process.poll() is None:
        time.sleep(0.01)
    os.replace(names["second.history"], names["first.history"])
    if process.poll() is None:
        with open(names["orders"], "w") as orders:
            orders.write(FILES["good.orders"])
    ran = process.communicate()[1].decode()
    if ran != wanted.replace("busy.history", "first.history"):
        yield f"a file that was replaced once it was open: {ran!r}"


def full_pipe():
    """A pipe that takes no byte before one is read of it: where it is read, and where it is written."""
    taken, given = os.pipe()
    os.set_blocking(given, False)
    for size in (4096, 1):
        with contextlib.suppress(BlockingIOError):
            while True:
                os.write(given, b" " * size)
    os.set_blocking(given, True)
    return taken, given


def wait_until_asleep(process):
    """Waits until the process has slept for a while, or has ended."""
    asleep = 0
    while asleep < 20 and process.poll() is None:
        with open(f"/proc/{process.pid}/stat") as file:
            asleep = asleep + 1 if file.read().rpartition(")")[2].split()[0] == "S" else 0
        time.sleep(0.01)


def changed_wrongs(abd, place):
    """Whether a fault is explained by what was read, if the file is changed before its fault is said."""
    wanted = said(abd, place, "explain busy.history").replace("busy.history", "changed.history")
    name = os.path.join(place, "changed.history")
    with open(name, "w") as file:
        file.write(FILES["busy.history"])
    taken, given = full_pipe()
    process = subprocess.Popen([abd, "explain", "changed.history"], cwd=place, stdout=subprocess.DEVNULL, stderr=given)
    os.close(given)
    wait_until_asleep(process)
    with open(name, "w") as file:
        file.write(FILES["bad.history"])
    with open(taken) as errors:
        ran = errors.read().lstrip(" ")
    process.wait()
    if ran != wanted:
        yield f"a file that was changed once it was read: {ran!r}"


def main():
    abd = os.path.abspath(sys.argv[1])
    add_all()
    bad = False
    with tempfile.TemporaryDirectory() as place:
        for name, text in FILES.items():
            with open(os.path.join(place, name), "w", encoding="utf-8") as file:
                file.write(text)
        for words, status, errors, full, source in CASES:
            for wrong in wrongs(run(abd, place, words, full, source), words, status, errors, full):
                bad = True
                print(f"{shown(words, full, source)}: {wrong}")
        for wrongs_of in (explained_otherwise, two_pipes_wrongs, long_wrongs, replaced_wrongs, changed_wrongs):
            for wrong in wrongs_of(abd, place):
                bad = True
                print(wrong)
    sys.exit(bad)


if __name__ == "__main__":
    main()
