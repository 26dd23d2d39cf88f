"""monitor_pipes.py ABD

Runs `abd monitor` on pipes as tests and people make them: full ones in which nothing follows, odd pieces, writers and readers that end early,
Ctrl-C, a file that grows under `tail -f`, and docs/using/toy_store.py with each of its bugs. Prints what comes out otherwise than it should;
the status is 1 then.
"""

import os
import select
import signal
import subprocess
import sys
import tempfile
import time

TOY = os.path.join(os.path.dirname(os.path.abspath(__file__)), "..", "docs", "using", "toy_store.py")
HEADER = b'{"abd":"history","version":1}\n'
FULL = 65_536
SECONDS = 10
# the bugs of the toy store that values show soon, and how many calls are made at most
BUGS = {"small-majority": 20_000, "tie": 20_000, "last-write": 20_000, "stale": 20_000}


def read_lines(call, value, key=b"x"):
    """The lines of a read."""
    begin = b'{"call":%d,"client":1,"do":"read","key":"%s","row":"invoke"}\n' % (call, key)
    return begin + b'{"call":%d,"row":"respond","value":%s}\n' % (call, value)


def sound(calls):
    """A history of so many reads that found nothing."""
    return HEADER + b"".join(read_lines(call, b"null") for call in range(calls))


def full_with_fault(rest):
    """65,536 bytes that have a refused read, and behind it so many lines' calls and a line without an end."""
    calls = 300
    text = sound(calls) + read_lines(calls, b'"a"') + b"".join(read_lines(calls + 1 + at, b"null", b"y") for at in range(rest))
    return text + b'{"call":' + b" " * (FULL - len(text) - 8)


def ends_full():
    """65,536 bytes, the last of which ends the line of a refused read."""
    text = sound(300)
    last = read_lines(300, b'"a"')
    return text[:-2] + b" " * (FULL - len(text) - len(last)) + text[-2:] + last


def start(abd, *words, **given):
    return subprocess.Popen([abd, "monitor", *words], stdin=subprocess.PIPE, stdout=subprocess.PIPE, stderr=subprocess.PIPE, **given)


def first_bytes(process, seconds):
    """What the process writes first, and after how many seconds; nothing if it writes none in that time."""
    begun = time.monotonic()
    ready = select.select([process.stdout], [], [], seconds)[0]
    return os.read(process.stdout.fileno(), FULL) if ready else b"", time.monotonic() - begun


def give(process, text):
    """Gives the text to the process, unless it has ended."""
    try:
        process.stdin.write(text)
        process.stdin.flush()
    except BrokenPipeError:
        pass


def ended(process, seconds=SECONDS):
    """The status, within that time; None, and the process is ended, if it takes longer."""
    try:
        return process.wait(seconds)
    except subprocess.TimeoutExpired:
        process.kill()
        process.wait()
        return None


def full_pipes(abd):
    """A full pipe with the fault in it, and then nothing: the line is there within a second."""
    for name, text in (("at its end", ends_full()), ("in it", full_with_fault(5))):
        for words in ([], ["--all"], ["--json"]):
            process = start(abd, *words)
            give(process, text)
            said, seconds = first_bytes(process, SECONDS)
            if len(text) != FULL or b"not atomic" not in said or seconds > 1:
                yield f"a full pipe with the fault {name}, {words}: {said[:60]!r} after {seconds:.1f} s"
            if "--all" not in words and ended(process) != 1:
                yield f"a full pipe with the fault {name}, {words}: it doesn't end with 1"
            process.kill()
            process.communicate()


def odd_pieces(abd):
    """Pieces of several sizes: all say what one piece does."""
    text = sound(1_000) + read_lines(1_000, b'"a"') + read_lines(1_001, b'"b"', b"y")
    wanted = subprocess.run([abd, "monitor", "--all"], input=text, capture_output=True)
    for size in (7, 1_000, 4_097, FULL - 1, FULL, FULL + 1):
        process = start(abd, "--all")
        for at in range(0, len(text), size):
            give(process, text[at : at + size])
        out, errors = process.communicate()
        if (process.returncode, out, errors) != (1, wanted.stdout, b""):
            yield f"pieces of {size} bytes: status {process.returncode}, {out[-60:]!r}, {errors!r}"
    if not wanted.stdout.endswith(b"not atomic: 2 of 2 keys; 1,002 calls\n"):
        yield f"--all: the last line is {wanted.stdout[-60:]!r}"


def readers_that_end(abd):
    """A reader of the output that takes one byte: the command ends, though more comes."""
    process = start(abd, "--all")
    reader = subprocess.Popen(["head", "-c", "1"], stdin=process.stdout, stdout=subprocess.DEVNULL)
    process.stdout.close()
    call, until = 0, time.monotonic() + SECONDS
    give(process, HEADER)
    while process.poll() is None and time.monotonic() < until:
        give(process, read_lines(call, b'"a"', b"k%d" % call))
        call += 1
    reader.wait()
    if ended(process, 1) not in (4, -signal.SIGPIPE):
        yield f"a reader that ends early: status {process.returncode} after {call} refused keys"


def interrupted(abd):
    """Ctrl-C ends it, while it waits for more."""
    process = start(abd)
    give(process, sound(10))
    time.sleep(0.3)
    process.send_signal(signal.SIGINT)
    if ended(process, 2) not in (-signal.SIGINT, 130):
        yield f"Ctrl-C: status {process.returncode}"


def writers_that_end(abd):
    """A writer that ends in the middle of a line, and one that ends before its calls do."""
    begin = read_lines(10, b"null").split(b"\n")[0]
    cut = b"abd: standard input: line 22: fault 1 not JSON\n"
    for text, wanted in (
        (sound(10) + begin[:20], (3, b"", cut)),
        (sound(10) + begin, (0, b"atomic: 11 calls on 1 key\n", b"")),
        (sound(10) + begin + b"\n", (0, b"atomic: 11 calls on 1 key\n", b"")),
        (b"", (3, b"", b"abd: standard input: line 1: fault 2 no header\n")),
    ):
        ran = subprocess.run([abd, "monitor"], input=text, capture_output=True)
        if (ran.returncode, ran.stdout, ran.stderr) != wanted:
            yield f"a writer that ends after {text[-30:]!r}: {ran}"


def growing_file(abd):
    """A file that grows under `tail -f`: nothing is said before the fault is there, and then it is."""
    with tempfile.NamedTemporaryFile() as file:
        file.write(sound(10))
        file.flush()
        tail = subprocess.Popen(["tail", "-s", "0.1", "-n", "+1", "-f", file.name], stdout=subprocess.PIPE)
        process = subprocess.Popen([abd, "monitor"], stdin=tail.stdout, stdout=subprocess.PIPE)
        tail.stdout.close()
        early = first_bytes(process, 1)[0]
        file.write(read_lines(10, b'"a"'))
        file.flush()
        said = first_bytes(process, SECONDS)[0]
        status = ended(process)
        tail.terminate()
        tail.wait()
        if early or b"from line 23 on" not in said or status != 1:
            yield f"a file that grows: {early!r}, then {said!r}, status {status}"


def toy_stores(abd):
    """The toy store into the monitor: if it is right it is judged to its end, and each bug ends it."""
    runs = {None: 1_000, **BUGS}
    for bug, calls in runs.items():
        words = [sys.executable, TOY, "--calls", str(calls), *(["--bug", bug] if bug else [])]
        store = subprocess.Popen(words, stdout=subprocess.PIPE, stderr=subprocess.DEVNULL)
        process = subprocess.Popen([abd, "monitor"], stdin=store.stdout, stdout=subprocess.PIPE)
        store.stdout.close()
        out = process.communicate()[0].decode()
        wanted = f"atomic: {calls:,} calls on 4 keys\n" if bug is None else None
        is_so = out == wanted if wanted else ": not atomic " in out.split("\n")[0]
        if not is_so or process.returncode != (1 if bug else 0):
            yield f"toy_store.py --bug {bug}: status {process.returncode}, {out!r}"
        if ended(store) is None:
            yield f"toy_store.py --bug {bug}: it doesn't end when the monitor has"


def main():
    signal.signal(signal.SIGINT, signal.default_int_handler)  # who starts this may ignore Ctrl-C, and what it starts would too
    abd = os.path.abspath(sys.argv[1])
    bad = False
    for rows in (full_pipes, odd_pieces, readers_that_end, interrupted, writers_that_end, growing_file, toy_stores):
        for wrong in rows(abd):
            bad = True
            print(f"{rows.__name__}: {wrong}", flush=True)
    sys.exit(bad)


if __name__ == "__main__":
    main()
