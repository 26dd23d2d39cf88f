"""The built program, run under devices that give little, take little, or fail."""

import contextlib
import os
import pty
import shutil
import subprocess
import tempfile
import tty
from dataclasses import dataclass

SECONDS = 120


@dataclass(frozen=True)
class Devices:
    """How a run's devices are: the most bytes that a read gives, the file whose reader fails at its end, the room of an output and which
    one has it (`out` or `errors`), and whether standard error is a terminal."""

    pieces: int | None = None
    fails: str | None = None
    room: int | None = None
    narrow: str = "out"
    terminal: bool = False

    def environment(self, library):
        """What the library, which makes the devices so, reads in the environment."""
        asked = {"READ_PIECES": self.pieces, "READ_FAILS": self.fails, "FILE_ROOM": self.room}
        asked = {name: str(value) for name, value in asked.items() if value is not None}
        return {**os.environ, **asked, **({"LD_PRELOAD": library} if asked else {})}


WELL = Devices()


@dataclass(frozen=True)
class Said:
    """What comes of a run: its status, and what goes to both outputs."""

    status: int
    out: bytes
    errors: bytes


def text_of(output):
    """An output as a text: `<end>` stands where its last line has no end."""
    text = output.decode("utf-8")
    return text + "<end>\n" if text and not text.endswith("\n") else text


def outputs_of(said):
    """Both outputs, the second below a line that says so if there is one."""
    return text_of(said.out) + ("standard error:\n" if said.errors else "") + text_of(said.errors)


def compiled(folder):
    """The library that makes devices so, compiled into that folder."""
    compiler = shutil.which("cc") or shutil.which("clang")
    if not compiler:
        raise SystemExit("command_rows: there is no C compiler, neither cc nor clang")
    source = os.path.join(os.path.dirname(os.path.abspath(__file__)), "devices.c")
    subprocess.run([compiler, "-O1", "-shared", "-fPIC", "-o", f"{folder}/devices.so", source], check=True)
    return f"{folder}/devices.so"


@contextlib.contextmanager
def terminal():
    """A terminal: the end that is read here, and the one that a program writes to."""
    ours, theirs = pty.openpty()
    tty.setraw(theirs)
    with open(ours, "rb", buffering=0) as reader, open(theirs, "wb", buffering=0) as writer:
        yield reader, writer


def written_to(reader, writer):
    """What was written to the terminal."""
    writer.close()
    parts = []
    # once nothing more can be written, a read fails
    with contextlib.suppress(OSError):
        while part := reader.read(65_536):
            parts.append(part)
    return b"".join(parts)


@dataclass(frozen=True)
class Program:
    """The program at that path, and the library that makes devices so."""

    path: str
    library: str

    def run(self, place, words, devices=WELL, **given):
        """What comes of the words in that folder; `stdin` or `input` is what standard input gives."""
        with contextlib.ExitStack() as opened:
            sinks = {"stdout": subprocess.PIPE, "stderr": subprocess.PIPE}
            narrow = "stderr" if devices.narrow == "errors" else "stdout"
            if devices.room is not None:
                sinks[narrow] = opened.enter_context(tempfile.TemporaryFile())
            if devices.terminal:
                reader, sinks["stderr"] = opened.enter_context(terminal())
            given = given or {"stdin": subprocess.DEVNULL}
            environment = devices.environment(self.library)
            ran = subprocess.run([self.path, *words], cwd=place, env=environment, timeout=SECONDS, **sinks, **given)
            outputs = {"stdout": ran.stdout, "stderr": ran.stderr}
            if devices.room is not None:
                sinks[narrow].seek(0)
                outputs[narrow] = sinks[narrow].read()
            if devices.terminal:
                outputs["stderr"] = written_to(reader, sinks["stderr"])
        return Said(ran.returncode, outputs["stdout"], outputs["stderr"])
