"""Servers on this machine that are killed, stand still and are started again while clients call them."""

import contextlib
import random
import shutil
import signal
import socket
import subprocess
import sys
import tempfile
import threading
import time

LOOPBACK = "127.0.0.1"


class Server:
    """A server's process. Its words are those of its command line."""

    def __init__(self, words, log):
        self.words, self.log, self.process = words, log, None

    def start(self):
        self.process = subprocess.Popen(self.words, stdout=self.log, stderr=self.log, stdin=subprocess.DEVNULL)

    def kill(self):
        if self.process is not None:
            self.process.kill()
            self.process.wait()


def crash(server, seconds):
    """A fault: the server is killed, and started again after so long."""
    server.kill()
    time.sleep(seconds)
    server.start()


def freeze(server, seconds):
    """A fault: the server stands still for so long, and goes on."""
    server.process.send_signal(signal.SIGSTOP)
    time.sleep(seconds)
    server.process.send_signal(signal.SIGCONT)


class Faults(threading.Thread):
    """Does one of these faults after the other, with pauses, until it is left. A fault is a function of how long it lasts."""

    LEAST, MOST = 0.2, 0.8

    def __init__(self, faults):
        super().__init__(daemon=True)
        self.faults, self.count, self.error, self.is_left = faults, 0, None, threading.Event()

    def run(self):
        try:
            while not self.is_left.wait(random.uniform(self.LEAST, self.MOST)):
                random.choice(self.faults)(random.uniform(self.LEAST, self.MOST))
                self.count += 1
        except Exception as error:
            self.error = error

    def __enter__(self):
        self.start()

    def __exit__(self, *_):
        self.is_left.set()
        self.join()
        print(f"servers: {self.count} faults", file=sys.stderr)
        if self.error is not None:
            raise self.error


def require(program, package):
    """Ends the run if the program isn't installed."""
    if shutil.which(program) is None:
        sys.exit(f"there is no program {program}: Debian's package {package} has it (apt-get install {package})")


def free_ports(count):
    """Ports of this machine at which nobody listens."""
    with contextlib.ExitStack() as sockets:
        opened = [sockets.enter_context(socket.socket()) for _ in range(count)]
        for it in opened:
            it.bind((LOOPBACK, 0))
        return [it.getsockname()[1] for it in opened]


@contextlib.contextmanager
def room():
    """A folder for what servers store, a file for what they say, and a list of servers. At the end they are killed, and the folder goes."""
    signal.signal(signal.SIGTERM, lambda *_: sys.exit(1))
    servers = []
    with tempfile.TemporaryDirectory(prefix="abd-", ignore_cleanup_errors=True) as folder, open(f"{folder}/log", "wb") as log:
        try:
            yield folder, log, servers
        finally:
            for it in servers:
                it.kill()


def wait_until(is_so, what, seconds=20.0):
    """Waits until the function answers yes."""
    last = time.monotonic() + seconds
    while not is_so():
        if time.monotonic() > last:
            raise TimeoutError(f"{what}: not ready in {seconds:.0f} seconds")
        time.sleep(0.05)
