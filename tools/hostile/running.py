"""Runs the program once: over bytes that come at once or in pieces, with a limit of time, and its peak of memory."""
import os
import select
import signal
import sys
import tempfile
import time

from replies import Amiss

ROOT = os.path.dirname(os.path.dirname(os.path.dirname(os.path.abspath(__file__))))
PROGRAMS = [f"{ROOT}/crates/watchcache/out/watchcache", f"{ROOT}/bin/watchcache"]
LIMIT_S = 60


def program_there(given=None):
    found = next((it for it in [given, *PROGRAMS] if it and os.access(it, os.X_OK)), None)
    return os.path.abspath(found) if found else sys.exit("build the program first: make build")


class Ran:
    """What came of a run: its status, below 0 for a signal; what it wrote; its peak of memory in KiB."""

    def __init__(self, status, out, err, peak):
        self.status, self.out, self.err, self.peak = status, out, err, peak


class Runner:
    """Runs a program, in a folder for what goes in and comes out."""

    def __init__(self, program, limit=LIMIT_S):
        self.program, self.limit = program, limit
        shared = "/dev/shm" if os.path.isdir("/dev/shm") else None
        self.folder = tempfile.TemporaryDirectory(prefix="strangers-", dir=shared)
        self.paths = [f"{self.folder.name}/{it}" for it in ("in", "out", "err")]

    def run(self, words, data, pieces=None, environment=None, stdin=None, stdout=None):
        """A run over these bytes: of a file, or where `pieces` are told, of a pipe into which so many are put at a time.
        `stdin` and `stdout` are paths that stand for them."""
        source, sink, errors = self.paths
        write, inside = None, None
        if pieces:
            inside, write = os.pipe()
            os.set_inheritable(inside, True)
        else:
            with open(source, "wb") as file:
                file.write(data)
        flags = os.O_WRONLY | os.O_CREAT | os.O_TRUNC
        actions = [(os.POSIX_SPAWN_DUP2, inside, 0), (os.POSIX_SPAWN_CLOSE, inside)] if pieces else [
            (os.POSIX_SPAWN_OPEN, 0, stdin or source, os.O_RDONLY, 0)]
        actions += [(os.POSIX_SPAWN_OPEN, 1, stdout or sink, flags, 0o600), (os.POSIX_SPAWN_OPEN, 2, errors, flags, 0o600)]
        process = os.posix_spawn(self.program, [self.program, *words], environment or os.environ, file_actions=actions)
        if pieces:
            os.close(inside)
            feed(write, data, pieces)
        status, peak = end_of(process, self.limit)
        out = b"" if stdout else open(sink, "rb").read()
        return Ran(status, out, open(errors, "rb").read(), peak)


def feed(write, data, pieces):
    at = 0
    try:
        for length in pieces:
            if at >= len(data):
                break
            at += os.write(write, data[at:at + length])
            time.sleep(0.0005)
        while at < len(data):
            at += os.write(write, data[at:])
    except BrokenPipeError:
        pass
    os.close(write)


def end_of(process, limit):
    """The status of a process and its peak of memory in KiB; one that doesn't end in time is amiss."""
    watched = os.pidfd_open(process)
    is_over = select.select([watched], [], [], limit)[0]
    os.close(watched)
    if not is_over:
        os.kill(process, signal.SIGKILL)
    _, status, usage = os.wait4(process, 0)
    if not is_over:
        raise Amiss(f"no end within {limit} s")
    return os.waitstatus_to_exitcode(status), usage.ru_maxrss
