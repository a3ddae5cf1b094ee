"""The server as a process: started over a folder, asked to be ready, killed, and waited for."""
import contextlib
import datetime
import math
import os
import random
import re
import resource
import signal
import socket
import subprocess
import threading
import time

import programs
from judge.worlds import Wrong, must
from programs import without_progress
from programs import zanstore as program

HOST = "127.0.0.1"
STORE = 7
SHARDS = 3
# Far more seconds than an opening, or an end, takes where much else runs.
LIMIT = 60
# Below the ports that a system chooses by itself: a client that tries one of those while nobody listens may be connected to itself.
PORTS = range(20000, 32000)
PORT_TRIES = 5


def built():
    return os.access(program(), os.X_OK)


def free_port():
    while True:
        port = random.choice(PORTS)
        with socket.socket() as tried:
            try:
                tried.bind((HOST, port))
                return port
            except OSError:
                pass


def words_of(options):
    return [word for name, value in options.items() for word in (f"--{name}", str(value))]


def run(*words):
    return programs.run([program(), *words])


def waits(is_so, why, seconds=LIMIT):
    """What comes to be so within these seconds. Raises `Wrong` where it doesn't."""
    late = time.monotonic() + seconds
    while not (found := is_so()):
        must(time.monotonic() < late, why)
        time.sleep(0.02)
    return found


@contextlib.contextmanager
def lasting(what, least=0, most=math.inf):
    """What is done takes so many seconds."""
    begin = time.monotonic()
    yield
    waited = time.monotonic() - begin
    must(least <= waited < most, f"{what}: {waited:.1f} s, and not {least} to {most}")


TIMED = re.compile(r"zanstore: ([0-9]{4}-[0-9]{2}-[0-9]{2}T[0-9]{2}:[0-9]{2}:[0-9]{2}Z) ")


def untimed(line):
    """A line of standard error without its time, which has to be that of now."""
    found = TIMED.match(line)
    must(found, f"a line has no time: {line!r}")
    told = datetime.datetime.fromisoformat(found[1])
    late = (datetime.datetime.now(datetime.timezone.utc) - told).total_seconds()
    must(-1 <= late <= 2 * LIMIT, f"a line is told {late:.0f} seconds late: {line!r}")
    return "zanstore: " + line[found.end() :]


def is_start(text, folder, shards, horizon, latest):
    """Whether the text is just the line that a server of a new store, or of one with these places, prints on standard error as it begins."""
    text = without_progress(text)
    places = f"places {horizon} to {latest}" if latest else "a new store"
    wanted = re.escape(f"zanstore: {folder}: {shards} shards, {places}, opened in ")
    return re.fullmatch(wanted + rf"[0-9]+\.[0-9]{{3}} s from [0-9]+ bytes of {2 * (shards + 1)} files; answers up to [0-9]+ MiB, window up to [0-9]+ places or [0-9]+ MiB\n", untimed(text)) is not None


def is_beginning(text, folder, shards, port):
    """Whether a server of a new store has told just how it was opened, and its port."""
    start, listening = ["", *without_progress(text).splitlines(keepends=True)][-2:]
    is_there = without_progress(text) == start + listening and is_start(start, folder, shards, 0, 0)
    return is_there and untimed(listening) == f"zanstore: listening at {HOST}:{port}\n"


def limit(longest, descriptors):
    """No file gets longer, and a call that would write past that ends the process by a signal; and no more descriptors are there. As many as there are where
    none is given."""
    for kind, most in ((resource.RLIMIT_FSIZE, longest), (resource.RLIMIT_NOFILE, descriptors)):
        if most:
            resource.setrlimit(kind, (most, most))


class Server:
    """A server over a folder. It is ready once this is made, unless `ready` is asked for later; no file of it gets longer than `longest` bytes."""

    def __init__(self, folder, waits=True, environment=None, longest=None, descriptors=None, flags=(), port=None, **options):
        for left in reversed(range(PORT_TRIES)):
            self.port = port or free_port()
            given = {"dir": folder, "store": STORE, "shards": SHARDS, "listen": f"{HOST}:{self.port}", "workers": 4, **options}
            self.begin([program(), "serve", *words_of(given), *flags], environment, lambda: limit(longest, descriptors))
            if not waits or self.is_ready():
                return
            ended = self.ended()
            # Another server may have taken the port that was free.
            if port or not left or "zanstore: listen\n" not in ended[2]:
                raise Wrong(f"a server is not ready: {ended}")

    def begin(self, words, environment, limited):
        pipes = {"stdin": subprocess.DEVNULL, "stdout": subprocess.PIPE, "stderr": subprocess.PIPE}
        self.child = subprocess.Popen(words, **pipes, env={**os.environ, **(environment or {})}, preexec_fn=limited)

    def __enter__(self):
        return self

    def __exit__(self, *_):
        self.kill()

    def next_line(self, output, seconds=LIMIT):
        """The next line of its output or of its errors; an empty one where it ended before, or does not print one in time."""
        guard = threading.Timer(seconds, self.child.kill)
        guard.start()
        line = output.readline()
        guard.cancel()
        return line

    def told(self):
        """The next line of its errors, but for those of a long opening."""
        while True:
            line = self.next_line(self.child.stderr).decode()
            if not line or without_progress(line):
                return line

    def begins(self, folder):
        """That a server of a new store tells how it was opened, and its port."""
        lines = self.told() + self.told()
        must(is_beginning(lines, folder, SHARDS, self.port), f"standard error says {lines!r}")

    def is_ready(self):
        """Whether it printed the line `ready`, and did not end before."""
        line = self.next_line(self.child.stdout)
        must(line in (b"ready\n", b""), f"a server prints {line[:80]} first, and not `ready`")
        return line != b""

    def kill(self):
        """What `kill -9` does. It is gone behind this, and what it had open is closed."""
        if self.child.poll() is None:
            self.child.send_signal(signal.SIGKILL)
        self.child.wait()
        self.child.stdout.close()
        self.child.stderr.close()

    def is_silent(self):
        """That standard error tells nothing more until it is killed, which it is now."""
        self.child.kill()
        rest = self.child.stderr.read().decode()
        must(not rest, f"standard error goes on: {rest}")

    def goes_on(self):
        return self.child.poll() is None

    def ends(self):
        """That it ends by itself, with status 0 and no word but `ready`. What it told."""
        status, out, err = self.ended()
        must((status, out) == (0, ""), f"ends with (status, output, error) {(status, out, err)}")
        return err

    def ended(self):
        """Its status, and what it printed besides `ready`, once it ended by itself."""
        try:
            out, err = self.child.communicate(timeout=LIMIT)
        except subprocess.TimeoutExpired as late:
            self.child.kill()
            raise Wrong(f"a server has not ended in {LIMIT} seconds") from late
        return self.child.returncode, out.decode(errors="replace"), err.decode(errors="replace")
