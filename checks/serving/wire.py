"""A session with a server: a line in, a line out; and requests as values."""
import contextlib
import errno
import json
import socket

from judge.lines import read_token
from judge.lines import token as token_of
from judge.worlds import Wrong, must
from serving.server import HOST, STORE

# Far more seconds than an answer takes where much else runs.
LIMIT = 60


class Gone(Exception):
    """The connection ended, and no whole line came before its end."""


def touch(tuple):
    return {"op": "touch", "tuple": tuple}


def delete(tuple):
    return {"op": "delete", "tuple": tuple}


def write(*changes, **more):
    """A write of `+tuple` and `-tuple`."""
    made = [touch(text[1:]) if text[0] == "+" else delete(text[1:]) for text in changes]
    return {"op": "write", "changes": made, **more}


def read(*sets, **fresh):
    return {"op": "read", "sets": list(sets), **fresh}


def check(tuple, **fresh):
    return {"op": "check", "tuple": tuple, **fresh}


def watch(start, *namespaces, limit=256):
    return {"op": "watch", "from": start, "limit": limit, "namespaces": list(namespaces)}


def spelled(request):
    return json.dumps(request, separators=(",", ":")).encode() + b"\n"


def told(answer):
    """An answer as it is spelled."""
    return json.dumps(answer, sort_keys=True, separators=(",", ":")).encode()


def token(place, store=STORE):
    return token_of(store, place)


def place_of(answer):
    """The place of the token of an answer."""
    text = answer.get("zookie") or answer.get("heartbeat")
    must(text, f"has no token: {str(answer)[:200]}")
    return read_token(text, STORE)


class Session:
    def __init__(self, port, limit=LIMIT):
        self.port = port
        try:
            self.socket = socket.create_connection((HOST, port), timeout=limit)
        except OSError as gone:
            raise Gone(f"no connection: {gone}") from gone
        self.socket.setsockopt(socket.IPPROTO_TCP, socket.TCP_NODELAY, 1)
        self.lines = self.socket.makefile("rb")

    def __enter__(self):
        return self

    def __exit__(self, *_):
        self.close()

    def close(self):
        self.lines.close()
        self.socket.close()

    def send(self, some):
        try:
            self.socket.sendall(some)
        except TimeoutError as late:
            raise Wrong("a line is not taken in time") from late
        except OSError as gone:
            raise Gone(f"it ended: {gone}") from gone

    def end(self):
        """No more is sent; what is answered still can be read."""
        self.socket.shutdown(socket.SHUT_WR)

    def line(self):
        """The next answer's bytes, without their line feed."""
        try:
            line = self.lines.readline()
        except TimeoutError as late:
            raise Wrong("no answer in time") from late
        except OSError as gone:
            raise Gone(f"it ended: {gone}") from gone
        if not line.endswith(b"\n"):
            raise Gone(f"it ended behind {line[:80]}")
        return line[:-1]

    def answer(self):
        line = self.line()
        try:
            return json.loads(line)
        except ValueError as no:
            raise Wrong(f"an answer is no JSON: {line[:200]}") from no

    def ask(self, request):
        self.send(spelled(request))
        return self.answer()

    def is_ended(self):
        """Whether the server ended it: behind this there is no line."""
        try:
            line = self.line()
        except Gone:
            return True
        raise Wrong(f"there is one more answer: {line[:80]}")


@contextlib.contextmanager
def begun(port, count):
    """So many connections that are begun, whether or not they are taken."""
    with contextlib.ExitStack() as opened:
        for one in [opened.enter_context(socket.socket()) for _ in range(count)]:
            one.setblocking(False)
            must(one.connect_ex((HOST, port)) in (0, errno.EINPROGRESS), "a connection can't be begun")
        yield


def event(place, change):
    """A change of a write as a watch tells it."""
    return {"change": change["op"], "place": place, "tuple": change["tuple"]}


def refusal(number, name):
    return {"error": number, "name": name}


def is_next(session, wanted, request="what it was sent"):
    """The next answer, to the byte."""
    answer, text = session.line(), told(wanted)
    must(answer == text, f"answers {answer[:300]} to {str(request)[:200]}, and not {text[:300]}")


def is_told(session, request, wanted):
    session.send(spelled(request))
    is_next(session, wanted, request)
