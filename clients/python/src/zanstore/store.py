"""A store that threads may share."""

from __future__ import annotations

import contextlib
import socket
import threading
import time
from collections.abc import Callable, Iterable, Iterator, Sequence

from zanstore import core
from zanstore.core import Answer, Answers, Changes, Checked, CheckedMany, Condition, Found, Read, Request, Steps, Watched, Why


def is_quiet(connection: socket.socket) -> bool:
    """Whether a connection still stands, and nothing has come that nobody asked for."""
    connection.setblocking(False)
    try:
        connection.recv(1)
    except BlockingIOError:
        return True
    except OSError:
        pass
    return False


class Kept:
    """The connections that nobody uses now, each of which was left after a whole answer."""

    def __init__(self) -> None:
        self.lock, self.connections, self.closings = threading.Lock(), list[socket.socket](), 0

    def take(self) -> socket.socket | None:
        """The one that was used last and still stands, if there is one."""
        while True:
            with self.lock:
                if not self.connections:
                    return None
                connection = self.connections.pop()
            if is_quiet(connection):
                return connection
            connection.close()

    def put(self, connection: socket.socket, closings: int) -> None:
        """Keeps it, unless all were closed since."""
        with self.lock:
            if closings == self.closings:
                self.connections.append(connection)
                return
        connection.close()

    def close(self) -> None:
        with self.lock:
            self.closings += 1
            closed, self.connections = self.connections, []
        for connection in closed:
            connection.close()


class Store:
    """A session with a server, which threads may share: each asks over a connection of its own, of `connections` at most, and else waits for one.
    A connection that ended is made anew. `timeout` is the limit in seconds of a connection and of each wait for more of an answer."""

    def __init__(self, host: str, port: int, *, connections: int = 4, tries: int = 8, timeout: float = 30.0) -> None:
        self.address, self.tries, self.timeout = (host, port), tries, timeout
        self._room, self._kept = threading.BoundedSemaphore(connections), Kept()

    def __enter__(self) -> Store:
        return self

    def __exit__(self, *_: object) -> None:
        self.close()

    def close(self) -> None:
        """Ends the connections, one in use after its answer. A later request makes another."""
        self._kept.close()

    @contextlib.contextmanager
    def _connection(self) -> Iterator[socket.socket]:
        """A connection, which is kept unless an exception comes: it may still get an answer then, which would be taken for the next one."""
        with self._room:
            closings = self._kept.closings
            connection = self._kept.take() or socket.create_connection(self.address, self.timeout)
            try:
                connection.settimeout(self.timeout)
                connection.setsockopt(socket.IPPROTO_TCP, socket.TCP_NODELAY, 1)
                yield connection
            except BaseException:
                connection.close()
                raise
            self._kept.put(connection, closings)

    def ask(self, requests: list[Request]) -> list[Answer]:
        """The answers to requests that are sent at once. After an exception nobody knows whether a write stands."""
        answers = Answers(requests)
        with self._connection() as connection:
            connection.sendall(core.lines_of(requests))
            while not answers.take(connection.recv(65536)):
                pass
        return answers.found

    def _sleep(self, seconds: float) -> list[Answer]:
        time.sleep(seconds)
        return []

    def _do(self, steps: Steps[Found]) -> Found:
        answers: list[Answer] = []
        try:
            step = next(steps)
            while True:
                try:
                    answers = self.ask(step) if isinstance(step, list) else self._sleep(step)
                except OSError as gone:
                    step = steps.throw(gone)
                else:
                    step = steps.send(answers)
        except StopIteration as end:
            return end.value  # type: ignore[no-any-return]

    def write(self, touch: Iterable[str] = (), delete: Iterable[str] = (), conditions: Iterable[Condition] = ()) -> str:
        """The token of the write. One that was sent twice stands once at most where a condition says that its tuple was not changed meanwhile; so
        only with a condition `since` on a tuple that it touches it is sent again after `12 Unsure` or a lost connection: then `9` may mean that it stands.
        """
        return self._do(core.write(touch, delete, conditions, self.tries))

    def check(self, tuple: str, *, at_least: str | None = None, exact: str | None = None) -> Checked:
        """Whether the user of the tuple is in the userset of its object and relation."""
        return self._do(core.check(tuple, core.freshness(at_least, exact), self.tries))

    def check_many(self, tuples: Sequence[str], *, at_least: str | None = None, exact: str | None = None) -> CheckedMany:
        """The checks of one or more tuples at one place: that of the first, which the others name, and are sent without a wait between them."""
        return self._do(core.check_many(tuples, core.freshness(at_least, exact), self.tries))

    def read(self, *sets: str, at_least: str | None = None, exact: str | None = None) -> Read:
        """The stored tuples of 1 to 16 tuplesets."""
        return self._do(core.read(sets, core.freshness(at_least, exact), self.tries))

    def why(self, tuple: str, *, at_least: str | None = None, exact: str | None = None) -> Why:
        """What a check goes by: a shortest way of stored tuples from the object to the user, read at one place. Past 4,096 usersets it is refused,
        as a check is."""
        return self._do(core.why(tuple, core.freshness(at_least, exact), self.tries))

    def watch(self, token: str, *namespaces: str, pause: float = 1.0) -> Watch:
        """The events after the token, for ever."""
        return Watch(self, token, namespaces, pause)

    def edit(self, object: str, lock: str, change: Callable[[list[str]], Changes]) -> str:
        """Reads a list, lets `change` choose what to touch and delete, and writes that if nobody else has edited the list since; else again."""
        return self._do(core.edit(object, lock, change, self.tries))


class Watch:
    """Lists of events, each once and in their order, with the token to go on from. An empty list is a pause. After an exception, such as a server that
    is gone for longer than the tries of the store, `next` goes on where the last list ended."""

    def __init__(self, store: Store, token: str, namespaces: Sequence[str], pause: float) -> None:
        self.store, self.token, self.namespaces, self.pause = store, token, namespaces, pause
        self._is_at_end = False

    def __iter__(self) -> Watch:
        return self

    def __next__(self) -> Watched:
        if self._is_at_end:
            time.sleep(self.pause)
        found = self.store._do(core.watch(self.token, self.namespaces, self.store.tries))
        self.token, self._is_at_end = found.heartbeat, not found.events
        return found
