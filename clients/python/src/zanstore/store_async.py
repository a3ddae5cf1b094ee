"""A store that the tasks of one event loop may share. The calls are those of `zanstore.store`, which says what each does."""

from __future__ import annotations

import asyncio
import contextlib
import socket
from collections.abc import AsyncIterator, Awaitable, Callable, Iterable, Sequence

from zanstore import core
from zanstore.core import Answer, Answers, Changes, Checked, CheckedMany, Condition, Found, Read, Request, Steps, Watched, Why
from zanstore.store import Kept


class AsyncStore:
    """A session with a server, which tasks may share: each asks over a connection of its own, of `connections` at most, and else waits for one."""

    def __init__(self, host: str, port: int, *, connections: int = 4, tries: int = 8, timeout: float = 30.0) -> None:
        self.address, self.tries, self.timeout = (host, port), tries, timeout
        self._room, self._kept = asyncio.BoundedSemaphore(connections), Kept()

    async def __aenter__(self) -> AsyncStore:
        return self

    async def __aexit__(self, *_: object) -> None:
        self.close()

    def close(self) -> None:
        self._kept.close()

    async def _within(self, waited: Awaitable[Found]) -> Found:
        try:
            return await asyncio.wait_for(waited, self.timeout)
        except asyncio.TimeoutError as late:
            raise TimeoutError("timed out") from late

    async def _connect(self) -> socket.socket:
        loop, gone = asyncio.get_running_loop(), OSError("no such host")
        host, port = self.address
        for family, kind, protocol, _, address in await self._within(loop.getaddrinfo(host, port, type=socket.SOCK_STREAM)):
            connection = socket.socket(family, kind, protocol)
            try:
                connection.setblocking(False)
                await self._within(loop.sock_connect(connection, address))
                return connection
            except BaseException as fault:
                connection.close()
                if not isinstance(fault, OSError):
                    raise
                gone = fault
        raise gone

    @contextlib.asynccontextmanager
    async def _connection(self) -> AsyncIterator[socket.socket]:
        async with self._room:
            closings = self._kept.closings
            connection = self._kept.take() or await self._connect()
            try:
                connection.setsockopt(socket.IPPROTO_TCP, socket.TCP_NODELAY, 1)
                yield connection
            except BaseException:
                connection.close()
                raise
            self._kept.put(connection, closings)

    async def ask(self, requests: list[Request]) -> list[Answer]:
        loop, answers = asyncio.get_running_loop(), Answers(requests)
        async with self._connection() as connection:
            await self._within(loop.sock_sendall(connection, core.lines_of(requests)))
            while not answers.take(await self._within(loop.sock_recv(connection, 65536))):
                pass
        return answers.found

    async def _do(self, steps: Steps[Found]) -> Found:
        answers: list[Answer] = []
        try:
            step = next(steps)
            while True:
                try:
                    answers = await self.ask(step) if isinstance(step, list) else await asyncio.sleep(step, [])
                except OSError as gone:
                    step = steps.throw(gone)
                else:
                    step = steps.send(answers)
        except StopIteration as end:
            return end.value  # type: ignore[no-any-return]

    async def write(self, touch: Iterable[str] = (), delete: Iterable[str] = (), conditions: Iterable[Condition] = ()) -> str:
        return await self._do(core.write(touch, delete, conditions, self.tries))

    async def check(self, tuple: str, *, at_least: str | None = None, exact: str | None = None) -> Checked:
        return await self._do(core.check(tuple, core.freshness(at_least, exact), self.tries))

    async def check_many(self, tuples: Sequence[str], *, at_least: str | None = None, exact: str | None = None) -> CheckedMany:
        return await self._do(core.check_many(tuples, core.freshness(at_least, exact), self.tries))

    async def read(self, *sets: str, at_least: str | None = None, exact: str | None = None) -> Read:
        return await self._do(core.read(sets, core.freshness(at_least, exact), self.tries))

    async def why(self, tuple: str, *, at_least: str | None = None, exact: str | None = None) -> Why:
        return await self._do(core.why(tuple, core.freshness(at_least, exact), self.tries))

    def watch(self, token: str, *namespaces: str, pause: float = 1.0) -> AsyncWatch:
        return AsyncWatch(self, token, namespaces, pause)

    async def edit(self, object: str, lock: str, change: Callable[[list[str]], Changes]) -> str:
        return await self._do(core.edit(object, lock, change, self.tries))


class AsyncWatch:
    """What `Watch` is, for `async for`."""

    def __init__(self, store: AsyncStore, token: str, namespaces: Sequence[str], pause: float) -> None:
        self.store, self.token, self.namespaces, self.pause = store, token, namespaces, pause
        self._is_at_end = False

    def __aiter__(self) -> AsyncWatch:
        return self

    async def __anext__(self) -> Watched:
        if self._is_at_end:
            await asyncio.sleep(self.pause)
        found = await self.store._do(core.watch(self.token, self.namespaces, self.store.tries))
        self.token, self._is_at_end = found.heartbeat, not found.events
        return found
