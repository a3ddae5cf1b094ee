"""Has a store do what standard input says, and prints what came of it (../../trials.py): trial.py KIND HOST PORT MILLISECONDS"""

import asyncio
import itertools
import signal
import sys
import threading
import time

from zanstore import AsyncStore, NoAnswer, Refused, Store, newest, place, tuple_of, userset

ROUNDS = 100


class GivenUp(Exception):
    pass


class Waiting:
    """A store of asyncio, each of whose calls is waited for."""

    def __init__(self, *words, **more):
        self.loop = asyncio.new_event_loop()
        self.store = AsyncStore(*words, **more)

    def __getattr__(self, name):
        return lambda *words, **more: self.loop.run_until_complete(getattr(self.store, name)(*words, **more))

    def close(self):
        self.store.close()

    def shared(self, tuples):
        async def ask(number):
            return sum([(await self.store.check(tuples[number])).member != (number % 2 == 0) for _ in range(ROUNDS)])

        async def all():
            return sum(await asyncio.gather(*map(ask, range(len(tuples)))))

        return self.loop.run_until_complete(all())

    def give_up(self, tuple):
        """The task is cancelled between the request and its answer."""

        async def ask():
            try:
                return await asyncio.wait_for(self.store.check(tuple), 0.2)
            except asyncio.TimeoutError:
                return "given up"

        return self.loop.run_until_complete(ask())

    def watch(self, *words, pause):
        watched = self.store.watch(*words, pause=pause)
        while True:
            yield self.loop.run_until_complete(watched.__anext__())


class Threaded(Store):
    def shared(self, tuples):
        """How many answers are wrong where threads share the store, each with a tuple of its own: that of every other one is there."""
        wrong = []

        def ask(number):
            for _ in range(ROUNDS):
                if self.check(tuples[number]).member != (number % 2 == 0):
                    wrong.append(number)

        threads = [threading.Thread(target=ask, args=(number,)) for number in range(len(tuples))]
        for thread in threads:
            thread.start()
        for thread in threads:
            thread.join()
        return len(wrong)

    def give_up(self, tuple):
        """Between the request and its answer comes an exception that the client knows nothing of."""

        def give_up(*_):
            raise GivenUp

        signal.signal(signal.SIGALRM, give_up)
        signal.setitimer(signal.ITIMER_REAL, 0.2)
        try:
            return self.check(tuple)
        except GivenUp:
            return "given up"


def spelled(members):
    return " ".join(str(member).lower() for member in members)


def explained(why):
    return " ".join(why.path) if why else f"none: {' '.join(why.walked)}"


def events_of(watched):
    """All events up to the first list that is empty."""
    lists = itertools.takewhile(bool, (events for events, _ in watched))
    return " ".join(f"{event.place}{event.change[0]}" for events in lists for event in events)


def done(store, command, *words):
    if command == "write":
        store.write(touch=words)
        return "wrote"
    if command == "shared":
        return store.shared(words)
    if command == "give-up":
        return store.give_up(*words)
    if command == "close":
        return store.close() or "closed"
    if command == "pause":
        return time.sleep(int(*words) / 1000) or "paused"
    if command == "userset":
        return tuple_of(*words[:2], userset(*words[2:]))
    asked = {
        "check": lambda tuple: spelled([store.check(tuple).member]),
        "check-many": lambda *tuples: spelled(store.check_many(tuples).members),
        "why": lambda tuple: explained(store.why(tuple)),
        "watch": lambda *words: events_of(store.watch(*words, pause=0)),
        **{"tuple": tuple_of, "place": place, "newest": newest},
    }
    return asked[command](*words)


def main(kind, host, port, limit):
    store = {"threads": Threaded, "asyncio": Waiting}[kind](host, int(port), timeout=int(limit) / 1000)
    for words in sys.stdin.buffer.read().decode().split("\x1e"):
        try:
            print(done(store, *words.split("\x1f")))
        except Refused as refused:
            print("refused", refused)
        except NoAnswer:
            print("no answer")
        except OSError:
            print("gone")
        except ValueError:
            print("not a text")


main(*sys.argv[1:])
