"""A client of zanstore: `Store` for threads, `AsyncStore` for asyncio. Neither needs another library."""

from zanstore.core import Changes, Checked, CheckedMany, Condition, Event, NoAnswer, Read, Refused, Watched, Why, absent, exists, since
from zanstore.store import Store, Watch
from zanstore.store_async import AsyncStore, AsyncWatch
from zanstore.texts import Userset, newest, place, start, tuple_of, user, userset

__all__ = [
    "AsyncStore",
    "AsyncWatch",
    "Changes",
    "Checked",
    "CheckedMany",
    "Condition",
    "Event",
    "NoAnswer",
    "Read",
    "Refused",
    "Store",
    "Userset",
    "Watch",
    "Watched",
    "Why",
    "absent",
    "exists",
    "newest",
    "place",
    "since",
    "start",
    "tuple_of",
    "user",
    "userset",
]
