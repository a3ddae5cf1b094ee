"""The texts of tuples and tokens, made of their parts and taken apart."""

from __future__ import annotations

import base64
import binascii
import re

# A namespace or relation, and the id of an object or user: printable ASCII without `#`, `@`, `:` and `+`.
NAME, ID = r"[a-z0-9_]{1,64}", r"(?:(?![#@:+])[!-~]){1,128}"
# The first two bytes of a token: its version, and no flags.
BEGIN = b"\1\0"


class Userset(str):
    """The text of a userset, as `userset` makes it."""


def formed(form: str, what: str, text: str) -> str:
    if not re.fullmatch(form, text):
        raise ValueError(f"not {what}: {text!r}")
    return text


def user(id: str) -> str:
    """The id of one user, as it was given. Any other text is a `ValueError`, a userset too."""
    return formed(ID, "the id of a user", id)


def userset(object: str, relation: str) -> Userset:
    """All users that have the relation to the object."""
    return Userset(f"{formed(f'{NAME}:{ID}', 'an object', object)}#{formed(NAME, 'a relation', relation)}")


def tuple_of(object: str, relation: str, who: str | Userset) -> str:
    """The text of a tuple. `who` is the id of a user, whatever it contains, unless it was made by `userset`."""
    return f"{userset(object, relation)}@{who if isinstance(who, Userset) else user(who)}"


def parts(token: str) -> tuple[int, int]:
    """The store and the place of a token."""
    try:
        some = base64.b64decode(token, validate=True)
    except binascii.Error:
        some = b""
    if len(token) != 24 or len(some) != 18 or not some.startswith(BEGIN):
        raise ValueError(f"not a token: {token!r}")
    return int.from_bytes(some[2:10], "big"), int.from_bytes(some[10:], "big")


def place(token: str) -> int:
    """The place of a token: the number of a write in the log."""
    return parts(token)[1]


def newest(one: str, other: str) -> str:
    """The token of the later place, of two of one store."""
    if parts(one)[0] != parts(other)[0]:
        raise ValueError(f"tokens of two stores: {one}, {other}")
    return max(one, other, key=place)


def start(store: int) -> str:
    """The token of place 0 of a store, which is before its first write."""
    return base64.b64encode(BEGIN + store.to_bytes(8, "big") + bytes(8)).decode()


def sides(tuple: str) -> tuple[str, str]:
    """The userset of a tuple's object and relation, and its user."""
    formed(f"{NAME}:{ID}#{NAME}@({ID}|{NAME}:{ID}#{NAME})", "a tuple", tuple)
    left, _, right = tuple.partition("@")
    return left, right
