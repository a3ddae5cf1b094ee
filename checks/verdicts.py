"""What tests have in common: how faults are shown, how things are spoiled, and how it is told of them whether they were noticed."""
import re
from collections import Counter

SHOWN = 5
# In the place of what is spoiled: itself.
SAME = r"\g<0>"
# Lines that a program prints: a row of a read, and an event of a watch or a version.
ROW, EVENT = r"^\d+ [a-z0-9_].*\n", r"^\d+ [+-].*\n"
OTHER_KIND = [("an event of the other kind", rf"^(\d+) [{sign}]", rf"\1 {other}") for sign, other in ("+-", "-+")]


def none(faults):
    """Fails where there are any, and shows the first of them."""
    faults = [*faults]
    assert not faults, "\n\n".join([f"{len(faults)} faults", *(str(it)[:3000] for it in faults[:SHOWN])])


def all_noticed(spoiled, fewest=1, most=0):
    """Each of what was spoiled has to be noticed, but for so great a part, and so many kinds have to be there. Each is its kind, whether it was noticed, and
    what it was."""
    tried, passed = Counter(), []
    for kind, is_noticed, *what in spoiled:
        tried[kind] += 1
        passed += [] if is_noticed else [f"not noticed: {kind}: {what}"]
    print(f"spoiled: {sum(tried.values())} of {len(tried)} kinds, {len(passed)} not noticed")
    none(passed if len(passed) > most * sum(tried.values()) else [])
    assert len(tried) >= fewest, f"only the kinds {sorted(tried)}"


def spoiled_texts(text, kinds):
    """The text with one part of it changed, by a table: the name of a kind, the shape of a part, and what comes in its place, which a call may tell."""
    for kind, shape, instead in kinds:
        pattern, at = re.compile(shape, re.MULTILINE), 0
        while at <= len(text) and (found := pattern.search(text, at)):
            other = instead(found) if callable(instead) else found.expand(instead)
            yield kind, text[: found.start()] + other + text[found.end() :]
            at = found.start() + 1


def less_or_more(name, shape):
    """Kinds of such a line: it is not there, or twice."""
    return [(f"{name} is missing", shape, ""), (f"{name} twice", shape, SAME * 2)]


def less(some, at):
    return some[:at] + some[at + 1 :]


def double(some, at):
    return some[: at + 1] + some[at:]


def turned(some, at):
    """The one there and the next one, the other way round."""
    return some[:at] + some[at + 1 : at + 2] + some[at : at + 1] + some[at + 2 :]


class Nothing(Exception):
    """There is nothing that could be spoiled so."""


class Choosing:
    """What is to be spoiled, with the seed by which that is chosen."""

    def choose(self, some):
        some = list(some)
        if not some:
            raise Nothing
        return self.random.choice(some)


def is_refused(by, *errors):
    """Whether the call ends by one of these errors."""
    try:
        by()
    except errors:
        return True
    return False
