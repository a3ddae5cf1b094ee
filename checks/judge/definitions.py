"""What a log means: its snapshots, selections, memberships, events and versions. A log is a list of writes; places count from 1."""
import itertools
from collections import namedtuple

# A user is (0, id) or (1, namespace, id, relation), so tuples compare as they are ordered: a plain user before a userset.
Tuple = namedtuple("Tuple", "namespace id relation user")
Change = namedtuple("Change", "is_touch tuple")
# `want` is a place, "exists" or "absent".
Condition = namedtuple("Condition", "tuple want")


def user_text(user):
    return user[1] if user[0] == 0 else f"{user[1]}:{user[2]}#{user[3]}"


def tuple_text(asked):
    return f"{asked.namespace}:{asked.id}#{asked.relation}@{user_text(asked.user)}"


def change_text(change):
    return ("+" if change.is_touch else "-") + tuple_text(change.tuple)


def condition_text(condition):
    marks = {"exists": "?", "absent": "!"}
    text = tuple_text(condition.tuple)
    return marks[condition.want] + text if condition.want in marks else f"{text}={condition.want}"


def shard_of(namespace, id, shards):
    return sum(f"{namespace}:{id}".encode()) % shards


def home(asked, shards):
    return shard_of(asked.namespace, asked.id, shards)


def snapshot(log, place):
    there = set()
    for write in log[:place]:
        for change in write.changes:
            (there.add if change.is_touch else there.discard)(change.tuple)
    return there


def changed(log, there=()):
    """The tuples that are there behind a list of changes, each a text, if these were there before."""
    there = set(there)
    for change in itertools.chain(*log):
        (there.add if change[0] == "+" else there.discard)(change[1:])
    return there


def last_change(log, asked):
    for place in range(len(log), 0, -1):
        if any(change.tuple == asked for change in log[place - 1].changes):
            return place
    return 0


def holds(log, condition):
    """Whether a write with this condition may come next."""
    if condition.want == "exists":
        return condition.tuple in snapshot(log, len(log))
    if condition.want == "absent":
        return condition.tuple not in snapshot(log, len(log))
    return last_change(log, condition.tuple) <= condition.want


def selects(tupleset, asked):
    kind, *parts = tupleset
    if kind == "key":
        return asked == parts[0]
    if kind == "object":
        namespace, id, relation = parts
        return (asked.namespace, asked.id) == (namespace, id) and relation in (None, asked.relation)
    namespace, user, relation = parts
    return asked.namespace == namespace and asked.user == user and relation in (None, asked.relation)


def select(there, tupleset):
    return sorted(asked for asked in there if selects(tupleset, asked))


def is_member(there, asked):
    """Whether the user of the tuple is in its object and relation, by the tuples that are there."""
    seen = {(1, asked.namespace, asked.id, asked.relation)}
    waiting = list(seen)
    while waiting:
        _, *userset = waiting.pop()
        users = {found.user for found in there if [found.namespace, found.id, found.relation] == userset}
        if asked.user in users:
            return True
        further = {user for user in users if user[0] == 1} - seen
        seen |= further
        waiting.extend(further)
    return False


def events(log, after, upto, namespaces):
    listed = ((place, change) for place in range(after + 1, upto + 1) for change in log[place - 1].changes)
    return [(place, change) for place, change in listed if change.tuple.namespace in namespaces]


def versions(log, learned, horizon, shard, shards):
    """The versions that a shard has which has learned so far and has collected at this horizon, by tuple and then by place."""
    found = []
    newest = {}
    for place in range(1, learned + 1):
        for change in log[place - 1].changes:
            if home(change.tuple, shards) != shard:
                continue
            if place > horizon:
                found.append((change.tuple, place, change))
            else:
                newest[change.tuple] = (change.tuple, place, change)
    found.extend(version for version in newest.values() if version[2].is_touch)
    return [(place, change) for _, place, change in sorted(found, key=lambda version: version[:2])]
