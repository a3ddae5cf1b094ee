#!/usr/bin/env python3
"""Shows each call over a server of store 1: tour.py HOST PORT"""

import json
import sys

from zanstore import Changes, NoAnswer, Refused, Store, absent, newest, start, tuple_of, userset


def main(store: Store) -> None:
    editor = tuple_of("doc:plan", "editor", "bob")
    token = store.write([tuple_of("group:staff", "member", "ann"), tuple_of("doc:plan", "viewer", userset("group:staff", "member"))])
    print("wrote", token)
    for name in ("ann", "bob"):
        print(name, "may view:", json.dumps(store.check(tuple_of("doc:plan", "viewer", name), at_least=token).member))
    later = store.edit("doc:plan", tuple_of("doc:plan", "lock", "lock"), lambda rows: Changes([editor]))
    print("edited", later)
    print("now:", *store.read("doc:plan", at_least=newest(token, later)).sets[0])
    print("then:", *store.read("doc:plan", exact=token).sets[0])
    try:
        store.write(delete=[editor], conditions=[absent(editor)])
    except Refused as refused:
        print("refused", refused)
    for events, _ in store.watch(start(1), "doc", "group"):
        for event in events:
            print(event.place, event.change, event.tuple)
        if not events:
            return


if __name__ == "__main__":
    if len(sys.argv) != 3 or not sys.argv[2].isdecimal() or int(sys.argv[2]) > 65535:
        print("usage: tour.py HOST PORT", file=sys.stderr)
        sys.exit(2)
    try:
        with Store(sys.argv[1], int(sys.argv[2])) as asked:
            main(asked)
    except (OSError, NoAnswer, Refused) as fault:
        sys.exit(f"tour.py: {fault}")
