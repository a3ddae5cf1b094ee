#!/usr/bin/env python3
"""Documents in folders, shared with people and groups: documents.py HOST PORT. Standard input has a command a line:

PERSON new OBJECT FOLDER         makes `doc:ID` or `folder:ID`, in `folder:ID` or in none (-); PERSON may edit it
PERSON share OBJECT RELATION WHO    lets WHO, a person or `group:ID`, be a `viewer` or `editor`; `unshare` takes that back
PERSON move OBJECT FOLDER        takes it out of its folder and into another
PERSON save DOC TEXT             gives a document a new text
PERSON show DOC                  shows its text
PERSON list                      lists the documents that PERSON may view
PERSON why DOC                   shows why PERSON may view a document
PERSON delete DOC                deletes a document and all its rights
PERSON join ID                   makes PERSON a member of a group, which are open to all; `leave` takes that back
"""

import sys
from urllib.parse import quote

from zanstore import Changes, NoAnswer, Refused, Store, absent, since, tuple_of, userset

RELATIONS = ("viewer", "editor")


class Denied(Exception):
    pass


def person(name):
    """The id of a person, whose name may be any text."""
    return quote(name, safe="")


def viewer(document, name):
    return tuple_of(document, "viewer", person(name))


def member_of(name):
    return userset(name, "member") if name.startswith("group:") else person(name)


def lock_of(thing):
    """Whoever changes the rights of a thing touches this tuple too, so that no two do so at once."""
    return tuple_of(thing, "lock", "lock")


def inherited(thing, folder):
    """The tuples by which a thing has the viewers and editors of its folder."""
    return [tuple_of(thing, relation, userset(folder, relation)) for relation in RELATIONS] if folder != "-" else []


class Documents:
    def __init__(self, store):
        # Each document's text, and the token of the check before it was saved: in a true application, one row of a database.
        self.store, self.saved = store, {}

    def needs_editor(self, name, thing):
        """The token of the place where the person may edit it."""
        if checked := self.store.check(tuple_of(thing, "editor", person(name))):
            return checked.zookie
        raise Denied(f"{name} may not edit {thing}")

    def new(self, name, thing, folder):
        if folder != "-":
            self.needs_editor(name, folder)
        lock, editors_view = lock_of(thing), tuple_of(thing, "viewer", userset(thing, "editor"))
        owner = tuple_of(thing, "editor", person(name))
        token = self.store.write([lock, editors_view, owner, *inherited(thing, folder)], conditions=[absent(lock)])
        if thing.startswith("doc:"):
            self.saved[thing] = "", token

    def edit(self, name, thing, change):
        self.needs_editor(name, thing)
        self.store.edit(thing, lock_of(thing), change)

    def share(self, name, thing, relation, who):
        self.edit(name, thing, lambda _: Changes(touch=[tuple_of(thing, relation, member_of(who))]))

    def unshare(self, name, thing, relation, who):
        self.edit(name, thing, lambda _: Changes(delete=[tuple_of(thing, relation, member_of(who))]))

    def move(self, name, thing, folder):
        if folder != "-":
            self.needs_editor(name, folder)
        into = inherited(thing, folder)
        self.edit(name, thing, lambda rows: Changes(into, [row for row in rows if "@folder:" in row and row not in into]))

    def save(self, name, document, *text):
        """The check comes first: who was taken off the list before it never sees the new text."""
        token = self.needs_editor(name, document)
        self.saved[document] = " ".join(text), token

    def show(self, name, document):
        text, token = self.saved.get(document, ("", None))
        if self.store.check(viewer(document, name), at_least=token):
            return text
        raise Denied(f"{name} may not view {document}")

    def list(self, name):
        """All are checked at one place, so a move meanwhile neither hides a document nor shows it twice."""
        documents = sorted(self.saved)
        members = self.store.check_many([viewer(one, name) for one in documents]).members if documents else []
        return " ".join(one for one, member in zip(documents, members) if member) or "none"

    def why(self, name, document):
        found = self.store.why(viewer(document, name))
        return " ".join(found.path) if found else f"not by any of {' '.join(found.walked)}"

    def delete(self, name, document):
        self.needs_editor(name, document)
        sets, token = self.store.read(document, *[f"doc@{userset(document, relation)}" for relation in RELATIONS])
        rows, lock = {row for some in sets for row in some}, lock_of(document)
        self.store.write(delete=rows | {lock}, conditions=[since(lock, token)])
        self.saved.pop(document, None)

    def join(self, name, group):
        self.store.write([tuple_of(f"group:{group}", "member", person(name))])

    def leave(self, name, group):
        self.store.write(delete=[tuple_of(f"group:{group}", "member", person(name))])


COMMANDS = ("new", "share", "unshare", "move", "save", "show", "list", "why", "delete", "join", "leave")


def answer(documents, line):
    try:
        name, command, *words = line.split()
        if command not in COMMANDS:
            raise Denied(f"there is no {command}")
        return getattr(documents, command)(name, *words) or "done"
    except (Denied, Refused, TypeError, ValueError) as fault:
        return f"no: {fault}"


def main(host, port):
    with Store(host, int(port)) as store:
        documents = Documents(store)
        for line in filter(str.strip, sys.stdin):
            print(answer(documents, line))


if __name__ == "__main__":
    if len(sys.argv) != 3:
        print("usage: documents.py HOST PORT", file=sys.stderr)
        sys.exit(2)
    try:
        main(*sys.argv[1:])
    except (OSError, NoAnswer) as fault:
        sys.exit(f"documents.py: {fault}")
