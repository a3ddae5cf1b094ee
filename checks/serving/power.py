"""What a loss of power may leave of the files of a folder, from the notes that note_writes.c took of a process: of each range that was written and not
synced nothing, a part, all, or any bytes, and any length between; and a file whose name was not synced may be gone."""
import os
import struct
from collections import Counter, defaultdict, namedtuple
from pathlib import Path

from judge.worlds import must
from libraries import built_library

HEAD = struct.Struct("=9Q")
MAGIC = 0x65746F6E2E6E617A
Note = namedtuple("Note", "kind number of offset length before name old new")


def read_notes(path):
    """The notes of one life in their order. One that a kill has cut is skipped: what it would tell was not yet done."""
    data, found, at = Path(path).read_bytes(), [], 0
    while (at := data.find(MAGIC.to_bytes(8, "little"), at)) >= 0 and at + HEAD.size <= len(data):
        _, kind, name, number, of, offset, length, before, old = HEAD.unpack_from(data, at)
        parts = (name, old, length if kind in b"WX" else 0)
        start, end = at + HEAD.size, at + HEAD.size + sum(parts)
        next_one = data[end : end + 8]
        if end > len(data) or next_one not in (b"", MAGIC.to_bytes(8, "little")[: len(next_one)]):
            at += 1
            continue
        text, old_bytes, new = data[start : start + name], data[start + name : start + name + old], data[end - parts[2] : end]
        found.append(Note(chr(kind), number, of, offset, length, before, text.decode(), old_bytes, new))
        at = end
    return sorted(found, key=lambda note: note.number)


def unsynced(notes):
    """By the name of a file, its writes that no sync covers; and the files whose names no sync of the folder covers."""
    done = {note.of: note.number for note in notes if note.kind == "D"}
    synced, open_writes, names = defaultdict(int), defaultdict(list), set()
    for note in notes:
        if note.kind == "S":
            synced[note.name] = max(synced[note.name], note.of)
    for note in notes:
        must(note.kind != "X", f"a call that the notes know nothing of: {note.new[:20]} of {note.name}")
        # A sync covers what had ended when it began.
        covered = synced["." if note.kind == "C" else note.name]
        if note.kind == "W" and done.get(note.number, covered + 1) > covered:
            open_writes[note.name].append(note)
        if note.kind == "C" and done.get(note.number, covered + 1) > covered:
            names.add(note.name)
    return open_writes, names


def torn(random, note, base):
    """What the range of a write holds; `base` is what it held, with zeros where the file ended before."""
    new, cut = note.new, random.randrange(note.length + 1)
    parts = (lambda: new[:cut] + base[cut:], lambda: base[:cut] + new[cut:], lambda: bytes(map(random.choice, zip(new, base))))
    kinds = {"nothing": lambda: base, "all": lambda: new, "a part": random.choice(parts), "bytes": lambda: random.randbytes(note.length)}
    how = random.choice([*kinds])
    return how, kinds[how]()


class File:
    def __init__(self, path):
        self.path, self.content = path, bytearray(path.read_bytes())

    def put(self, at, some):
        self.content.extend(bytes(max(0, at - len(self.content))))
        self.content[at : at + len(some)] = some

    def tear(self, random, note, counts):
        end = note.offset + note.length
        base = bytes(self.content[note.offset : end]).ljust(note.length, b"\0")
        how, left = torn(random, note, base)
        counts[how] += 1
        longest = max(len(self.content), end)
        length = random.choice((len(self.content), longest, random.randint(len(self.content), longest)))
        self.put(note.offset, left)
        del self.content[length:]

    def save(self):
        self.path.write_bytes(self.content)


class Power:
    """Notes of the lives over a folder, and tears behind each. `forgets` spoils the notes (note_writes.c)."""

    def __init__(self, folder, random, forgets=None):
        self.folder, self.random, self.library = os.path.realpath(folder), random, built_library("note_writes")
        self.notes = f"{self.folder}.notes"
        self.forgets, self.counts = {"NOTES_FORGET": forgets} if forgets else {}, Counter()

    def environment(self):
        """For the next life."""
        return {"LD_PRELOAD": self.library, "NOTES_FOLDER": self.folder, "NOTES_FILE": self.notes, **self.forgets}

    def fails(self):
        """Behind a kill: what was not synced is torn."""
        if not os.path.exists(self.notes):
            return
        notes = read_notes(self.notes)
        os.remove(self.notes)
        writes, names = unsynced(notes)
        self.counts["notes"] += len(notes)
        for name, ranges in writes.items():
            file = File(Path(self.folder, name))
            for note in reversed(ranges):
                file.put(note.offset, note.old)
                del file.content[note.before :]
            for note in ranges:
                file.tear(self.random, note, self.counts)
            file.save()
        for name in names:
            if self.random.random() < 0.5 and os.path.exists(os.path.join(self.folder, name)):
                self.counts["files gone"] += 1
                os.remove(os.path.join(self.folder, name))
