"""What programs are asked of stores in folders, and what they answer."""
import os
from pathlib import Path

from judge.lines import token as token_of
from programs import LIMIT, Talking, harness, lines_of, run, zanstore

A, B, C = (f"doc:{name}#viewer@u1" for name in "abc")
THREE = [f"write +{A}", f"write -{A}", f"write +{A}"]
DONE = (0, "done\n", "")


def token(place):
    return token_of(1, place)


def at(place, *tuples):
    """Status 0 and these lines."""
    return 0, lines_of([f"at {token(place)}", *tuples]), ""


def fault(text, about=None):
    """Status 1, no line, and this on standard error, with what it is about on a second line."""
    return 1, "", lines_of(f"zanstore: {it}" for it in (text, about) if it)


def apart(shard):
    return f"the files of shard {shard} and of the coordinator are not of one moment"


def script(folder, shards, *lines, limit=LIMIT, store=1):
    """What the script prints, line by line."""
    status, out, _ = run(harness("files", folder, store, shards), lines_of(lines), limit)
    assert status == 0, "the script"
    return out.split("\n")[:-1]


def dumped(folder, shards, words="", store=1, program=None, **more):
    return run([program or zanstore(), "dump", "--dir", folder, "--store", store, "--shards", shards, *words.split()], **more)


def resharding(folder, shards, new, new_shards):
    """The command that carries a store over."""
    return [zanstore(), "reshard", "--dir", folder, "--to", new, "--store", "1", "--shards", str(shards), "--new-shards", str(new_shards)]


def resharded(folder, shards, new, new_shards, **more):
    return run(resharding(folder, shards, new, new_shards), **more)


def beside(folder, name):
    """A new folder, beside the store's."""
    path = os.path.join(os.path.dirname(folder), name)
    os.mkdir(path)
    return path


def contents(folder):
    """Each file with its bytes."""
    return {path.name: path.read_bytes() for path in sorted(Path(folder).iterdir())}


def empty(folder, *names):
    """Files of these names without a byte."""
    for name in names:
        open(os.path.join(folder, name), "wb").close()


def while_held(folder, asked):
    """What is asked while another process has the folder open, which has made a write."""
    with Talking(harness("files", folder, 1, 2)) as holder:
        holder.give(f"write +{A}")
        assert holder.line() == f"ok {token(1)}", "the write"
        asked()
        assert holder.end() == (0, ""), "its end"
