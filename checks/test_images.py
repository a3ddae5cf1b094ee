"""Images of nodes with one thing changed, opened: docs/CHECKS.md#changed-images. `--seed` and `--count` say which changes, and how many."""
import os
import re
import tempfile
from collections import Counter
from concurrent.futures import ThreadPoolExecutor
from random import Random

import pytest

import folders
from imaging.changing import changed
from imaging.format import GREATEST, Begins, Damaged, Rules, batches_of
from imaging.making import fault_of, few_shards, has_no_checkpoint, images_of, in_first_version, leave, reads_alike
from imaging.making import real_images, with_checkpoints
from imaging.replaying import answer, found, is_found_without, named_of
from imaging.rows import ROWS, given_and_told, text_of
from judge.definitions import home, tuple_text
from judge.lines import token
from judge.worlds import Wrong, must
from programs import TOP, harness, lines_of, run
from sweeping.wrong_programs import program_with
from verdicts import none

DAMAGED, FULL = "16 Damaged", "15 Full"


def opened(image):
    """What the node has, where its opening is not refused."""
    node, _ = found(Rules(), image)
    must(node.epoch < GREATEST, FULL)
    return node


def part_of(shard, made):
    """The changes and the conditions of a write that are a shard's."""
    changes = [change for change in made.changes if home(change.tuple, shard.shards) == shard.node]
    return changes, [condition for condition in made.conditions if home(condition[0], shard.shards) == shard.node]


def learned(coordinator, shard):
    """The versions of a shard that has learned all that is kept."""
    rows, doubt = list(shard.rows), dict(shard.in_doubt)
    for made in coordinator.log:
        if made.place > shard.learned and any(home(named, shard.shards) == shard.node for named in named_of(made)):
            prepared = doubt.pop(made.id, None)
            must(prepared and part_of(shard, prepared) == part_of(shard, made), DAMAGED)
            rows += [(named, made.place, is_touch) for is_touch, named in prepared.changes]
    return rows


def right_dump(images):
    """The status, the text and the words on standard error of a dump of these nodes, the coordinator first."""
    try:
        coordinator, *shards = [opened(image) for image in images]
        for shard in shards:
            must(coordinator.horizon <= shard.learned <= coordinator.end(), DAMAGED)
        rows = [row for shard in shards for row in learned(coordinator, shard)]
    except Damaged:
        return 1, "", f"zanstore: {DAMAGED}\n"
    except Wrong as refused:
        return 1, "", f"zanstore: {refused}\n"
    newest = {}
    for named, place, is_touch in rows:
        newest[named] = max(newest.get(named, (0, False)), (place, is_touch))
    there = [tuple_text(named) for named in sorted(newest) if newest[named][1]]
    return 0, "".join(f"{line}\n" for line in [f"at {token(images[0].store, coordinator.end())}", *there]), ""


def dumped(images):
    """The same of the program."""
    with tempfile.TemporaryDirectory(prefix="images-") as folder:
        leave(folder, images)
        status, out, err = folders.dumped(folder, images[0].shards, store=images[0].store)
    # A second line tells which node is meant, or which store the files are of.
    first, *about = err.splitlines(keepends=True) or [""]
    if about and not re.fullmatch(r"zanstore: (the files of .*|.* is of store [0-9]+ with [0-9]+ shards)\n", "".join(about)):
        first = err
    return status, out, first


def with_change(random, store, images):
    """What was done to a node of the store, and all of them; the node may have made checkpoints before."""
    at = random.randrange(len(store))
    node = store[at]
    if has_no_checkpoint(node) and random.random() < 0.5:
        node = with_checkpoints(random, node)
    what, other = changed(random, node, images)
    return what, [*store[:at], other, *store[at + 1 :]]


def judged_dumps(seed, count, stores):
    """So many changes by a seed: how many dumps ended with each status, and what was answered wrongly."""
    random, statuses, faults = Random(seed), Counter(), []
    images = [image for store in stores for image in store]
    given = [("as it is", store) for store in stores]
    while len(given) < count:
        store = random.choice(stores)
        what, other = with_change(random, store, images)
        if [image[:3] for image in other] == [image[:3] for image in store]:
            given.append((what, other))
    for what, store in given[:count]:
        wanted, printed = right_dump(store), dumped(store)
        statuses[wanted[0]] += 1
        if printed != wanted:
            files = "\n".join(f"  node {image.node}: {image.a.hex() or '-'} {image.b.hex() or '-'}" for image in store)
            faults.append(f"seed {seed}, a dump, {what}:\n{files}\n  prints {printed}\n  and has to print {wanted}")
    return statuses, faults


def current(image):
    """The batches of the bank that is read."""
    return batches_of(Rules(), image.b if found(Rules(), image)[1] else image.a)[0]


def versions(image):
    return {version for version, _ in current(image)}


def upgraded(store):
    """A store whose batches are of the first version of the format. How many nodes had a batch of version 1 alone, and
    what is not so of the store: it tells the rows that it told, and has a checkpoint in version 2 of each node then."""
    old, shards = [*map(in_first_version, store)], range(store[0].shards)
    rows = [line for image in old[1:] for line in found(Rules(), image)[0].told() if line[0].isdigit()]
    with tempfile.TemporaryDirectory(prefix="images-") as folder:
        leave(folder, old)
        asked = [*(f"rows {shard}" for shard in shards), *(f"checkpoint {node}" for node in ("c", *shards))]
        told = folders.script(folder, len(shards), *asked, store=old[0].store)
        new = images_of(folder, old[0].store, len(shards))
    is_right = told == [*rows, *["done"] * len(old)]
    faults = [] if is_right else [f"store {old[0].store} tells {told}\n  and has to tell {rows}"]
    for was, image in zip(old, new):
        first = current(image)[0][1][0]
        if not reads_alike(was, image):
            faults.append(f"node {was.node} does not read as before its checkpoint")
        if not isinstance(first, Begins) or versions(image) != {2}:
            faults.append(f"node {was.node} begins with {first}, in the versions {versions(image)}")
    return sum(versions(image) == {1} for image in old), faults


# Scripts whose nodes are changed, and changes and dumps of one process.
SCRIPTS = 20
SHARE = 2500
DUMPED = 50
# So many images with checkpoints are made of one without.
POINTED = 3
# How often it is tried whether a rule alone refuses an image.
TRIES = 50
LIMIT = 600
# Edits that the prover refuses; the last one is no mistake.
WRONG = {
    "equal-generations-are-taken": "crates/journal/must-fail/equal_generations_are_taken.edit",
    "incomplete-bank-is-taken": "crates/journal/must-fail/incomplete_bank_is_taken.edit",
    "older-generation-is-current": "crates/journal/must-fail/older_generation_is_current.edit",
    "reads-version-1-as-2": "crates/records/must-fail/reads_version_1_as_2.edit",
    "as-it-is": None,
}


def answers(images):
    """What the program says of each, one behind the other: a line `;` behind each; a text may end with one, too."""
    status, out, error = run(harness("images"), lines_of(map(text_of, images)), LIMIT)
    told = [[]]
    for line in out.splitlines():
        if line == ";":
            told.append([])
        else:
            told[-1].append(line)
    assert not status and told.pop() == [] and len(told) == len(images), f"status {status} behind {len(told)} of {len(images)} images: {error[-300:]}"
    return told


def worked_out():
    """What the program, or the reader, says otherwise than was worked out by hand."""
    for (name, image, wanted), found in zip(ROWS, answers([image for _, image, _ in ROWS])):
        for who, said in (("the program", found), ("the reader", answer(Rules(), image))):
            if said != wanted:
                yield f"{name}: {text_of(image)}\n  {who} says {said}\n  and has to say {wanted}"


def right_images(seed):
    """Stores that real runs have left, and images that are right."""
    with ThreadPoolExecutor() as pool:
        stores = [*pool.map(real_images, few_shards(SCRIPTS))]
    images, random = [image for some in stores for image in some], Random(seed)
    none(filter(None, map(fault_of, images)))
    pointed = [(image, with_checkpoints(random, image)) for image in images if has_no_checkpoint(image) for _ in range(POINTED)]
    none(f"node {image.node}: a checkpoint does not read as what it stands for" for image, made in pointed if not reads_alike(image, made))
    return stores, [*images, *map(in_first_version, images), *(made for _, made in pointed)]


def judged(seed, count, images):
    """Changes by a seed: what became of each kind, which rules refused, which of them alone, and what was answered wrongly."""
    random, rules, seen, alone, faults = Random(seed), Rules(), Counter(), set(), []
    changes = [changed(random, random.choice(images), images) for _ in range(count)]
    kinds, made = zip(*(("as it is", image) for image in images), *changes)
    for kind, image, found in zip(kinds, made, answers(made)):
        wanted = answer(rules, image)
        is_refused = wanted[0].startswith("refused")
        seen[kind, is_refused] += 1
        if is_refused and rules.last not in alone and rules.broken[rules.last] <= TRIES and is_found_without(rules.last, image):
            alone.add(rules.last)
        if found != wanted:
            faults.append(f"seed {seed}, {kind}: {text_of(image)}\n  says {found}\n  and has to say {wanted}")
    return seen, rules.broken, alone, faults


def in_shares(pool, call, seed, count, share, some):
    """What a call gives for each share of so many, each of a seed of its own."""
    seeds = range(seed, seed + max(1, count // share))
    return [*pool.map(call, seeds, [min(share, count)] * len(seeds), [some] * len(seeds))]


def test_by_hand():
    none(worked_out())
    for name, text in zip(("stdin", "stdout"), given_and_told()):
        with open(os.path.join(TOP, "crates", "harness", name), encoding="utf-8") as it:
            assert (f"== images\n{text}== " if name == "stdin" else text) in it.read(), f"crates/harness/{name} has other rows than checks/imaging/rows.py"


@pytest.mark.long
def test_changes(pool, asked):
    parts = in_shares(pool, judged, asked.seed or 1, asked.count or 20000, SHARE, right_images(asked.seed or 1)[1])
    seen, broken = (sum((it[at] for it in parts), Counter()) for at in (0, 1))
    alone = {rule for it in parts for rule in it[2]}
    if asked.full:
        print("\n".join(f"{kind}: {seen[kind, False]} found, {seen[kind, True]} refused" for kind in sorted({kind for kind, _ in seen})))
        print("\n".join(f"{count} refused, since {rule}{'' if rule in alone else ': never alone'}" for rule, count in broken.most_common()))
    found = sum(count for (_, is_refused), count in seen.items() if not is_refused)
    print(f"images: {sum(seen.values())} of {len({kind for kind, _ in seen})} kinds, {found} found, {len(broken)} rules broken, {len(alone)} of them alone")
    none(fault for it in parts for fault in it[3])
    assert found * 20 >= sum(seen.values()) and len(alone) >= 38, "too few images were found, or too few rules broken alone"


def test_dumps(pool, asked):
    stores = right_images(asked.seed or 1)[0]
    parts = in_shares(pool, judged_dumps, asked.seed or 1, asked.count or 400, max(DUMPED, len(stores)), stores)
    statuses = sum((it[0] for it in parts), Counter())
    print(f"dumps: {sum(statuses.values())} stores, {statuses[0]} printed, {statuses[1]} refused")
    none(fault for it in parts for fault in it[1])
    assert min(statuses[0], statuses[1]) * 5 >= sum(statuses.values()), "too few dumps were printed, or too few refused"


def test_first_version(pool, asked):
    parts = [*pool.map(upgraded, right_images(asked.seed or 1)[0])]
    nodes = sum(it[0] for it in parts)
    print(f"first version: {len(parts)} stores, {nodes} nodes of version 1")
    none(fault for it in parts for fault in it[1])
    assert nodes >= len(parts), "too few nodes were of version 1"


@pytest.mark.wrong
@pytest.mark.parametrize("name", WRONG)
def test_wrong(name, asked, monkeypatch):
    with program_with(name, "harness", WRONG) as program:
        monkeypatch.setenv("HARNESS", program)
        by_hand, changes = [*worked_out()], judged(asked.seed or 1, SHARE, right_images(asked.seed or 1)[1])[3]
    print(f"{name}: {len(by_hand)} images by hand and {len(changes)} of {SHARE} changes answered wrongly")
    assert bool(by_hand or changes) == bool(WRONG[name])
