"""Images that are right: those that real runs leave, the same in the first version of the format where that can spell them, and with checkpoints."""
import tempfile
from collections import namedtuple
from pathlib import Path

from folders import script
from imaging.format import CLOSED, NOT_AFTER, STRETCH, Begins, Ends, Epoch, Horizon, Learned, Row, Rules, batches_of, device_bytes
from imaging.replaying import COORDINATOR, found, node_of
from judge.making import Maker

# How many lives a store has: each begins with an opening, and goes on with a part of its script. Long images would only take longer.
LIVES = 3
MOST_LINES = 60

# The node with the identity that is asked for, and the bytes of its devices.
Image = namedtuple("Image", "node store shards a b")


def few_shards(count):
    """The seeds of so many scripts of stores with a few shards."""
    return [seed for seed in range(10 * count) if Maker(seed).shards <= 5][:count]


def real_images(seed):
    """What the nodes of a store have on their devices behind a random script, in a few lives."""
    maker = Maker(seed)
    # A node over files that was restarted stays down until the next life.
    lines = [line for line in maker.script() if not line.startswith(("restart", "fail"))][:MOST_LINES]
    with tempfile.TemporaryDirectory(prefix="images-") as folder:
        for life in range(LIVES):
            part = lines[life * len(lines) // LIVES : (life + 1) * len(lines) // LIVES]
            script(folder, maker.shards, *part, store=maker.store)
        return images_of(folder, maker.store, maker.shards)


def images_of(folder, store, shards):
    """What the files of a store have, the coordinator's first."""
    nodes = [("c", COORDINATOR), *((str(shard), shard) for shard in range(shards))]
    files = lambda name: (unstretched(Path(folder, f"{name}.{bank}").read_bytes()) for bank in "ab")
    return [Image(node, store, shards, *files(name)) for name, node in nodes]


def leave(folder, images):
    """Has the folder keep a store whose nodes have these images."""
    for image in images:
        node = "c" if image.node == COORDINATOR else image.node
        for bank in "ab":
            Path(folder, f"{node}.{bank}").write_bytes(getattr(image, bank))


def unstretched(content):
    """What was written to a file, without the zeros by which it is longer, up to a multiple of STRETCH: so a change of an image meets what counts."""
    if len(content) <= 1 or len(content) % STRETCH:
        return content
    _, end = batches_of(Rules(), content)
    return content[: max(end, len(content.rstrip(b"\0"))) + 1]


def fault_of(image):
    """Why the bytes that the program wrote are not those of the format."""
    for bank, device in (("a", image.a), ("b", image.b)):
        batches, end = batches_of(Rules(), device)
        if device[:end] != device_bytes(batches)[:-1]:
            return f"node {image.node}, bank {bank}: what was written is not how the format spells it"
        if device[end : end + 1] != bytes([CLOSED]):
            return f"node {image.node}, bank {bank}: no closed gate stands behind the last batch"
        # A bank that had other records before has the rest of them behind its gate: checkpoints go to banks b and a in turn.
        if len(device) > end + 1 and generation_of(batches) < 2:
            return f"node {image.node}, bank {bank}: there is more than a closed gate behind the last batch"
        if any(version != 2 for version, _ in batches):
            return f"node {image.node}, bank {bank}: a batch of version 1 was written"
    return None


def generation_of(batches):
    """That of the checkpoint with which the batches of a bank begin, and 0 where they begin with none."""
    first = batches[0][1][0] if batches else None
    return first.generation if isinstance(first, Begins) else 0


def has_no_checkpoint(image):
    return not any(generation_of(batches_of(Rules(), device)[0]) for device in (image.a, image.b))


def in_first_version(image):
    """The image with its batches in version 1, but for those that ask what it has no word for."""
    is_more = lambda records: any(want != NOT_AFTER for made in records for _, want, _ in getattr(made, "conditions", ()))
    first = lambda device: device_bytes([(1 + is_more(records), records) for _, records in batches_of(Rules(), device)[0]])
    return image._replace(a=first(image.a), b=first(image.b))


def checkpoint(generation, image, records):
    """The checkpoint of a node with these records."""
    node = node_of(Rules(), image)
    node.replay(records)
    head = [Begins(generation), Epoch(node.epoch, image.store, image.shards, image.node), Horizon(node.horizon)]
    if image.node == COORDINATOR:
        return [*head, *node.log[node.horizon - node.base :], Ends(generation)]
    rows = [Row(place, (is_touch, named)) for named, place, is_touch in sorted(node.rows)]
    return [*head, Learned(node.learned, ()), *rows, *(node.in_doubt[id] for id in sorted(node.in_doubt)), Ends(generation)]


def in_pieces(random, records):
    """Batches of these records, cut anywhere."""
    cuts = sorted({0, len(records), *(random.randrange(len(records) + 1) for _ in range(random.randrange(3)))})
    return [(2, records[begin:end]) for begin, end in zip(cuts, cuts[1:])]


def with_checkpoints(random, image):
    """The image of a node that made no checkpoint, had it made one or two on its way: its other bank is as it was left, or was emptied or written in part since."""
    batches, _ = batches_of(Rules(), image.a)
    cuts = sorted(random.randrange(1, len(batches) + 1) for _ in range(random.choice((1, 1, 2))))
    banks, is_b, begin = [[], []], 0, 0
    for generation, cut in enumerate(cuts, 1):
        banks[is_b] += batches[begin:cut]
        records = [made for _, some in banks[is_b] for made in some]
        is_b, begin = 1 - is_b, cut
        banks[is_b] = in_pieces(random, checkpoint(generation, image, records))
    banks[is_b] += batches[begin:]
    banks[1 - is_b] = other_bank(random, banks[1 - is_b], banks[is_b])
    a, b = map(device_bytes, banks)
    return image._replace(a=a, b=b)


def other_bank(random, batches, current):
    """What a bank that is not current may have: what it had, nothing, or the next checkpoint in part."""
    records = [made for _, some in current for made in some[1:] if not isinstance(made, Ends)]
    next_one = [(2, [made]) for made in (Begins(generation_of(current) + 1), *records)]
    return random.choice((batches, batches, [], next_one[: random.randrange(1, 6)]))


def reads_alike(image, other):
    """Whether two images are of nodes that have the same to tell."""
    return found(Rules(), image)[0].told() == found(Rules(), other)[0].told()
