"""The batches' own control: beside edits that are refused, changes that harm nothing are not told as refused.

Three functions of `device` that a device in memory calls are spoiled by edits of its own, and four that call them and two that don't are
changed in a way that is proved. In one check all nine have no proof: the six for the sake of the answer that each was given to fail
by, three of them beside answers of their own that hold, and four for their callees' sake too.
"""

import glob
import hashlib
import os

from . import batches
from .broken import BROKEN
from .kit import rt
from .lanes import Task

HERE = os.path.dirname(os.path.realpath(__file__))
CRATE = "device"
REFUSED = ("error_without_a_failure.edit", "fails_one_call_too_late.edit", "script_is_gone_after_revive.edit")
# The goals that some of the harmless ones might be said to break, so that all others of their functions are left out.
SAID = {"fail_names_the_tear.edit": "returns-clause-set", "revive_names_its_error.edit": "returns-in-Err-clause-waits", "sync_names_its_error.edit": "returns-in-Some-clause-script"}
KEY = (CRATE, "control")


def batch_of(crate):
    """The edits that are refused and those that harm nothing, as one batch, or None where they are no such batch."""
    spoiled = [f"{crate.folder}/must-fail/{name}" for name in REFUSED]
    harmless = sorted(glob.glob(f"{HERE}/controls_{CRATE}/*.edit"))
    made, alone = batches.batches_of(crate, [*spoiled, *harmless])
    return None if alone or len(made) != 1 or len(harmless) != 6 else made[0]


def wrong(told):
    """Which of the batch were told wrongly."""
    named = {os.path.basename(edit): why for edit, why in told.items()}
    return [name for name, why in named.items() if bool(why) != (name in REFUSED)]


def is_right(crate, copy):
    batch = batch_of(crate)
    if batch is None:
        rt.say(f"control: the edits of {CRATE} are no one batch any more")
        return False
    BROKEN.known.update({(CRATE, name): goal for name, goal in SAID.items()})
    with copy(crate) as kept:
        found = wrong(batches.try_batch(crate, batch, kept, ["--jobs", "1"]))
    if found:
        rt.say(f"control: told wrongly: {', '.join(found)}")
    return not found


def name_of(crate, kept):
    """The name under which it is kept that the control was right: a sum of the crate, its libraries and all nine edits."""
    made = hashlib.sha256(repr(("control", kept.key(crate))).encode())
    for edit, _ in batch_of(crate) or []:
        with open(edit, "rb") as it:
            made.update(it.read())
    return made.hexdigest()


def ran(crate, copy, kept):
    """Whether it is right, or was in an earlier run, where the toolchain keeps that."""
    name = kept and name_of(crate, kept)
    if kept and kept.tried(name):
        return True
    right = is_right(crate, copy)
    if right and kept and kept.is_untouched(crate):
        kept.keep_tried(name, rt.REFUSED, "control")
    return right


def tasks(crates, copy, kept):
    """The control as a task behind its crate's proof."""
    crate = next((it for it in crates if it.name == CRATE), None)
    if crate is None:
        return {KEY: Task([], 0, 0, 1, lambda given, jobs: False)}
    return {KEY: Task([(CRATE, "proof")], 40, rt.need(crate), 1, lambda given, jobs: bool(given[CRATE, "proof"]) and ran(crate, copy, kept))}


def failed(given):
    """1 where the batches' control failed, so that no refusal of this run is worth anything."""
    if given.get(KEY):
        rt.say("control: of nine changes of device in one batch three are refused, and the six that harm nothing are not")
        return 0
    rt.say("FAILED: the control of the batches")
    return 1
