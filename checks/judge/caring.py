"""Judges the care of nodes, their restarts and their failures."""
import re

from judge import definitions
from judge.worlds import Told, Wrong, must


class Cares(Told):
    def done(self, printed):
        """Whether it is done, or else refused with Down."""
        number = self.refusal(printed)
        must(number in (None, 13), "a refusal without its cause")
        must(number == 13 or printed == ["done"], "has to print 'done'")
        return number is None

    def flush(self, world, name, printed):
        if not self.done(printed):
            return world.downs([name], [name])
        world.answers(name)
        if name == "c":
            world.keep()
        else:
            world.settle(name)
        return [world]

    # A node has what it had, by other records: to whoever asks it is a flush.
    checkpoint = flush

    def learn(self, world, name, printed):
        if not self.done(printed):
            return world.downs(["c", name], [])
        world.answers("c", name)
        world.nodes[name].learned = world.kept
        return [world]

    def collect(self, world, name, printed):
        node = world.nodes[name]
        if not self.done(printed):
            found = world.downs(["c", name], [name])
            for each in found:
                each.nodes[name].collected = each.nodes[name].collected | {each.horizon}
            return found
        world.answers("c", name)
        node.collected = {world.horizon}
        node.learned = max(node.learned, world.horizon)
        world.settle(name)
        return [world]

    def raise_to(self, world, place, printed):
        shards = list(range(self.shards))
        number = self.refusal(printed)
        if number == 13:
            return self.raise_fails(world, place, shards)
        world.answers("c")
        if number is None:
            self.is_printed(printed, "done")
            must(world.horizon <= place <= len(world.log), "the horizon is raised to a place where it can't be")
            world.keep()
            world.horizon = place
        else:
            must(number == 7 and place > len(world.log) or number == 8 and place < world.horizon, "a refusal without its cause")
        if number != 7:
            world.answers(*shards)
            for shard in shards:
                node = world.nodes[shard]
                node.learned = max(node.learned, world.kept if number == 8 else place)
                world.settle(shard)
        world.note()
        return [world]

    def raise_fails(self, world, place, shards):
        flushed = world.twin()
        found = []
        try:
            found += world.downs(["c", *shards], shards)
        except Wrong:
            pass
        if world.nodes["c"].may_fail and world.is_up("c"):
            for each in world.twin().fails("c"):
                found.append(each)
                raised = each.twin()
                raised.horizon = max(place, raised.horizon)
                if raised.horizon <= len(raised.log):
                    found.append(raised)
        if world.kept < place <= len(flushed.log) and flushed.is_up("c"):
            flushed.keep()
            found += self.raise_fails(flushed, flushed.kept, shards) if flushed.kept >= place else []
        must(found, "Down without a failure")
        return found

    def resolve(self, world, name, printed):
        node = world.nodes[name]
        if self.refusal(printed) is not None:
            must(self.refusal(printed) == 13, "a refusal without its cause")
            return world.downs(["c", name], [])
        must(printed[-1] == "done", "has to end with 'done'")
        world.answers(name)
        told = []
        for text in printed[:-1]:
            world.answers("c")
            told.append(self.resolved(world, name, text))
        must([write.id for write in told] == sorted({write.id for write in told}), "ids that do not rise")
        for write in world.flows.values():
            must(write.kind != "write" or not world.is_in_doubt(write, name) or write in told, "a write in doubt is passed over")
        for write in told:
            if world.place(write) is not None and world.place(write) <= world.kept:
                node.learned = max(node.learned, world.place(write))
        node.resolved = world.line
        return [world]

    def resolved(self, world, name, text):
        found = re.fullmatch(r"(commit|abort|undecided) (\d+)\.(\d+)(?: (\d+))?", text)
        must(found and (found[1] == "commit") == (found[4] is not None), "a line that tells of no write")
        verdict, id = found[1], (int(found[2]), int(found[3]))
        write = next((write for write in world.writes if write.id == id), None)
        must(write and name in write.shards and world.may_be_in_doubt(write, name), "a write that is not in doubt there")
        place = world.place(write)
        is_open = place is None and write.ended is None and "c" not in write.opened and write.stage in (1, 2, 3, 5)
        if place is not None and place <= world.kept:
            must(verdict == "commit" and int(found[4]) == place, "a kept write is committed at its place")
        elif place is not None or is_open:
            must(verdict == "undecided" or write.stage == 5 and verdict == "abort", "an open write is undecided")
        else:
            must(verdict == "abort", "a write that is not in the log is aborted")
            world.aborted.add(id)
            write.dropped.add(name)
        return write

    def reshard(self, world, count, printed):
        if self.done(printed):
            world.answers(*world.nodes)
            world.keep()
            self.shards = count
            return [world.carried(count)]
        return self.reshard_fails(world) if world.is_up(*world.nodes) else [world]

    def reshard_fails(self, world):
        """The flush of the coordinator has failed, or of one of the shards, each of which is cared for in its turn."""
        found = world.twin().fails("c") if world.nodes["c"].may_fail else []
        world.keep()
        for shard in range(world.count):
            world.nodes[shard].resolved = world.line
            world.nodes[shard].learned = world.kept
            if world.nodes[shard].may_fail:
                found += self.collect(world.twin(), shard, ["refused 13 Down"])
            self.collect(world, shard, ["done"])
        must(found, "Down without a failure")
        return found

    def rows(self, world, name, printed):
        if printed and self.refusal(printed) is not None:
            must(self.refusal(printed) == 13, "a refusal without its cause")
            return world.downs([name], [])
        world.answers(name)
        node = world.nodes[name]
        for learned in range(max(node.learned, node.settled), world.kept + 1):
            for horizon in node.collected:
                versions = definitions.versions(world.log, learned, horizon, name, self.shards)
                if horizon <= learned and printed == [f"{place} {definitions.change_text(change)}" for place, change in versions]:
                    return [world]
        raise Wrong("the versions of no place that it may have learned")

    def restart(self, world, name, printed):
        node = world.nodes[name]
        for flow in world.flows.values():
            if flow.kind == "write" and flow.begun is not None:
                flow.opened.add(name)
                flow.is_unsure |= name == "c" and flow.stage == 4
        if name == "c":
            if not node.is_down:
                world.cut(world.kept)
            world.kept = len(world.log) if printed == ["up"] else world.kept
        else:
            node.learned, node.opened = node.settled, world.line
        if printed == ["up"]:
            node.is_down = False
            world.epoch += name == "c"
            world.number = 0 if name == "c" else world.number
            world.note()
            return [world]
        must(self.refusal(printed) == 13 and node.may_fail, "an opening is refused without a failure")
        return [each for failed in world.struck(name) for each in self.opening_fails(failed, name)]

    def opening_fails(self, world, name):
        """The opening is lost, or was counted."""
        world.note()
        if name != "c":
            return [world]
        raised = world.twin()
        raised.epoch += 1
        return [world, raised]

    def fail(self, world, name, bank, n, tear, printed):
        self.is_printed(printed, "set")
        world.nodes[name].scripts |= {bank}
        return [world]
