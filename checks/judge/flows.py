"""Judges the calls and the ends of writes, and the calls and the answers of reads, checks and watches."""
from judge import definitions
from judge.definitions import home
from judge.lines import token
from judge.worlds import Told, must, place_of

STAGES = {
    **{"begin": 0, "learned": 1, "batch": 1, "learn": 1, "stage_prepare": 1, "vote": 2, "decide": 3, "outcome": 4},
    **{"abort": 5, "inquire": 5, "drop_write": 5},
}


class Writes(Told):
    def begin_refusal(self, world, write):
        for condition in write.conditions:
            if isinstance(condition.want, int) and condition.want > len(world.log):
                return 7
            if isinstance(condition.want, int) and condition.want < world.horizon:
                return 8
        return None

    def is_begun(self, world, write):
        if write.stage != 0:
            return
        world.answers("c")
        must(self.begin_refusal(world, write) is None, "a write begins although a place of its conditions is refused")
        world.number += 1
        write.id = (world.epoch, world.number)
        write.kept = world.kept
        write.begun = world.line
        write.stage = 1
        world.note_flow(write)

    def is_prepared(self, world, write):
        self.is_begun(world, write)
        if write.stage == 1:
            world.answers(*(shard for shard in write.shards if write.begun == world.line))
            if write.begun == world.line:
                must(not world.is_held(write), "prepared although another write holds a tuple")
                must(all(definitions.holds(world.log, condition) for condition in write.conditions), "prepared although a condition does not hold")
            write.stage = 2

    def is_decided(self, world, write):
        self.is_prepared(world, write)
        if write.stage < 4:
            world.append(write)

    def write_goes_on(self, world, write, kind, call):
        old, made = write.stage, write.next
        stage = STAGES[call] if call in STAGES else {1: 1, 2: 2, 4: 4}.get(old)
        must(stage is not None and (stage >= old if stage != 5 else old != 4), "a call that does not come behind the one before")
        must(kind != "turn" or stage in (old, old + 1, 5), "a turn that makes more than one call")
        write.next = call
        if stage == 5:
            return self.goes_out(world, write, kind, made)
        if stage >= 1:
            self.is_begun(world, write)
        if stage >= 2:
            self.is_prepared(world, write)
        if stage == 4:
            self.is_decided(world, write)
            return self.waits(world, write, kind, made, call)
        write.stage = stage
        return [world]

    def waits(self, world, write, kind, made, call):
        """The write is decided and not told yet: a turn asks for its outcome, or flushes the coordinator."""
        if kind == "turn" and made == "outcome":
            must(call == "flush" and not write.is_unsure and world.place(write) > world.kept, "an outcome that comes late")
        if made == "flush" and not write.is_unsure:
            failed = world.twin().fails("c") if world.nodes["c"].may_fail else []
            if world.is_up("c"):
                world.keep()
            return [world] + failed
        return [world]

    def goes_out(self, world, write, kind, made):
        """The write was refused, which is told at its end; a flush of one of its shards may have failed."""
        found = [world]
        name = next(name for name, flow in world.flows.items() if flow is write)
        if write.stage <= 2 and (kind == "until" or made == "flush"):
            found += world.flush_fails(write.shards)
        for each in found:
            self.is_begun(each, each.flows[name])
            each.flows[name].stage = 5
        return found

    def write_ends(self, world, write, kind, number, printed):
        if number is None:
            return self.is_written(world, write, printed)
        if number == 12:
            self.is_decided(world, write)
            if write.is_unsure:
                return [world]
            must(world.nodes["c"].may_fail and kind != "turn", "Unsure although the coordinator has not failed and was not opened")
            return world.fails("c")
        must(write.stage != 4, "a decided write is refused")
        return self.is_refused(world, write, number)

    def is_written(self, world, write, printed):
        self.is_decided(world, write)
        must(not write.is_unsure, "told to be kept by a coordinator that has failed or was opened since")
        world.answers("c")
        place = world.place(write)
        self.is_printed(printed, f"ok {token(self.store, place)}")
        if world.kept < place:
            world.keep()
        for shard in write.shards:
            if shard not in write.opened:
                world.nodes[shard].learned = max(world.nodes[shard].learned, write.kept)
        return [world]

    def is_refused(self, world, write, number):
        if write.stage == 0:
            at_begin = self.begin_refusal(world, write)
            if not world.is_up("c"):
                must(number == 13, "the coordinator is down")
                return [world]
            if at_begin is not None:
                must(number == at_begin, "a place of a condition is refused otherwise")
                return [world]
        was_out = write.stage == 5
        self.is_begun(world, write)
        if number == 13:
            if was_out:
                must(write.met_down, "Down without a failure")
                return [world]
            if not write.met_down:
                return world.downs(["c", *write.shards], write.shards)
            # Either the node that it met told it, or a flush of another one has failed.
            return [*world.flush_fails(write.shards), world]
        causes = {
            8: any(isinstance(condition.want, int) and condition.want < world.horizon for condition in write.conditions),
            9: write.met_broken,
            10: write.met_held,
            11: bool(write.opened & {"c", *write.shards}),
        }
        must(causes.get(number), "a refusal without its cause")
        return [world]


READ_CALLS = ("heads", "flush", "learned", "batch", "learn", "read")


class Answers(Told):
    def answer_goes_on(self, world, flow, kind, call):
        must(call in READ_CALLS, "a call that is none of an answer's")
        made, flow.next = flow.next, call
        if made == "heads":
            world.answers("c")
        place = flow.request[1][1]
        is_past = call in READ_CALLS[2:] and place is not None and world.kept < place
        if is_past or made == "flush" and (kind == "turn" or call != "flush"):
            must(place is not None and place <= len(world.log), "a flush for no place")
            world.keep()
        return [world]

    def answer_ends(self, world, flow, number, printed):
        kind, place = flow.request[1]
        if number is None:
            return self.is_answered(world, flow, kind, place, printed)
        if number == 13:
            flushed = ["c"] if place is not None and place > world.kept else []
            if not flow.met_down or flow.next == "heads":
                return world.downs(self.touched(flow), flushed)
            # Either the node that it met told it, or the flush of the coordinator has failed.
            return [*world.flush_fails(flushed), world]
        fallen = min(flow.kept_places) if kind in ("latest", "least") and flow.next != "heads" else place
        causes = {
            7: place is not None and place > flow.least_length,
            8: fallen is not None and fallen < world.horizon and (kind != "least" or flow.next != "heads"),
        }
        must(causes.get(number), "a refusal without its cause")
        return [world]

    def touched(self, flow):
        if flow.kind == "watch":
            return ["c"]
        if flow.kind == "check":
            return list(range(self.shards)) + ["c"]
        found = {"c"}
        for kind, *parts in flow.request[2]:
            if kind == "user":
                found |= set(range(self.shards))
            else:
                found.add(home(parts[0], self.shards) if kind == "key" else definitions.shard_of(parts[0], parts[1], self.shards))
        return sorted(found, key=str)

    def is_answered(self, world, flow, kind, place, printed):
        if flow.next == "heads":
            world.answers("c")
        if place is not None and max(flow.kept_places) < place:
            must(place <= len(world.log), "an answer at a place above the log")
            world.keep()
            world.note_flow(flow)
        if flow.kind == "watch":
            return self.is_listed(world, flow, place, printed)
        word, _, text = printed[0].partition(" ")
        must(word == "at" if flow.kind == "read" else word in ("yes", "no"), "an answer of another kind")
        found = place_of(text, self.store)
        if kind == "exact":
            must(found == place and found >= flow.first_horizon, "an answer at another place")
        else:
            must(found in flow.kept_places and found >= (place or 0), "an answer at another place")
        if flow.next == "heads":
            must(kind != "exact" or found >= world.horizon, "an answer below the horizon")
        there = definitions.snapshot(world.log, found)
        if flow.kind == "check":
            must((word == "yes") == definitions.is_member(there, flow.request[2]), "the answer is the other one")
            return [world]
        rows = [
            f"{index} {definitions.tuple_text(asked)}"
            for index, tupleset in enumerate(flow.request[2], 1)
            for asked in definitions.select(there, tupleset)
        ]
        must(printed[1:] == rows, f"the rows are {rows}")
        if flow.next == "heads":
            shards = [name for name in self.touched(flow) if name != "c"]
            world.answers(*shards)
            for shard in shards:
                world.nodes[shard].learned = max(world.nodes[shard].learned, found)
        return [world]

    def is_listed(self, world, flow, place, printed):
        limit, namespaces = flow.request[2:]
        must(place >= flow.first_horizon and (flow.next != "heads" or place >= world.horizon), "a watch from below the horizon")
        world.answers("c")
        ends = {min(place + limit, kept) for kept in flow.kept_places if kept >= place}
        events = lambda end: [f"{at} {definitions.change_text(it)}" for at, it in definitions.events(world.log, place, end, namespaces)]
        told = [[*events(end), f"heartbeat {token(self.store, end)}"] for end in ends]
        must(printed in told, f"the events are one of {told}")
        return [world]
