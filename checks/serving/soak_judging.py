"""What a wrong server would have told that is killed now and then, beside what is spoiled of any run: writes without an answer, writes that are sent again,
dumps of the files, and the list behind one more start."""
from judge.definitions import Condition, snapshot
from judge.worlds import Wrong
from stressing.calls import UNANSWERED, Call, Caller, Dump, Read, Restart, Run, Watch, Write
from stressing.ground import Ground, fitted, other_call, spoiling
from stressing.history import History, log_of
from stressing.judging import ABORTED, BUSY, DOWN, FORMS, FUTURE, PRECONDITION, RULES as OF_THREADS, UNSURE, judged_by
from stressing.plain_store import SHARDS, Asker, Sample
from stressing.spoiled_answers import other_found, other_one
from stressing.ground import NEW, STRANGER
from stressing.spoiled_lists import changed, other_list, stands_last
from stressing.spoiling import OF_CALLS
from verdicts import double, less

# Refusals of a write that may come where a server was killed and started: its tuple is there, held, an epoch ended, unsure. None of an answer may.
MAY = {"sends_again": True, "of_writes": {PRECONDITION, BUSY, ABORTED, UNSURE}, "of_answers": set()}
FORM = "the form of the list"
# Those that a run can break: a refusal that never comes has no cause.
RULES = (FORM, *(rule for rule in OF_THREADS if rule not in FORMS and rule not in [f"the cause of refusal {code}" for code in (FUTURE, UNSURE, DOWN)]))


def judged(run, _=None):
    """The run, its list, and all faults, each a rule's name and a text. The last of its callers has read the list."""
    try:
        return run, *judged_by(run, log_of(run.callers[-1]), **MAY)
    except Wrong as wrong:
        return None, None, [(FORM, str(wrong))]


CALLERS = (*["writer"] * 6, *["reader"] * 3, "watcher")
# How often the server is killed in so many steps.
KILLS, STEPS = 5, 3000


class Client(Asker):
    """Half of its writes have the condition that their own tuple is absent; these are sent again where it is unknown whether they were made."""

    again = None

    def fresh(self):
        kind, place = super().fresh()
        return kind, None if place is None else min(place, self.place)

    def condition(self):
        return super().condition()._replace(want=self.random.choice(("exists", "absent")))

    def write(self):
        made, self.again = self.again or super().write(), None
        is_once = made.conditions[:1] == (own_of(made),) or self.random.random() < 0.5
        return made._replace(conditions=(own_of(made), *made.conditions[1:])) if is_once else made

    def told(self, call):
        super().told(call)
        if isinstance(call.asked, Write) and call.code in (10, UNANSWERED) and call.asked.conditions[:1] == (own_of(call.asked),):
            self.again = call.asked


def own_of(write):
    return Condition(write.changes[0].tuple, "absent")


class Killed(Sample):
    kinds, asker = CALLERS, Client

    def __init__(self, seed):
        super().__init__(seed)
        self.restarts, self.dumps = [], []

    def now(self, asked, place=None, found=None):
        """A call that nothing lies beside."""
        return Call(self.next_tick(), self.next_tick(), asked, None, place, found)

    def kill(self):
        """What is on its way gets no answer, and a write among it is made or not. Then the files are dumped, and the server is started again."""
        for number, (begin, asked, told) in self.calls.items():
            if isinstance(asked, Write):
                if not told and self.random.random() < 0.5:
                    self.act(number, asked)
                self.askers[number].told(Call(begin, self.next_tick(), asked, UNANSWERED, None, None))
        self.calls, self.store.running = {}, {}
        log = self.store.log
        self.dumps.append(self.now(Dump(), len(log), tuple(sorted(snapshot(log, len(log))))))
        self.restarts.append(self.now(Restart("c")))

    def run(self, steps):
        for at in range(1, steps + 1):
            self.step(self.random.choice(self.askers))
            if at % (steps // KILLS) == 0:
                self.kill()
        calls = [*((asker.kind, asker.calls) for asker in self.askers), ("trouble", self.restarts), ("dump", self.dumps), ("end", self.end())]
        return Run(self.seed, SHARDS, [Caller(number, *one) for number, one in enumerate(calls)])


def sample(seed):
    return Killed(seed).run(STEPS)


def is_open(ground, call):
    """It got no answer, and was sent once."""
    return call.code == UNANSWERED and len(ground.listed.sent[call.asked.changes]) == 1


def is_own(ground, call):
    return is_open(ground, call) and call.asked.conditions in ((), (own_of(call.asked),))


def standing(ground, kind, is_so):
    return ground.where(kind, lambda call: id(call) in ground.standing and is_so(call))


def asked_late(ground, call):
    """Once all else was told."""
    tick = ground.end()[0].begin
    return call._replace(begin=tick - 2, end=tick - 1)


@spoiling
def sent_again(ground, begin_of, is_so=is_open, code=UNANSWERED, pick=Ground.unplaced):
    """A write of which this is so is sent again at such a tick, and answered so."""
    where, call = pick(ground, Write, lambda call: is_so(ground, call))
    return ground.with_calls(where, call, call._replace(begin=begin_of(call), end=call.end + 2, code=code, place=None))


@spoiling
def another_start(ground, change):
    """The list is read once more, and is another one."""
    log, tick = change(ground.log), ground.end()[-1].end
    asked = Watch(0, 256, tuple(ground.namespaces))
    starts = range(0, len(log) + 1, asked.limit)
    calls = [Call(tick + 2 * at + 1, tick + 2 * at + 2, asked._replace(start=start), None, None, None) for at, start in enumerate(starts)]
    found = [fitted(call, History(log), min(len(log), call.asked.start + asked.limit)) for call in calls]
    return ground.run._replace(callers=[Caller(-1, "watcher", found), *ground.run.callers])


@spoiling
def other_watches(ground, change):
    """The list is read otherwise, by watches of which this is changed."""
    calls = ground.end()
    watches = [call for call in calls if isinstance(call.asked, Watch)]
    return ground.with_end([*change(*watches), *calls[len(watches) :]])


def starting(call, by):
    return call._replace(asked=call.asked._replace(start=call.asked.start + by))


KINDS = {
    **OF_CALLS,
    "an open write stands behind a later life": stands_last(lambda ground, call: is_open(ground, call) and call.end < ground.last_begun),
    "an open write stands below what was told": other_call(Write, asked_late, is_open, standing),
    "a told place had been told before": other_call(Write, asked_late, lambda ground, call: call.place < len(ground.log)),
    "a told write is of an earlier life": other_call(Write, lambda _, call: call._replace(begin=-2, end=-1), lambda _, call: call.place > 1),
    "a write is there, and is not": sent_again(lambda call: call.end + 1, is_own, 9),
    "a write is sent again beside itself": sent_again(lambda call: call.begin + 1),
    "a told write is sent again": sent_again(lambda call: call.end + 1, lambda *_: True, pick=Ground.told),
    "a refusal that may not come": other_call(Write, lambda _, call: call._replace(code=13), lambda _, call: call.code == 10, Ground.unplaced),
    "all is lost": other_list(lambda *_: []),
    "a told write is lost, and its place is empty": lambda ground: changed(ground, ground.told_place(), ()),
    "another start, another list": another_start(lambda log: [*log[:-1], (NEW,)]),
    "another start, a shorter list": another_start(lambda log: log[:-1]),
    "a list that is not read to its end": other_watches(lambda *watches: watches[:-1]),
    "a list out of order": other_watches(lambda first, *rest: [first._replace(found=(*first.found[1:], first.found[0])), *rest]),
    "a gap in the list": other_watches(lambda first, second, *rest: [first, starting(second, 1), *rest]),
    "a row too many": other_found(Read, lambda _, found: (*found, STRANGER)),
    "events that nobody made": other_call(Watch, lambda _, call: call._replace(found=((call.place, NEW),)), lambda _, call: call.found),
    "a watch that begins elsewhere": other_call(Watch, lambda _, call: starting(call, -1), lambda _, call: call.asked.start),
    "a dump lacks a tuple": other_one(Dump, less),
    "a dump has a tuple twice": other_one(Dump, double),
    "a dump has a tuple that nobody wrote": other_found(Dump, lambda _, found: (*found, STRANGER)),
    "a dump in another order": other_found(Dump, lambda _, found: found[::-1], lambda call: len(call.found) > 1),
    "a dump of an older place": other_call(Dump, lambda _, call: call._replace(place=call.place - 1)),
    "a dump above the list": other_call(Dump, lambda _, call: call._replace(place=10**6)),
}
