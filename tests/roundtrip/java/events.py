"""Which events the steps of a trace have in the log of a program in Java, as docs/java-events.md has them.

An own event is never read: a read of a variable by the thread that has written it last is left out, here and of the log.
"""
import re

from traces import event_of


class Events:
    """The operations and names of the events of each step. `situations` has for a step what its text has to fit: traits and words."""

    def __init__(self, program):
        self.program, self.counts, self.permits = program, {}, dict(program.first_permits)
        self.releases, self.parties, self.lookers, self.writer = {}, {}, {}, {}
        self.items, self.found_none, self.found_some = {}, {}, {}
        self.saw_first, self.saw_last = {}, {}
        self.done, self.situations = set(), {}

    def all(self):
        return {step.number: self.of(step) for step in self.program.trace.steps}

    def count(self, name):
        self.counts[name] = self.counts.get(name, 0) + 1
        return self.counts[name]

    def of(self, step):
        more = getattr(self, "of_" + step.operation.replace("-", "_"), None)
        if more:
            return more(step)
        if step.operation == "join" and self.program.starts[step.target].is_task:
            return [("r", "done.T%d" % step.target)]
        return [] if step.operation in ("nop", "late") else [event_of(step, self.program.trace.shared)]

    def situate(self, step, traits=(), **words):
        self.situations[step.number] = traits, words

    @staticmethod
    def others(step, part, threads):
        """Returns reads of what other threads have written."""
        return [("r", "%s.%s%d" % (step.target, part, thread)) for thread in sorted(threads) if thread != step.thread]

    @staticmethod
    def own(step, part):
        return [("w", "%s.%s%d" % (step.target, part, step.thread))]

    # Semaphores.

    def of_post(self, step):
        self.permits[step.target] += step.count
        self.situate(step, ("one",) if step.count == 1 else (), count=step.count)
        number = self.counts[step.target] = self.counts.get(step.target, 0) + step.count
        self.releases.setdefault(step.target, []).append((step.thread, number, step.count))
        return [("w", "%s.permit%d" % (step.target, number))]

    def of_take(self, step):
        """Reads the last one of the releases of each thread that gave more permits than are left, and uses them up but for these."""
        left = self.permits[step.target] = self.permits[step.target] - step.count
        self.situate(step, (["one"] if step.count == 1 else []) + (["all"] if not left else []), count=step.count)
        needed, rest = {}, []
        for thread, number, count in self.releases.get(step.target, ()):
            if count > left:
                needed[thread] = max(number, needed.get(thread, 0))
            else:
                rest.append((thread, number, count))
        if self.program.left_out("releases before a semaphore had no permit"):
            self.releases[step.target] = rest + [(thread, number, left) for thread, number in needed.items() if left]
        return [("r", "%s.permit%d" % (step.target, number)) for thread, number in sorted(needed.items()) if thread != step.thread]

    def of_fail(self, step):
        self.situate(step, ("none",) if step.count == 1 else (), count=step.count)
        return []

    # What depends on no order: additions and looks, latches, barriers.

    def add(self, step, reads_looks=True):
        self.parties.setdefault(step.target, set()).add(step.thread)
        looks = self.others(step, "look", self.lookers.get(step.target, ())) if reads_looks else []
        return looks + self.own(step, "all")

    def look(self, step):
        self.lookers.setdefault(step.target, set()).add(step.thread)
        return self.others(step, "all", self.parties.get(step.target, ())) + self.own(step, "look")

    of_add = of_down = add
    of_sum = of_look = look

    def of_reset(self, step):
        looks = self.others(step, "look", self.lookers.get(step.target, ()))
        return looks + self.look(step) + self.add(step, False)

    def of_await(self, step):
        return self.others(step, "all", self.parties[step.target])

    of_park = of_await

    def of_unpark(self, step):
        return self.add(step, False)

    def of_arrive(self, step):
        name = self.program.part_of_barrier(step)
        self.parties.setdefault(name, set()).add(step.thread)
        return [("w", "%s%d" % (name, step.thread))]

    def of_leave(self, step):
        name = self.program.part_of_barrier(step)
        return [("r", "%s%d" % (name, thread)) for thread in sorted(self.parties[name]) if thread != step.thread]

    # Queues. Of each object that is inside there are the put's name, its thread, and the text of the object.

    def of_put(self, step, at=None):
        it, name = self.program.others[step.target], "%s.item%d" % (step.target, self.count(step.target))
        often = 0.7 if step.target.startswith("deque") else 0.3
        token = "Stage.SAME" if "equal" in it.traits and self.program.chance(often) else '"item %d"' % (10000 + step.number)
        # Each object of a sorted queue is before those that were put there.
        is_sorted = "sorted" in it.traits
        token = '"item %d"' % (90000 - step.number) if is_sorted else token
        self.situate(step, token=token)
        items = self.items.setdefault(step.target, [])
        items.insert(0 if is_sorted else len(items) if at is None else at, (name, step.thread, token))
        nones, firsts = self.others(step, "none", self.found_none.get(step.target, ())), self.others(step, "first", self.saw_first.get(step.target, ()))
        lasts = self.others(step, "last", self.saw_last.get(step.target, ()))
        return nones + ([("w", name)] + firsts if is_sorted else (lasts if at is None else firsts) + [("w", name)])

    of_send = of_put

    def of_put_first(self, step):
        return self.of_put(step, 0)

    def taken(self, step, items):
        """Returns the events of a call that takes these objects out, or none because there are none."""
        for one in items:
            self.items[step.target].remove(one)
        if not items:
            return self.saw_none(step)
        return [("r", name) for name, thread, _ in items if thread != step.thread] + self.took(step)

    def took(self, step):
        return self.changed(step) + self.saw_again(step)

    def changed(self, step):
        if "sorted" in self.program.others[step.target].traits:
            self.saw_first.pop(step.target, None)
        return self.others(step, "head", self.found_some.get(step.target, ()))

    def saw_again(self, step):
        found = self.found_some.setdefault(step.target, set())
        if step.thread not in found:
            return []
        found.remove(step.thread)
        return self.own(step, "head")

    def saw_none(self, step):
        again = self.saw_again(step)
        self.note_none(step)
        return again + self.own(step, "none")

    def note_none(self, step):
        self.found_none.setdefault(step.target, set()).add(step.thread)
        return True

    def saw_some(self, step):
        self.found_some.setdefault(step.target, set()).add(step.thread)
        return self.own(step, "head")

    def inside(self, step):
        return self.items.setdefault(step.target, [])

    def of_get(self, step):
        return self.taken(step, self.inside(step)[:1])

    of_receive = of_miss = of_get

    def of_get_last(self, step):
        return self.taken(step, self.inside(step)[-1:])

    def of_drain(self, step):
        items = list(self.inside(step))
        if "blocking" not in self.program.others[step.target].traits:
            return self.of_clear(step) if items else self.saw_none(step)
        some = self.program.chance(0.3)
        self.situate(step, ("some",) if some else ())
        return self.taken(step, items) + (self.own(step, "none") if items and not some and self.note_none(step) else [])

    def of_clear(self, step):
        gone, self.items[step.target] = self.inside(step), []
        gone.sort(key=lambda one: int(re.search(r"\d+$", one[0])[0]))
        return [("r", name) for name, thread, _ in gone if thread != step.thread] + self.changed(step) + self.saw_none(step)

    def of_pull(self, step, order=1):
        """Takes out an object that is drawn: of equal ones the first or the last."""
        items = self.inside(step)
        token = items[step.number % len(items)][2]
        self.situate(step, token=token)
        return self.taken(step, [one for one in items[::order] if one[2] == token][:1])

    def of_pull_last(self, step):
        return self.of_pull(step, -1)

    def of_empty(self, step):
        self.situate(step, () if self.inside(step) else ("none",))
        return self.saw_some(step) if self.inside(step) else self.saw_none(step)

    def of_count(self, step):
        return self.saw_none(step) + self.saw_some(step)

    def of_peek(self, step, at=0):
        items = self.inside(step)
        if not items:
            self.situate(step, ("none",))
            return self.saw_none(step)
        name, thread, _ = items[at]
        return ([("r", name)] if thread != step.thread else []) + self.saw_some(step) + self.saw_end(step, at)

    def saw_end(self, step, at):
        """A put may change what stands at an end of a deque, or at the front of a sorted queue."""
        if not self.program.others[step.target].traits & {"deque", "sorted"}:
            return []
        seen, part = (self.saw_first, "first") if at == 0 else (self.saw_last, "last")
        seen.setdefault(step.target, set()).add(step.thread)
        return self.own(step, part)

    def of_peek_last(self, step):
        return self.of_peek(step, -1)

    # Exchangers, whose puts have the numbers of their steps.

    def of_give(self, step):
        self.situate(step, token='"item %d"' % (10000 + step.number))
        return [("w", "%s.item%d" % (step.target, step.number))]

    def of_got(self, step):
        return [("r", "%s.item%d" % (step.target, one.number)) for one in step.meeting.steps[:2] if one.thread != step.thread]

    # Maps and sets for several threads.

    def key(self, step):
        """Returns the name of the key that a step reads or writes, and tells its text."""
        kind, number = self.program.others[step.target].keys, step.number % 2
        self.situate(step, key='Stage.key("%s", %d)' % (kind, number))
        is_one = kind == "same" or "compared" in self.program.others[step.target].traits
        return "%s.key%s" % (step.target, "" if is_one else number)

    def write(self, step, name):
        self.writer[name] = step.thread
        return [("w", name)]

    def read(self, step, name):
        return [] if self.writer.get(name) == step.thread else [("r", name)]

    def of_store(self, step):
        clear, parts = self.read(step, step.target + ".clear"), self.add(step)
        return clear + parts[:-1] + self.write(step, self.key(step)) + parts[-1:]

    def of_fetch(self, step):
        return self.read(step, step.target + ".clear") + self.read(step, self.key(step))

    def of_view(self, step):
        self.key(step)
        return self.read(step, step.target + ".clear") + self.look(step)

    def of_wipe(self, step):
        self.key(step)
        return self.write(step, step.target + ".clear")

    # Futures.

    def of_complete(self, step):
        name = step.target
        if name in self.done:
            self.situate(step, ("late",))
            return [("r", name)]
        self.done.add(name)
        return [("w", name)]

    def of_see(self, step):
        return [("r", step.target)]
