"""The events that the log of a program in Go has for each step of its trace, by the tables of docs/go-events.md."""
from go import locks
from traces import event_of

#: The first thread of those in which timers go off. The trace has a thread for each time.
FIRST_TIMER = 101


class Events:
    """The operations and names of the events of each step, as docs/go-events.md has them, with a thread if it is another one than the step's.

    AERODROME_SPLIT adds the ends of blocks, and begins, whose names are the numbers of the blocks' first begins.
    """

    def __init__(self, program):
        self.program, self.puts, self.gets, self.once_done, self.sender = program, {}, {}, set(), {}
        self.dones, self.waited, self.tokens, self.handed, self.owner, self.sets = {}, set(), {}, set(), {}, {}
        self.open_blocks, self.timers, self.taker, self.closer, self.unlocker = {}, FIRST_TIMER - 1, {}, {}, {}
        self.splits = program.settings.get("AERODROME_SPLIT", "waits").split(",")

    def all(self):
        return {step.number: self.of(step) for step in self.program.trace.steps}

    def of(self, step):
        return getattr(self, "of_" + step.operation.rstrip("12"), self.of_other)(step)

    def of_other(self, step):
        return [] if step.operation == "nop" else [event_of(step, self.program.trace.shared)]

    def count(self, counts, name):
        counts[name] = counts.get(name, 0) + 1
        return counts[name]

    def slots(self, step):
        return self.program.trace.slots.get(step.target, 4)

    # Blocks. One that has ended for good is False.

    def blocks_of(self, step):
        return [number for number in self.open_blocks.get(step.thread, []) if number is not False]

    def of_begin(self, step):
        self.open_blocks.setdefault(step.thread, []).append(step.number)
        return [("begin", step.target)]

    def of_end(self, step):
        return [("end", None)] if self.open_blocks[step.thread].pop() is not False else []

    def ends(self, step):
        return [("end", None) for _ in self.blocks_of(step)]

    def waits(self, step, events):
        """Returns the events of a wait: those of an acquire, with the ends and begins around the wait."""
        if "waits" not in self.splits:
            return events
        return self.ends(step) + [("begin", number) for number in self.blocks_of(step)] + events

    # Threads.

    def of_fork(self, step):
        event = event_of(step, ())
        if step.target in self.program.by_timer:
            self.timers += 1
            return [("w", "fork.T%d" % step.target), ("r", "fork.T%d" % step.target, self.timers), event + (self.timers,)]
        if "threads" not in self.splits:
            return [event]
        ends = self.ends(step)
        self.open_blocks[step.thread] = [False] * len(self.open_blocks.get(step.thread, []))
        return [event] + ends

    def of_join(self, step):
        # Who receives through a slot of a buffer writes it.
        return self.waits(step, [("w" if "message" in self.program.joins[step.target] else "r", "ends.T%d" % step.target)])

    # Mutexes.

    def of_once(self, step):
        if step.target in self.once_done:
            return [("r", step.target)]
        self.once_done.add(step.target)
        return [("acq", step.target + ".mutex"), ("w", step.target), ("rel", step.target + ".mutex")]

    def as_variable(self, step):
        """Returns the event of a lock that isn't one for the checker, or None."""
        kind = self.program.others[step.target].kind
        if kind.type == "sync.RWMutex":
            return "r" if kind.operations is locks.READS else "w", step.target + ".rw"
        return ("w", step.target + ".handed") if step.target in self.handed else None

    def of_lock(self, step):
        self.owner[step.target] = step.thread
        events = [self.as_variable(step) or ("acq", step.target)]
        return self.waits(step, events) if self.unlocker.get(step.target, step.thread) != step.thread else events

    def of_unlock(self, step):
        owner, event = self.owner[step.target], self.as_variable(step)
        if event:
            if owner != step.thread and event[0] == "w":
                self.unlocker[step.target] = step.thread
            elif event[0] == "w":
                self.unlocker.pop(step.target, None)
            return [event]
        if owner == step.thread:
            return [("rel", step.target)]
        self.handed.add(step.target)
        self.unlocker[step.target] = step.thread
        return [("rel", step.target, owner), ("w", step.target + ".handed")]

    def of_rel(self, step):
        meeting = step.meeting
        waits = meeting and meeting.steps[0] is step and "waits" in self.splits
        return self.of_other(step) + (self.ends(step) if waits else [])

    def of_acq(self, step):
        meeting = step.meeting
        waits = meeting and meeting.steps[-1] is step and "waits" in self.splits
        return [("begin", number) for number in self.blocks_of(step) if waits] + self.of_other(step)

    # WaitGroups. The first Done after a Wait begins another round.

    def of_up(self, step):
        return []

    def of_down(self, step):
        if step.target in self.waited:
            self.waited.remove(step.target)
            self.dones[step.target] = []
        done = "%s.%d" % (step.target, self.count(self.puts, step.target))
        self.dones.setdefault(step.target, []).append((done, step.thread))
        return [("w", done)]

    def of_await(self, step):
        self.waited.add(step.target)
        events = [("r", done) for done, thread in self.dones.get(step.target, []) if thread != step.thread]
        return self.waits(step, events) if events else []

    # Channels. Who sends looks whether the channel is closed.

    def is_of_tokens(self, step):
        return self.program.others[step.target].kind.words is locks.NOTHINGS and self.slots(step) > 1

    def of_put(self, step):
        number = self.count(self.puts, step.target)
        self.sender[step.target, number] = step.thread
        if self.is_of_tokens(step):
            self.tokens.setdefault(step.target, []).append((number, step.thread))
            return [("r", step.target), ("w", "%s.token%d" % (step.target, number))]
        slot = "%s.slot%d" % (step.target, number % self.slots(step))
        taker = self.taker.get(slot, step.thread)
        events = [("w", slot)]
        return [("r", step.target)] + (events if taker == step.thread else self.waits(step, events))

    def of_get(self, step):
        if self.is_of_tokens(step):
            tokens = self.tokens[step.target]
            own = [one for one in tokens if one[1] == step.thread]
            token = own[0] if own else tokens[0]
            tokens.remove(token)
            return [] if own else self.waits(step, [("r", "%s.token%d" % (step.target, token[0]))])
        number = self.count(self.gets, step.target)
        slot = "%s.slot%d" % (step.target, number % self.slots(step))
        events = [("w", slot)]
        if self.sender[step.target, number] == step.thread:
            self.taker.pop(slot, None)
            return events
        self.taker[slot] = step.thread
        return self.waits(step, events)

    def of_close(self, step):
        self.closer[step.target] = step.thread
        return [("w", step.target)]

    def of_pass(self, step):
        events = [("r", step.target)]
        return events if self.closer.get(step.target) == step.thread else self.waits(step, events)

    def of_send(self, step):
        return [("r", step.target)] + self.waits(step, [("w", "%s.%d" % (step.target, self.count(self.puts, step.target)))])

    def of_receive(self, step):
        name = "%s.%d" % (step.target, self.count(self.gets, step.target))
        back = [("w", name + ".back"), ("r", name + ".back", step.meeting.steps[0].thread)]
        return self.waits(step, [("r", name)] + (back if self.program.settings.get("AERODROME_CHANNELS") == "both" else []))

    # Timers.

    def of_set(self, step):
        self.timers += 1
        name = "%s.%d" % (step.target, self.count(self.sets, step.target))
        slot = step.target + ".slot"
        return [("w", name), ("r", name, self.timers), ("r", "of." + step.target, self.timers), ("w", slot, self.timers)]

    def of_after(self, step):
        self.timers += 1
        name = "%s.after%d" % (step.target, self.count(self.sets, step.target))
        first = [("w", name), ("r", name, self.timers), ("r", "of." + name, self.timers), ("w", name + ".slot", self.timers)]
        return first + self.waits(step, [("w", name + ".slot")])

    def of_tick(self, step):
        return self.waits(step, [("w", step.target + ".slot")])
