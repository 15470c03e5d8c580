"""Random well-formed traces. A trace is a list of steps in the order in which a program has to execute them."""

READS_AND_WRITES = ("r", "w")
TAKES = ("acq", "racq")
RELEASES = {"acq": "rel", "racq": "rrel"}


class Step:
    """One event of a thread.

    `operation` is r, w, acq, rel, racq and rrel (of a lock for readers), fork, join, begin, end, nop, or one of MORE. `target`
    is the variable, lock, label or thread, and `count` how many permits of a semaphore it takes or gives. `partner` is the end
    of a begin and the release of an acquire, and the other way round. `at_exit` says that pthread_exit or the like makes this
    end or release, at any time before the thread is joined.
    """

    def __init__(self, number, thread, operation, target=None):
        self.number, self.thread, self.operation, self.target = number, thread, operation, target
        self.partner, self.meeting, self.at_exit, self.count = None, None, False, 1

    def __str__(self):
        if self.operation in ("end", "nop"):
            return "T%d %s" % (self.thread, self.operation)
        return "T%d %s(%s)" % (self.thread, self.operation, self.target)


class Meeting:
    """Steps of several threads that follow each other and are executed together, because some of their calls wait."""

    def __init__(self, kind, target):
        self.kind, self.target, self.steps = kind, target, []


class Trace:
    """A random trace of about `size` steps, with the operations of MORE that `features` names.

    These features change no list of MORE: "twice" (locks that a thread takes twice), "exit" and "exit of main" (threads that end within
    blocks), "left" (that may then hold locks), "spare" (semaphores that are posted while they have permits of their first ones), "shared
    condition" (conditions of locks for readers), "waiters" (operations of Go's things for which another thread waits), "again" (waits
    for conditions of locks that are held several times or have readers too), "permits" (several permits at once), "looks" (looks at
    queues and latches, and tries that fail) and "scopes" (locks that are held as a statement holds them).
    Operations of MORE are drawn `often` times as often as without it, and if that is more than once, then several of a thing at once.
    """

    def __init__(self, random, size, features=(), often=1):
        self.random, self.size, self.features, self.often = random, size, set(features), often
        self.steps, self.moving = [], random.random() < 0.4
        count = size // 4 + 6 if self.moving else random.randint(2, 8)
        self.variables = ["x%d" % one for one in range(count)]
        self.locks = ["l%d" % one for one in range(random.randint(1, 4))]
        self.shared = [one for one in self.locks if random.random() < 0.25]
        self.twice = [one for one in self.locks if one not in self.shared and random.random() < 0.3 and "twice" in self.features]
        self.robust = [one for one in self.locks if "left" in self.features and one not in self.shared + self.twice and random.random() < 0.4]
        self.scoped = [one for one in self.locks if "scopes" in self.features and one not in self.shared and random.random() < 0.6]
        self.scopes = {}    # by thread, the blocks that are open and the scoped locks that are held, as they are nested
        self.labels = ["L%d" % one for one in range(random.randint(2, 8))]
        self.most_threads, self.next_thread = random.randint(2, 5), 2
        self.live, self.ended = [1], []
        self.open_blocks = {1: []}
        self.held = {one: [] for one in self.locks}      # the acquires that have no release yet
        self.things = {kind: [kind + str(one) for one in range(random.randint(1, 2))] for kind in self.some_kinds()}
        self.permits = {name: random.randint(0, 2 if "spare" in self.features else 1) for name in self.things.get("semaphore", ())}
        self.has_roles = "spare" in self.features and random.random() < 0.5
        self.slots = {name: random.choice((0, 1, 2, 3, 3)) for name in self.things.get("channel", ())}
        self.first_permits, self.at_first = dict(self.permits), dict(self.permits)
        self.filled, self.closed, self.locked_by = {}, set(), {}
        self.make()

    def some_kinds(self):
        """Returns the kinds of things of this trace. Of many kinds these are one or a few, so that each has several operations."""
        kinds = [kind for kind in MORE if kind in self.features]
        if "again" not in self.features:
            return kinds
        # Two of them twice: what they do depends on most of the operations before.
        some = self.random.sample([kind for kind in kinds if kind != "condition"] + ["deque", "semaphore"], self.random.choice([1, 2, 4]))
        return [kind for kind in kinds if kind in some or kind == "condition"]

    def make(self):
        """Adds random steps, and then those that end all threads."""
        thread = 1
        while len(self.steps) < self.size:
            if self.random.random() < 0.6:
                thread = self.random.choice(self.live)
            if thread not in self.live:
                thread = 1
            self.add_any(thread)
        while self.live != [1] or self.ended:
            thread = self.random.choice(self.live)
            if thread != 1:
                self.finish(thread)
            elif self.ended:
                self.add(1, "join", self.ended.pop(self.random.randrange(len(self.ended))))
        self.finish(1)

    def add(self, thread, operation, target=None):
        step = Step(len(self.steps), thread, operation, target)
        self.steps.append(step)
        return step

    def some_variable(self):
        """Returns one of all variables, or if they come and go one of the five of this time."""
        if not self.moving:
            return self.random.choice(self.variables)
        first = len(self.variables) - 5
        first = min(first, len(self.steps) * first // self.size)
        return self.random.choice(self.variables[first:first + 5])

    def add_any(self, thread):
        """Adds a step, or none if the operation that is drawn isn't possible."""
        weights = [weight * (self.often if one is Trace.add_more else 1) for weight, one in OPERATIONS]
        if "again" in self.features:
            weights[-3:] = [8, 40, 40]      # more of nothing, as of tries that fail, and of the things of MORE
        self.random.choices([one for _, one in OPERATIONS], weights)[0](self, thread)

    def add_begin(self, thread):
        if len(self.open_blocks[thread]) < 3:
            self.open_blocks[thread].append(self.add(thread, "begin", self.random.choice(self.labels)))
            self.scopes.setdefault(thread, []).append(None)
            if self.scoped and self.random.random() < 0.3:
                self.add_acquire(thread, self.scoped)

    def add_end(self, thread):
        if self.open_blocks[thread]:
            while self.scopes[thread][-1]:
                self.release(thread, self.scopes[thread].pop())
            self.scopes[thread].pop()
            begin, end = self.open_blocks[thread].pop(), self.add(thread, "end")
            begin.partner, end.partner = end, begin
            if self.random.random() < 0.3:
                self.add_end(thread)

    def add_fork(self, thread):
        if self.next_thread <= self.most_threads:
            self.add(thread, "fork", self.next_thread)
            self.live.append(self.next_thread)
            self.open_blocks[self.next_thread] = []
            self.next_thread += 1

    def add_exit(self, thread):
        one = self.random.choice(self.live)
        if one not in (1, thread) and len(self.steps) > 15:
            self.finish(one)

    def add_join(self, thread):
        if self.ended:
            self.add(thread, "join", self.ended.pop(self.random.randrange(len(self.ended))))

    def add_nothing(self, thread):
        self.add(thread, "nop")

    def add_access(self, thread):
        chance = self.random.random() if "bytes" in self.things else 1
        if chance < 0.3:
            # (C has more kinds of things than the other languages)
            self.add_touch(thread, self.random.choice(self.things["bytes"])) if chance < 0.2 else self.add_more(thread)
            return
        variable = self.some_variable()
        step = self.add(thread, self.random.choice(READS_AND_WRITES), variable)
        if step.operation == "r" and self.random.random() < 0.3:
            self.add(thread, "w", variable if self.random.random() < 0.5 else self.some_variable())

    def add_acquire(self, thread, locks=None):
        lock = self.random.choice(locks or self.locks)
        held = self.held[lock]
        if not held:
            self.acquire(thread, lock, "racq" if lock in self.shared and self.random.random() < 0.4 else "acq")
        elif lock in self.twice and held[0].thread == thread and len(held) < 3:
            self.acquire(thread, lock, "acq")
        elif held[0].operation == "racq" and all(one.thread != thread for one in held):
            self.acquire(thread, lock, "racq")
        else:
            return
        if lock in self.scoped:
            self.scopes.setdefault(thread, []).append(lock)

    def acquire(self, thread, lock, operation):
        step = self.add(thread, operation, lock)
        self.held[lock].append(step)
        return step

    def held_by(self, thread):
        return [lock for lock in self.locks for step in self.held[lock] if step.thread == thread]

    def add_release(self, thread):
        held = self.held_by(thread)
        if self.scoped:
            last = self.scopes[thread][-1] if self.scopes.get(thread) else None
            held = [one for one in held if one not in self.scoped or one == last]
        if held:
            step = self.release(thread, self.random.choice(held))
            if step.target in self.scoped:
                self.scopes[thread].pop()
            if "bytes" in self.things and not self.held[step.target] and step.operation == "rel" and self.random.random() < 0.15:
                # (as a wait that runs out does)
                self.acquire(thread, step.target, "acq")

    def release(self, thread, lock):
        acquire = [one for one in self.held[lock] if one.thread == thread][-1]
        self.held[lock].remove(acquire)
        step = self.add(thread, RELEASES[acquire.operation], lock)
        acquire.partner, step.partner = step, acquire
        return step

    def finish(self, thread):
        """Adds the steps that end a thread: its releases, the ends of its blocks and, if it leaves by pthread_exit, its join."""
        left = [lock for lock in self.held_by(thread) if lock in self.robust and self.open_blocks[thread] and thread != 1]
        for lock in self.held_by(thread):
            if lock not in left and lock not in self.scoped:
                self.release(thread, lock)
        for name in [name for name, owner in self.locked_by.items() if owner == thread]:
            self.add_handed(thread, name)
        if "handed" in self.features:
            # Up to here nobody unlocks a mutex of a thread that has no steps any more.
            self.add(thread, "nop")
        quiet = ("nop", "touch", "take") if "bytes" in self.things else ()
        if not any(step.thread == thread and step.operation not in quiet for step in self.steps):
            # Without an event, a fork and a join in one block would be no cycle, and with the scheduler's events they would.
            self.add(thread, "r", self.some_variable())
        may_leave = "exit" in self.features if thread != 1 else "exit of main" in self.features
        leaves = may_leave and self.open_blocks[thread] and (left or self.random.random() < 0.4)
        first = len(self.steps)
        while self.open_blocks[thread]:
            self.add_end(thread)
        while self.scopes.get(thread):
            self.release(thread, self.scopes[thread].pop())
        for lock in left:
            self.release(thread, lock)
        if leaves:
            for step in self.steps[first:]:
                step.at_exit = True
        if thread == 1:
            return
        self.live.remove(thread)
        if not leaves:
            self.ended.append(thread)
            return
        self.add(self.random.choice(self.live), "join", thread)

    # Operations of MORE.

    def add_more(self, thread):
        kind = self.random.choice(sorted(self.things) + self.more_kinds())
        if kind == "nop":
            return
        name = self.random.choice(self.things[kind])
        MORE[kind](self, thread, name)
        while self.often > 1 and self.random.random() < 0.7:
            MORE[kind](self, self.random.choice(self.live), name)

    def more_kinds(self):
        """Returns the kinds that are drawn beside one of each of this trace."""
        if "bytes" in self.things:
            return ["nop"] + ["condition"] * 4 + ["semaphore"] * 3
        return ["condition" if "again" in self.features else "nop"]

    def some_count(self, most):
        """Returns a number of permits."""
        return self.random.randint(1, min(most, 3)) if "permits" in self.features else 1

    def add_semaphore(self, thread, name):
        if "looks" in self.features and self.random.random() < 0.2:
            self.add(thread, "fail", name).count = self.permits[name] + 1
        elif self.permits[name] and self.random.random() < 0.5:
            step = self.add(self.who(thread, name, "take"), "take", name)
            step.count = self.some_count(self.permits[name])
            self.permits[name] -= step.count
            self.at_first[name] = 0
        elif self.permits[name] < 4 and ("spare" in self.features or not self.at_first[name]):
            step = self.add(self.who(thread, name, "post"), "post", name)
            step.count = self.some_count(3)
            self.permits[name] += step.count

    def who(self, thread, name, operation):
        """Returns the thread that does an operation of a semaphore: if these have roles, the one that did it before."""
        known = self.filled.setdefault(name, {})
        if not self.has_roles or known.get(operation) not in self.live:
            known[operation] = thread
        return known[operation]

    def add_touch(self, thread, name):
        """Accesses a part of bytes."""
        self.add(thread, "touch", name)

    def add_sync(self, thread, name):
        self.add(thread, self.random.choice(("before", "after")), name)

    def add_once(self, thread, name):
        self.add(thread, "once", name)

    def add_queue(self, thread, name):
        puts, gets = self.filled.setdefault(name, [0, 0])
        if "looks" in self.features and self.random.random() < 0.4:
            self.add_look(thread, name, puts - gets)
        elif puts > gets and self.random.random() < 0.5:
            self.filled[name][1] += 1
            self.add(thread, "get", name)
        elif puts - gets < 3:
            self.filled[name][0] += 1
            self.add(thread, "put", name)

    def add_look(self, thread, name, inside):
        """Adds a look at a queue, or takes all that is inside."""
        some = ["drain", "drain", "clear"] if inside else ["miss", "drain"]
        operation = self.random.choice(["empty", "count", "peek"] + some)
        if operation in ("drain", "clear"):
            self.filled[name][1] += inside
        self.add(thread, operation, name)

    def add_deque(self, thread, name):
        """The same of a queue with two ends, from which objects may be pulled, too."""
        puts, gets = self.filled.setdefault(name, [0, 0])
        if self.random.random() < 0.5:
            self.add_queue(thread, name)
        elif puts - gets > 1 and self.random.random() < 0.7:
            operation = self.random.choice(["get-last", "get-last", "pull", "pull-last", "peek-last"])
            self.filled[name][1] += operation != "peek-last"
            self.add(thread, operation, name)
        elif puts - gets < 3:
            self.filled[name][0] += 1
            self.add(thread, "put-first", name)

    def add_latch(self, thread, name):
        """Counts a latch of two down, or waits for one that is open."""
        down = self.filled.setdefault(name, [0])
        if "looks" in self.features and self.random.random() < 0.4:
            self.add(thread, self.random.choice(["look", "late"] if down[0] == 2 else ["look", "fail"]), name)
        elif down[0] < 2:
            down[0] += 1
            self.add(thread, "down", name)
        else:
            self.add(thread, "await", name)

    def add_rounds(self, thread, name):
        """Counts a WaitGroup up or down, or waits for one that is at zero. The first count down after a wait begins another round."""
        count = self.filled.setdefault(name, [0])
        if self.random.random() < (0.2 if count[0] else 0.6) and count[0] < 3:
            amount = self.random.randint(1, 2)
            count[0] += amount
            self.add(thread, "up%d" % amount, name)
        elif count[0]:
            amount = self.random.randint(1, min(2, count[0]))
            count[0] -= amount
            self.add_with_waiter(thread, "down%d" % amount, name, None if count[0] else "await")
        else:
            self.add(thread, "await", name)

    def add_channel(self, thread, name):
        """Sends, receives, or closes a channel with up to three slots. Who finds no room or no message waits for another thread."""
        messages, is_closed, slots = self.filled.setdefault(name, [0]), name in self.closed, self.slots[name]
        if not is_closed and self.random.random() < (0.1 if slots else 0.5):
            self.closed.add(name)
            self.add_with_waiter(thread, "close", name, None if messages[0] else "pass")
        elif messages[0] and (is_closed or messages[0] == slots or self.random.random() < 0.25):
            waits = messages[0] == slots and not is_closed
            messages[0] -= 1
            messages[0] += self.add_with_waiter(thread, "get", name, "put" if waits else None)
        elif is_closed:
            self.add(thread, "pass", name)
        elif slots:
            messages[0] += 1
            messages[0] -= self.add_with_waiter(thread, "put", name, None if messages[0] > 1 else "get")

    def add_handed(self, thread, name):
        """Locks a mutex that is free, or unlocks one that any thread has locked."""
        if self.locked_by.get(name) is None:
            self.locked_by[name] = thread
            self.add(thread, "lock", name)
            return
        waited = self.add_with_waiter(thread, "unlock", name, "lock" if "waiters" in self.features else None)
        self.locked_by[name] = self.steps[-1].thread if waited else None

    def add_timer(self, thread, name):
        """Sets a timer and waits until it has gone off, receives what it has sent, or waits for one of its own."""
        sent = self.filled.setdefault(name, [0])
        if self.random.random() < 0.3:
            self.add(thread, "after", name)
            return
        self.add(thread, "tick" if sent[0] else "set", name)
        sent[0] = 1 - sent[0]

    def add_with_waiter(self, thread, operation, target, waits):
        """Adds an operation, perhaps with the operation `waits` of another thread, which waits for it. Returns how many have waited.

        The thread's blocks may end with the operation, before the other thread goes on.
        """
        if not waits or not self.others(thread) or self.random.random() < 0.5:
            self.add(thread, operation, target)
            return 0
        ends = len(self.open_blocks[thread]) if operation in ("put", "close") and self.random.random() < 0.6 else 0
        meeting = self.meet("wait", target, [(thread, operation)] + [(thread, "end")] * ends + [(self.random.choice(self.others(thread)), waits)])
        for end in meeting.steps[1:-1]:
            begin = self.open_blocks[thread].pop()
            self.scopes[thread].pop()
            begin.partner, end.partner, end.target = end, begin, None
        return 1
    def add_adder(self, thread, name):
        self.add(thread, self.random.choice(["add", "add", "add", "sum", "sum", "reset"]), name)

    def add_map(self, thread, name):
        """Reads or writes a key of a map, or looks at the whole of it or changes that."""
        self.add(thread, self.random.choice(["store", "store", "store", "fetch", "fetch", "view", "view", "wipe"]), name)

    def add_future(self, thread, name):
        """Completes a future, which counts once, or waits for one that is complete."""
        done = self.filled.setdefault(name, [False])
        self.add(thread, "see" if done[0] and self.random.random() < 0.7 else "complete", name)
        done[0] = True

    def others(self, thread):
        return [one for one in self.live if one != thread]

    def meet(self, kind, target, operations):
        """Adds a meeting with these pairs of a thread and an operation."""
        meeting = Meeting(kind, target)
        for thread, operation in operations:
            step = self.add(thread, operation, target)
            step.meeting = meeting
            meeting.steps.append(step)
        return meeting

    def add_barrier(self, thread, name):
        """Two or three threads arrive at a barrier, and then all leave it."""
        others = self.others(thread)
        if not others:
            return
        self.random.shuffle(others)
        here = [thread] + others[:self.random.randint(1, 2)]
        self.meet("barrier", name, [(one, "arrive") for one in here] + [(one, "leave") for one in here])

    def add_frame(self, thread, name):
        """A thread is in a function while another one accesses what lies on the stack there."""
        if self.others(thread):
            other = self.random.choice(self.others(thread))
            self.meet("frame", name, [(thread, "open"), (other, "look"), (thread, "close")])

    def add_message(self, thread, name):
        """A thread waits for another one, which gives it a message by hand."""
        if self.others(thread):
            sender = self.random.choice(self.others(thread))
            self.meet("message", name, [(sender, "send"), (thread, "receive")])

    def add_exchange(self, thread, name):
        """Two threads exchange what they give."""
        if self.others(thread):
            here = [thread, self.random.choice(self.others(thread))]
            self.meet("exchange", name, [(one, "give") for one in here] + [(one, "got") for one in here])

    def add_park(self, thread, name):
        """A thread that is parked goes on by the permit of another one."""
        if self.others(thread):
            waker = self.random.choice(self.others(thread))
            self.meet("park", "park%d" % thread, [(waker, "unpark"), (thread, "park")])

    def add_condition(self, thread, name):
        """A thread that holds a lock waits on a condition until another one that takes the lock wakes it.

        The feature "again" adds locks with readers, those that are held several times, and waits that nobody ends.
        """
        again = "again" in self.features
        for _ in range(self.random.randint(0, 3) if again else 0):
            self.add_acquire(thread, self.held_by(thread) or None)
        possible = [lock for lock in self.locks if again or lock not in self.shared or "shared condition" in self.features]
        locks = [lock for lock in possible if self.is_held_by(thread, lock, again)]
        free = [lock for lock in self.locks if lock not in self.shared and not self.held[lock]] if "bytes" in self.things else []
        if free and not locks and self.others(thread):
            locks = [self.random.choice(free)]
            self.acquire(thread, locks[0], "acq")
        if not locks or not self.others(thread):
            return
        lock, waker = self.random.choice(locks), self.random.choice(self.others(thread))
        meeting, count = Meeting("condition", lock), len(self.held[lock])
        meeting.steps = [self.release(thread, lock) for _ in range(count)]
        if again and self.random.random() < 0.4:
            meeting.steps += [self.acquire(thread, lock, "acq") for _ in range(count)]
            return
        meeting.steps += [self.acquire(waker, lock, "acq"), self.release(waker, lock)]
        meeting.steps += [self.acquire(thread, lock, "acq") for _ in range(count)]
        for step in meeting.steps:
            step.meeting = meeting

    def is_held_by(self, thread, lock, again):
        """Returns whether a thread holds a lock as a writer: once, or if `again` as often as you like."""
        held = [(one.thread, one.operation) for one in self.held[lock]]
        return bool(held) and held == [(thread, "acq")] * (len(held) if again else 1)


#: The kinds of things beside variables and locks, and what adds an operation of them. Each function of Trace has its operations.
MORE = {"semaphore": Trace.add_semaphore, "once": Trace.add_once, "queue": Trace.add_queue, "latch": Trace.add_latch,
        "bytes": Trace.add_touch, "handed": Trace.add_handed, "sync": Trace.add_sync, "frame": Trace.add_frame,
        "barrier": Trace.add_barrier, "message": Trace.add_message, "condition": Trace.add_condition, "rounds": Trace.add_rounds,
        "channel": Trace.add_channel, "timer": Trace.add_timer, "deque": Trace.add_deque, "adder": Trace.add_adder,
        "map": Trace.add_map, "future": Trace.add_future, "exchange": Trace.add_exchange, "park": Trace.add_park}

OPERATIONS = [(12, Trace.add_begin), (10, Trace.add_end), (4, Trace.add_fork), (2, Trace.add_exit), (2, Trace.add_join),
              (13, Trace.add_acquire), (12, Trace.add_release), (3, Trace.add_nothing), (40, Trace.add_access), (9, Trace.add_more)]


def event_of(step, shared):
    """Returns the operation and the name of a step's event, as all loggers have it. `shared` are the locks for readers."""
    if step.operation in ("racq", "rrel"):
        return "r", "rw." + step.target
    if step.operation in ("acq", "rel") and step.target in shared:
        return "w", "rw." + step.target
    if step.operation in ("fork", "join"):
        return step.operation, "T%d" % step.target
    return step.operation, step.target


def line_of(thread, operation, name):
    """Returns a line of a trace."""
    return "T%d|%s" % (thread, operation if name is None else "%s(%s)" % (operation, name))
