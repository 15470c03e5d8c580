"""Locks of programs in Java, and waits for their conditions."""
import re
import string
from collections import namedtuple

from program import Thing, fits, forms

#: A kind of lock: what makes its object $m, its type, the pattern of its name in the log, its traits, and what stands beside the program.
#: One with the trait "methods" gets a class M$n, of which some methods are synchronized.
Kind = namedtuple("Kind", "name new type pattern traits needs weight beside", defaults=("",))

REENTRANT = r".*ReentrantLock.*@\d+"
READ_WRITE = r"rw\..*@\d+"
DERIVED = "class M$n extends ReentrantLock { }"
OVERRIDING = "class M$n extends ReentrantLock { @Override public void lock() { super.lock(); } @Override public void unlock() { super.unlock(); } " \
    "@Override public boolean tryLock() { return super.tryLock(); } }"
WRAPPING = "class M$n implements Lock { final ReentrantLock l = new ReentrantLock(); public void lock() { l.lock(); } public void unlock() { l.unlock(); } " \
    "public boolean tryLock() { return l.tryLock(); } public Condition newCondition() { return l.newCondition(); } " \
    "public void lockInterruptibly() throws InterruptedException { l.lockInterruptibly(); } " \
    "public boolean tryLock(long a, TimeUnit b) throws InterruptedException { return l.tryLock(a, b); } }"
KINDS = [
    Kind("ReentrantLock", "new ReentrantLock()", "ReentrantLock", REENTRANT, "lock", "-shared", 1),
    Kind("fair ReentrantLock", "new ReentrantLock(true)", "ReentrantLock", REENTRANT, "lock", "-shared", 1),
    Kind("Lock", "new ReentrantLock()", "Lock", REENTRANT, "lock", "-shared", 1),
    Kind("class that extends ReentrantLock", "new M$n()", "M$n", REENTRANT, "lock", "-shared", 1, DERIVED),
    Kind("class that overrides lock and unlock", "new M$n()", "M$n", REENTRANT, "lock", "-shared", 1, OVERRIDING),
    Kind("class that overrides lock and unlock, as a ReentrantLock", "new M$n()", "ReentrantLock", REENTRANT, "lock", "-shared", 1, OVERRIDING),
    Kind("Lock of the program", "new M$n()", "Lock", REENTRANT, "lock", "-shared", 1, WRAPPING),
    Kind("monitor", "new Object()", "Object", r"(java\.lang\.)?Object@\d+", "monitor", "-shared scoped", 3),
    Kind("monitor of an array", "new int[2]", "Object", r"int\[\]@\d+", "monitor", "-shared scoped", 1),
    Kind("monitor of its class", "new M$n()", "M$n", r"M$n@\d+", "monitor methods", "-shared scoped", 3),
    Kind("monitor of a class", "M$n.class", "Class<?>", r"M$n\.class", "monitor methods of-class", "-shared scoped", 2),
    Kind("monitor of a class of another loader", 'Stage.loaded("Twin", $n)', "Class<?>", r"Twin\.class(@\d+)?", "monitor", "-shared scoped", 1),
    Kind("monitor of main's thread", "Stage.thread(1)", "Thread", r"Thread@\d+", "monitor thread", "-shared scoped -taken", 4),
    Kind("ReentrantReadWriteLock", "new ReentrantReadWriteLock()", "ReentrantReadWriteLock", READ_WRITE, "readwrite", "shared", 1),
    Kind("fair ReentrantReadWriteLock", "new ReentrantReadWriteLock(true)", "ReentrantReadWriteLock", READ_WRITE, "readwrite", "shared", 1),
    Kind("class that extends ReentrantReadWriteLock", "new M$n()", "M$n", READ_WRITE, "readwrite", "shared", 1, "class M$n extends ReentrantReadWriteLock { }"),
    Kind("StampedLock", "new StampedLock()", "StampedLock", r"StampedLock@\d+", "stamped", "shared -waited", 4),
]

#: How a lock is taken: $m is the lock, $side its side of a read-write lock, $stamp the number of the acquire. A StampedLock is taken
#: by a stamp, by a view, or not at all ("optimistic"): WAYS.
TAKES = forms([
    ("lock", "$m.lock();", "lock", 2), ("tryLock", "if (!$m.tryLock()) throw new Error();", "lock"),
    ("tryLock with a time", "if (!$m.tryLock(99, TimeUnit.SECONDS)) throw new Error();", "lock"), ("lockInterruptibly", "$m.lockInterruptibly();", "lock"),
    ("synchronized", "synchronized ($m) {", "monitor"),
    ("lock of a side", "$m.${side}Lock().lock();", "readwrite", 2), ("tryLock of a side", "if (!$m.${side}Lock().tryLock()) throw new Error();", "readwrite"),
    ("tryLock of a side with a time", "if (!$m.${side}Lock().tryLock(99, TimeUnit.SECONDS)) throw new Error();", "readwrite"),
    ("lockInterruptibly of a side", "$m.${side}Lock().lockInterruptibly();", "readwrite"),
    ("readLock", "Stage.stamps[$stamp] = $m.readLock();", "stamp reads"), ("writeLock", "Stage.stamps[$stamp] = $m.writeLock();", "stamp -reads"),
    ("readLockInterruptibly", "Stage.stamps[$stamp] = $m.readLockInterruptibly();", "stamp reads"),
    ("writeLockInterruptibly", "Stage.stamps[$stamp] = $m.writeLockInterruptibly();", "stamp -reads"),
    ("tryReadLock", "if ((Stage.stamps[$stamp] = $m.tryReadLock()) == 0) throw new Error();", "stamp reads"),
    ("tryWriteLock", "if ((Stage.stamps[$stamp] = $m.tryWriteLock()) == 0) throw new Error();", "stamp -reads"),
    ("tryWriteLock with a time", "if ((Stage.stamps[$stamp] = $m.tryWriteLock(99, TimeUnit.SECONDS)) == 0) throw new Error();", "stamp -reads"),
    ("tryConvertToReadLock", "if ((Stage.stamps[$stamp] = $m.tryConvertToReadLock(Stage.stamp($m))) == 0) throw new Error();", "stamp reads"),
    ("tryConvertToWriteLock", "if ((Stage.stamps[$stamp] = $m.tryConvertToWriteLock(Stage.stamp($m))) == 0) throw new Error();", "stamp -reads"),
    ("lock of a view", "$m.as${Side}Lock().lock();", "view"), ("tryLock of a view",
        "if (!$m.asReadWriteLock().${side}Lock().tryLock()) throw new Error();", "view"),
    ("tryOptimisticRead", "if ((Stage.stamps[$stamp] = $m.tryOptimisticRead()) == 0) throw new Error();", "optimistic"),
])
RELEASES = forms([
    ("unlock", "$m.unlock();", "lock"), ("the end of synchronized", "}", "monitor"), ("unlock of a side", "$m.${side}Lock().unlock();", "readwrite"),
    ("unlockRead", "$m.unlockRead(Stage.stamps[$stamp]);", "stamp reads"), ("unlockWrite", "$m.unlockWrite(Stage.stamps[$stamp]);", "stamp -reads"),
    ("unlock of a stamp", "$m.unlock(Stage.stamps[$stamp]);", "stamp"),
    ("tryConvertToOptimisticRead", "if ($m.tryConvertToOptimisticRead(Stage.stamps[$stamp]) == 0) throw new Error();", "stamp"),
    ("unlock of a view", "$m.as${Side}Lock().unlock();", "view"),
    ("validate", "if (!$m.validate(Stage.stamps[$stamp])) throw new Error();", "optimistic"),
])
WAYS = [("stamp", 5), ("view", 2), ("optimistic", 2)]
FAILURES = forms([
    ("tryLock that fails", "if ($m.tryLock()) throw new Error();", "lock"),
    ("tryLock with a time that fails", "if ($m.tryLock(1, TimeUnit.MILLISECONDS)) throw new Error();", "lock"),
    ("lockInterruptibly that is interrupted", "Stage.interrupt(); try { $m.lockInterruptibly(); throw new Error(); } catch (InterruptedException e) { }", "lock"),
    ("tryLock of a side that fails", "if ($m.writeLock().tryLock()) throw new Error();", "readwrite"),
    ("lockInterruptibly of a side that is interrupted",
     "Stage.interrupt(); try { $m.writeLock().lockInterruptibly(); throw new Error(); } catch (InterruptedException e) { }", "readwrite"),
    ("tryWriteLock that fails", "if ($m.tryWriteLock() != 0) throw new Error();", "stamped"),
    ("tryWriteLock with a time that fails", "if ($m.tryWriteLock(1, TimeUnit.MILLISECONDS) != 0) throw new Error();", "stamped"),
    ("tryLock of a view that fails", "if ($m.asWriteLock().tryLock()) throw new Error();", "stamped"),
    ("validate that fails", "if ($m.validate(0)) throw new Error();", "stamped", 4),
    ("tryOptimisticRead that fails", "if ($m.tryOptimisticRead() != 0) throw new Error();", "stamped written", 4),
    ("tryReadLock that fails", "if ($m.tryReadLock() != 0) throw new Error();", "stamped written"),
    ("tryLock of the readers' side that fails", "if ($m.readLock().tryLock()) throw new Error();", "readwrite written"),
])
#: All releases and acquires of a lock at once, by a wait that runs out or is interrupted. $condition makes a condition.
WAITS = forms([
    ("await with a time", "$condition.await(1, TimeUnit.MILLISECONDS);", "lock|readwrite"), ("awaitNanos", "$condition.awaitNanos(1000);", "lock|readwrite"),
    ("awaitUntil", "$condition.awaitUntil(new Date());", "lock|readwrite"),
    ("await that is interrupted", "Stage.interrupt(); try { $condition.await(); throw new Error(); } catch (InterruptedException e) { }", "lock|readwrite"),
    ("wait with a time", "$m.wait(1);", "monitor"), ("wait with a time in nanoseconds", "$m.wait(0, 1000);", "monitor"),
    ("join that runs out", "$m.join(1);", "thread", 3),
    ("join that is interrupted", "Stage.interrupt(); try { $m.join(); throw new Error(); } catch (InterruptedException e) { }", "thread", 3),
    ("wait that is interrupted", "Stage.interrupt(); try { $m.wait(); throw new Error(); } catch (InterruptedException e) { }", "monitor"),
])

#: Conditions: the texts of who waits and of who wakes, both with the lock.
Condition = namedtuple("Condition", "name started waits wakes needs")
LOOP = "while (!Stage.flagged($flag)) %s;"
CONDITIONS = [
    Condition("await and signal", "Stage.put($c, $condition);", LOOP % "((Condition) Stage.at($c)).await()", "((Condition) Stage.at($c)).signal();",
              "lock|readwrite"),
    Condition("await and signalAll", "Stage.put($c, $condition);", LOOP % "((Condition) Stage.at($c)).awaitUninterruptibly()",
              "((Condition) Stage.at($c)).signalAll();", "lock|readwrite"),
    Condition("await with a time and signal", "Stage.put($c, $condition);", LOOP % "((Condition) Stage.at($c)).await(99, TimeUnit.SECONDS)",
              "((Condition) Stage.at($c)).signal();", "lock|readwrite"),
    Condition("wait and notify", "", LOOP % "$m.wait()", "$m.notify();", "monitor"),
    Condition("wait and notifyAll", "", LOOP % "$m.wait(99000)", "$m.notifyAll();", "monitor"),
]

def meetings_of(trace):
    """Returns the meetings of a trace in their order."""
    return [step.meeting for step in trace.steps if step.meeting and step is step.meeting.steps[0]]


def waits_of(program):
    """Returns the steps of each wait for a condition, those of its waker included."""
    return [one.steps for one in meetings_of(program.trace) if one.kind == "condition"] + list(program.waits.values())


def taken_back(program):
    """Returns for each release by a wait the acquire that takes it back, by the number of the release."""
    result = {}
    for steps in waits_of(program):
        mine = [step for step in steps if step.thread == steps[0].thread]
        result.update({release.number: acquire for release, acquire in zip(mine[:len(mine) // 2], reversed(mine))})
    return result


def scope_end(program, acquire):
    """Returns the release of an acquire behind all waits in between, or None."""
    release = acquire.partner
    while release and release.number in program.taken_back:
        release = program.taken_back[release.number].partner
    return release


def scoped(program):
    """Returns the locks of which each acquire and its release can be the two ends of one statement."""
    good, scopes = set(program.trace.locks) - set(program.trace.shared), {}
    inner = {step.number for step in program.taken_back.values()}
    for step in program.trace.steps:
        mine = scopes.setdefault(step.thread, [])
        mine[:] = [(block, end) for block, end in mine if end > step.number]
        if step.operation != "acq" or step.meeting or step.number in inner:
            continue
        end, block = scope_end(program, step), program.block_of[step.number]
        if not end or program.block_of[end.number] != block or any(other == block and last < end.number for other, last in mine):
            good.discard(step.target)
        else:
            mine.append((block, end.number))
    return good


def make_lock(program, number, name, good):
    """Returns a lock, and adds its object to the program."""
    it = Thing(number, name)
    use = ({"shared"} if name in program.trace.shared else set()) | ({"scoped"} if name in good else set())
    use |= {"waited"} if any(steps[0].target == name for steps in waits_of(program)) else set()
    use |= {"taken"} if program.has_thread else set()
    possible = [one for one in KINDS if fits(one.needs, use)]
    it.kind = program.random.choices(possible, [one.weight for one in possible])[0]
    it.traits, it.log_name = set(it.kind.traits.split()), None
    program.has_thread |= "thread" in it.traits
    if it.kind.beside:
        program.beside.append(string.Template(it.kind.beside).substitute(n=number))
    it.methods = [] if "methods" in it.traits else None
    program.start.append("Stage.put(%d, %s);" % (1000 + number, string.Template(it.kind.new).substitute(n=number)))
    kind = string.Template(it.kind.type).substitute(n=number)
    it.words = {"m": "((%s) Stage.at(%d))" % (kind, 1000 + number), "n": number}
    if "of-class" in it.traits:
        it.words["m"] = "M%d.class" % number
    it.words["condition"] = it.words["m"] + (".writeLock()" if "readwrite" in it.traits else "") + ".newCondition()"
    it.pattern = re.compile(string.Template(it.kind.pattern).substitute(n=number))
    return it


def choose_ways(program):
    """Returns for each acquire of a StampedLock how it is held, by its number."""
    result = {}
    for step in program.trace.steps:
        if step.operation in ("acq", "racq") and "stamped" in program.locks[step.target].traits:
            ways = WAYS if step.operation == "racq" else WAYS[:2]
            result[step.number] = program.random.choices([way for way, _ in ways], [weight for _, weight in ways])[0]
    return result


def words_of(program, step):
    it = program.locks[step.target]
    reads = step.operation in ("racq", "rrel")
    acquire = step.partner if step.operation in ("rel", "rrel") else step
    side = "read" if reads else "write"
    traits = it.traits | ({"reads"} if reads else set()) | {program.ways.get(acquire.number, "")}
    return it, traits, dict(it.words, side=side, Side=side.capitalize(), stamp=acquire.number)


def take(program, step):
    it, traits, words = words_of(program, step)
    how, text = program.choose(TAKES, traits, words)
    return "%s of a %s" % (how, it.kind.name), text


def release(program, step):
    it, traits, words = words_of(program, step)
    how, text = program.choose(RELEASES, traits, words)
    return "%s of a %s" % (how, it.kind.name), text


def wait(program, lock):
    """Returns a wait that runs out or is interrupted."""
    it = program.locks[lock]
    return program.choose(WAITS, it.traits, it.words)


def add_method(program, step, name, lines):
    """Adds a synchronized method to the class of a step's monitor, and returns its call."""
    it = program.locks[step.target]
    head = "static synchronized" if "of-class" in it.traits else "synchronized"
    it.methods.append("%s long %s() throws Exception {\n    %s\n    return 0;\n}" % (head, name, "\n    ".join(lines)))
    return "%s.%s()" % ("M%d" % it.number if "of-class" in it.traits else it.words["m"], name)


def classes(program):
    """Returns the classes of the monitors that have methods."""
    return ["class M%d {\n%s\n}" % (it.number, "\n".join(it.methods)) for it in program.locks.values() if it.methods is not None]


def fail(program, step):
    """Returns a try that fails, or None if no other thread holds a lock that can be tried."""
    names = [name for name in program.held_by_others(step) if "monitor" not in program.locks[name].traits
             and any(program.ways.get(one.number) != "optimistic" for one in program.owners[step.number][name])]
    if not names:
        return None
    it = program.locks[program.random.choice(names)]
    written = {"written"} if program.owners[step.number][it.name][0].operation == "acq" else set()
    return program.choose(FAILURES, it.traits | written, it.words)
