"""The things of programs in Java that are neither variables nor locks: semaphores, latches, queues, barriers, maps and the like."""
import re
import string
from collections import namedtuple

from program import Thing, forms

#: A kind of thing: what makes the object $k, its type, the texts of its operations, the pattern of its name in the log, and its
#: traits. The texts have also what events.py tells of a step, as the object $token that is put and the key $key.
Other = namedtuple("Other", "name new type operations pattern traits", defaults=("",))


def calls(names, needs="", read=False):
    return [(name.partition("(")[0], ("Stage.use($k.%s);" if read else "$k.%s;") % name, needs) for name in names]


def looks(names, needs=""):
    return calls(names, needs, True)


def refused(name, call, needs=""):
    """A call that gives false, or fails otherwise."""
    return name, "if ($k.%s) throw new Error();" % call, needs


def thrown(name, call, error, needs=""):
    return name, "try { $k.%s; throw new IllegalStateException(); } catch (%s e) { }" % (call, error), needs


def interrupted(name, call):
    return name + " that is interrupted", "Stage.interrupt(); try { $k.%s; throw new Error(); } catch (InterruptedException e) { }" % call, ""


SEMAPHORE = {
    "post": forms(calls(["release()"], "one") + calls(["release($count)"])),
    "take": forms(calls(["acquire()", "acquireUninterruptibly()"], "one") + calls(["acquire($count)", "acquireUninterruptibly($count)"]) + [
        ("drainPermits", "if ($k.drainPermits() != $count) throw new Error();", "all", 4), refused("tryAcquire", "tryAcquire() == false", "one"),
        refused("tryAcquire of several", "tryAcquire($count) == false"), refused("tryAcquire with a time", "tryAcquire($count, 99, TimeUnit.SECONDS) == false")]),
    "fail": forms(looks(["availablePermits()"]) + [
        refused("tryAcquire that fails", "tryAcquire($count)"), refused("tryAcquire with a time that fails", "tryAcquire($count, 1, TimeUnit.MILLISECONDS)"),
        refused("drainPermits of none", "drainPermits() != 0", "none"), interrupted("acquire", "acquire($count)")])}
LATCH = {
    "down": forms(calls(["countDown()"])), "late": forms(calls(["countDown()"])), "look": forms(looks(["getCount()"])),
    "await": forms(calls(["await()"]) + [refused("await with a time", "await(99, TimeUnit.SECONDS) == false")]),
    "fail": forms([refused("await that fails", "await(1, TimeUnit.MILLISECONDS)"), interrupted("await", "await()")])}

#: Queues: what each class has by its traits. "equal" are those to which one object may go several times.
QUEUE = {
    "put": forms(calls(["add($token)", "offer($token)"]) + calls(["put($token)", "offer($token, 99, TimeUnit.SECONDS)"], "blocking")
                 + calls(["addLast($token)", "offerLast($token)"], "deque") + calls(["putLast($token)"], "deque blocking")),
    "get": forms(looks(["poll()", "remove()"]) + looks(["take()", "poll(99, TimeUnit.SECONDS)"], "blocking")
                 + looks(["pollFirst()", "removeFirst()", "pop()"], "deque") + looks(["takeFirst()"], "deque blocking")),
    "empty": forms(looks(["isEmpty()"]) + looks(["contains(5)"], "none") + looks(["containsAll(List.of())"], "-none")),
    "count": forms(looks(["size()", "toArray()", "iterator()", "stream()"]) + calls(["forEach(q -> Stage.use(q))"])
                   + looks(["remainingCapacity()"], "blocking") + looks(["descendingIterator()"], "deque")),
    "peek": forms(looks(["peek()"]) + looks(["element()"], "-none") + [thrown("element that fails", "element()", "NoSuchElementException", "none")]
                  + looks(["peekFirst()"], "deque") + looks(["getFirst()"], "deque -none")),
    "miss": forms([refused("poll that fails", "poll() != null"), refused("remove of a missing object", 'remove((Object) "none")'), thrown("remove that fails", "remove()", "NoSuchElementException"),
                   refused("poll with a time that fails", "poll(1, TimeUnit.MILLISECONDS) != null", "blocking"),
                   refused("pollLast that fails", "pollLast() != null", "deque"), thrown("pop that fails", "pop()", "NoSuchElementException", "deque")]),
    "drain": forms(looks(["drainTo(new %s)" % to for to in ("ArrayList<Object>()", "LinkedList<Object>(List.of(1))", "ArrayDeque<Object>()")], "blocking -some")
                   + looks(["drainTo(new ArrayList<Object>(List.of(1)), 99)"], "some") + calls(["removeIf(q -> true)"], "-blocking")),
    "clear": forms(calls(["clear()", "removeIf(q -> true)", "retainAll(List.of())"])),
    "put-first": forms(calls(["addFirst($token)", "offerFirst($token)", "push($token)"]) + calls(["putFirst($token)"], "blocking")),
    "get-last": forms(looks(["pollLast()", "removeLast()"]) + looks(["takeLast()"], "blocking")),
    "peek-last": forms(looks(["peekLast()", "getLast()"])),
    "pull": forms([refused("remove of an object", "remove((Object) $token) == false"),
                   refused("removeFirstOccurrence", "removeFirstOccurrence($token) == false")]),
    "pull-last": forms([refused("removeLastOccurrence", "removeLastOccurrence($token) == false")])}


def queue(name, traits, argument="", kind=None):
    shown = "a " + name + (" as a " + kind if kind else "")
    return Other(shown, "new %s<Object>(%s)" % (name, argument), "%s<Object>" % (kind or name), QUEUE, name + r"@\d+", traits)


def adder(name, new, adds, looks_at, resets):
    return Other(name, new, name.split()[-1], {"add": forms(calls(adds)), "sum": forms(looks(looks_at + SUMS)), "reset": forms(calls(resets))}, r".*@\d+")


SUMS = ["intValue()", "doubleValue()", "toString()", "longValue()", "floatValue()", "byteValue()", "shortValue()"]
ADDERS = [adder(name, new, ["add(2)", "increment()", "decrement()"], ["sum()"], ["sumThenReset()", "reset()"])
          for name, new in (("a LongAdder", "new LongAdder()"), ("a class that extends LongAdder", "new LongAdder() { }"))] + [
    adder("a DoubleAdder", "new DoubleAdder()", ["add(2)"], ["sum()"], ["sumThenReset()", "reset()"])] + [
    adder("a class that extends LongAdder, an Own.Sums", "new Own.Sums()", ["add(2)", "increment()", "decrement()"], ["sum()"], ["sumThenReset()", "reset()"])] + [
    adder("a " + name, "new %s((q, s) -> q + s, 0)" % name, ["accumulate(3)"], ["get()"], ["getThenReset()", "reset()"])
    for name in ("LongAccumulator", "DoubleAccumulator")]

#: Maps for several threads. Where it matters whether the map has the key, Stage sees to that before the call, without an event.
PUT, DROP = "Stage.with($at, $key); ", "Stage.without($at, $key); "


def giving(name, before, call, result, needs=""):
    """A call that has to give this result, behind a text that makes sure of what it finds."""
    return name, before + "if (!Objects.equals($k.%s, %s)) throw new Error();" % (call, result), needs, 3


MAP = {
    "store": forms(calls(["put($key, 1)", "compute($key, (q, s) -> new Object())", "merge($key, 1, (q, s) -> new Object())"]) + [
        giving("remove", PUT, "remove($key)", 0), giving("remove of a value", PUT, "remove($key, 0)", "true"),
        giving("replace", PUT, "replace($key, 5)", 0), giving("replace of a value", PUT, "replace($key, 0, 6)", "true"),
        giving("putIfAbsent", DROP, "putIfAbsent($key, 7)", "null"), giving("computeIfAbsent", DROP, "computeIfAbsent($key, q -> 8)", 8),
        giving("computeIfPresent", PUT, "computeIfPresent($key, (q, s) -> 9)", 9), giving("compute to null", PUT, "compute($key, (q, s) -> null)", "null"),
        giving("merge", PUT, "merge($key, 4, (q, s) -> s)", 4), giving("merge to null", PUT, "merge($key, 4, (q, s) -> null)", "null"),
        giving("merge of an absent key", DROP, "merge($key, 4, (q, s) -> null)", 4)]),
    "fetch": forms(looks(["get($key)", "containsKey($key)", "getOrDefault($key, 3)"]) + [
        giving("putIfAbsent of a present key", PUT, "putIfAbsent($key, 7)", 0),
        giving("computeIfAbsent of a present key", PUT, "computeIfAbsent($key, q -> 8)", 0),
        giving("computeIfAbsent to null", DROP, "computeIfAbsent($key, q -> null)", "null", "hashed"),
        giving("computeIfPresent of an absent key", DROP, "computeIfPresent($key, (q, s) -> 9)", "null"),
        giving("remove of an absent key", DROP, "remove($key)", "null"), giving("remove of another value", PUT, "remove($key, 77)", "false"),
        giving("replace of an absent key", DROP, "replace($key, 5)", "null"), giving("replace of another value", PUT, "replace($key, 5, 6)", "false"),
        giving("compute to the same value", PUT, "compute($key, (q, s) -> s)", 0, "hashed"),
        giving("compute of null to null", DROP, "compute($key, (q, s) -> null)", "null", "hashed")]),
    "view": forms(looks(["size()", "isEmpty()", "keySet()", "values()", "entrySet()", "containsValue(3)"]) + looks(["hashCode()", "equals(Map.of())"], "-typed")
                  + calls(["forEachKey(9, q -> Stage.use(q))", "forEachValue(9, q -> Stage.use(q))", "forEachEntry(9, q -> Stage.use(q))"], "hashed -typed")
                  + calls(["forEach((q, s) -> Stage.use(q))"])
                  + looks(["mappingCount()", "keys()", "elements()", "contains(4)", "search(9, (q, s) -> null)"], "hashed -typed")
                  + looks(["floorKey($key)", "higherEntry($key)", "headMap($key)", "descendingMap()", "navigableKeySet()", "firstEntry()"], "sorted")),
    "wipe": forms(calls(["clear()", "putAll(Map.of($key, 2))", "replaceAll((q, s) -> 4)"]) + [("pollFirstEntry", PUT + "$k.pollFirstEntry();", "sorted")])}
SET = {
    "store": forms([("add", DROP + "$k.add($key);"), ("remove", PUT + "$k.remove($key);")]),
    "fetch": forms(looks(["contains($key)"]) + [("remove of an absent key", DROP + "$k.remove($key);"), ("add of a present key", PUT + "$k.add($key);")]),
    "view": forms(looks(["size()", "isEmpty()", "iterator()", "toArray()", "containsAll(List.of())", "hashCode()", "equals(Set.of())"]) + calls(["forEach(q -> Stage.use(q))"])
                  + looks(["floor($key)", "higher($key)", "headSet($key)", "descendingSet()"], "sorted")),
    "wipe": forms(calls(["clear()", "removeIf(q -> true)", "addAll(List.of($key))", "retainAll(List.of())"]) + [("pollFirst", PUT + "$k.pollFirst();", "sorted")])}
HASH, SKIP = "ConcurrentHashMap", "ConcurrentSkipListMap"
MAPS = [Other("a %s as a %s" % (HASH, kind), "new %s<Object, Object>()" % HASH, "%s<Object, Object>" % kind, MAP, HASH + r"@\d+", traits)
        for kind, traits in ((HASH, "hashed"), ("ConcurrentMap", "hashed typed"), ("Map", "hashed typed"))] + [
    Other("a class that extends " + HASH, "new %s<Object, Object>() { }" % HASH, "Map<Object, Object>", MAP, r"P\d+\$\d+@\d+", "typed"),
    Other("a class that extends %s by its own type" % HASH, "new Own.Table()", "Own.Table", MAP, r"Own\$Table@\d+", "typed"),
    Other("a set made of a " + HASH, "Collections.newSetFromMap(new %s<Object, Boolean>())" % HASH, "Set<Object>", SET, HASH + r"@\d+", "hashed"),
    Other("a " + SKIP, "new %s<Object, Object>()" % SKIP, SKIP + "<Object, Object>", MAP, SKIP + r"@\d+", "sorted"),
    Other("a %s with a comparator" % SKIP, "new %s<Object, Object>(Comparator.comparing(Object::toString))" % SKIP, SKIP + "<Object, Object>", MAP,
          SKIP + r"@\d+", "sorted compared"),
    Other("newKeySet", HASH + ".<Object>newKeySet()", "Set<Object>", SET, HASH + r"@\d+", "hashed"),
    Other("newKeySet by its own type", HASH + ".<Object>newKeySet()", HASH + ".KeySetView<Object, Boolean>", SET, HASH + r"@\d+", "hashed"),
    Other("a ConcurrentSkipListSet", "new ConcurrentSkipListSet<Object>()", "ConcurrentSkipListSet<Object>", SET, r"ConcurrentSkipListSet@\d+", "sorted")]
#: The kinds of keys, of which Stage makes two; "same" have one name for all, and the last three can't be compared.
KEYS = ["text", "number", "long", "uuid", "enum", "time", "path", "record", "same", "object"]

FUTURES = [
    Other("a CompletableFuture", "new CompletableFuture<Object>()", "CompletableFuture<Object>", {
        "complete": forms(calls(["complete(1)", "complete(null)"]) + calls(["completeExceptionally(new Exception())", "cancel(true)"], "late")),
        "see": forms(looks(["get()", "join()", "get(99, TimeUnit.SECONDS)", "getNow(3)"]))}, r"CompletableFuture@\d+"),
    Other("a FutureTask", "new Stage.Task()", "Stage.Task", {
        "complete": forms(calls(["run()"], "-late") + calls(["complete(3)"]) + calls(["cancel(true)", "cancel(false)"], "late")),
        "see": forms(looks(["get()", "get(99, TimeUnit.SECONDS)"]))}, r"Stage\$Task@\d+")]

BARRIERS = [
    Other("a CyclicBarrier", "new CyclicBarrier($count)", "CyclicBarrier", {
        "arrive": forms(calls(["await()"]) + [("await with a time", "$k.await(99, TimeUnit.SECONDS);")])}, r"CyclicBarrier@\d+"),
] + [
    Other(name, new, "Phaser", {"arrive": forms(calls(["arriveAndAwaitAdvance()", "awaitAdvance($k.arrive())", "awaitAdvanceInterruptibly($k.arrive())",
                                                       "awaitAdvanceInterruptibly($k.arrive(), 99, TimeUnit.SECONDS)"])
                                                + [("arriveAndDeregister", "$k.awaitAdvance($k.arriveAndDeregister());", "last")])}, r"Phaser@\d+", "phases")
    for name, new in (("a Phaser", "new Phaser($count)"), ("a tree of phasers", "new Phaser(new Phaser(), $count)"))]
MESSAGES = [
    Other("a SynchronousQueue", "new SynchronousQueue<Object>()", "SynchronousQueue<Object>", {
        "send": forms(calls(["put($token)"]) + [refused("offer with a time", "offer($token, 99, TimeUnit.SECONDS) == false")]),
        "receive": forms(calls(["take()"]) + [refused("poll with a time", "poll(99, TimeUnit.SECONDS) == null")])}, r"SynchronousQueue@\d+"),
    Other("a LinkedTransferQueue", "new LinkedTransferQueue<Object>()", "LinkedTransferQueue<Object>", {
        "send": forms(calls(["transfer($token)"]) + [refused("tryTransfer", "tryTransfer($token, 99, TimeUnit.SECONDS) == false")]),
        "receive": forms(calls(["take()"]))}, r"LinkedTransferQueue@\d+")]
EXCHANGERS = [Other("an Exchanger", "new Exchanger<Object>()", "Exchanger<Object>", {
    "give": forms(calls(["exchange($token)", "exchange(null)", "exchange($token, 99, TimeUnit.SECONDS)"]))}, r"Exchanger@\d+")]
PARK = Other("a thread", "", "Thread", {
    "unpark": forms([("unpark", "LockSupport.unpark($k);")]),
    "park": forms([("park", "LockSupport.park();"), ("park for a reason", 'LockSupport.park("why");'), ("parkNanos", "LockSupport.parkNanos(99_000_000_000L);"),
                   ("parkUntil", 'LockSupport.parkUntil("why", System.currentTimeMillis() + 99000);')])}, r".*@\d+")

OTHERS = {
    "semaphore": [Other("a Semaphore", "new Semaphore($first)", "Semaphore", SEMAPHORE, r"Semaphore@\d+"),
                  Other("a fair Semaphore", "new Semaphore($first, true)", "Semaphore", SEMAPHORE, r"Semaphore@\d+"),
                  Other("a class that extends Semaphore", "new Own.Permits($first)", "Own.Permits", SEMAPHORE, r"Own\$Permits@\d+")],
    "latch": [Other("a CountDownLatch", "new CountDownLatch(2)", "CountDownLatch", LATCH, r"CountDownLatch@\d+"),
              Other("a class that extends CountDownLatch", "new Own.Gate(2)", "Own.Gate", LATCH, r"Own\$Gate@\d+")],
    "queue": [queue("LinkedBlockingQueue", "blocking equal"), queue("ArrayBlockingQueue", "blocking equal", "9"),
              queue("LinkedBlockingDeque", "blocking deque equal"), queue("ConcurrentLinkedQueue", "equal"),
              queue("ConcurrentLinkedDeque", "deque equal"), queue("LinkedTransferQueue", "blocking equal"),
              queue("PriorityBlockingQueue", "blocking sorted"), queue("LinkedBlockingQueue", "blocking equal", "", "BlockingQueue"),
              queue("ConcurrentLinkedQueue", "equal", "", "Queue"), queue("ArrayBlockingQueue", "equal", "9", "Queue"),
              Other("a class that extends LinkedBlockingQueue", "new Own.Mailbox()", "Own.Mailbox", QUEUE, r"Own\$Mailbox@\d+", "blocking equal"),
              Other("a checked queue", "Collections.checkedQueue(new LinkedBlockingQueue<Object>(), Object.class)", "Queue<Object>", QUEUE,
                    r"LinkedBlockingQueue@\d+", "equal")],
    "deque": [queue("LinkedBlockingDeque", "blocking deque equal"), queue("ConcurrentLinkedDeque", "deque equal"),
              queue("LinkedBlockingDeque", "blocking deque equal", "", "BlockingDeque"), queue("ConcurrentLinkedDeque", "deque equal", "", "Deque")],
    "barrier": BARRIERS, "message": MESSAGES, "adder": ADDERS, "map": MAPS, "future": FUTURES, "exchange": EXCHANGERS}


def make_thing(program, kind, number, name):
    """Returns a semaphore, a latch, a queue or the like, and adds its object to the program."""
    it = Thing(number, name)
    it.kind, it.log_name = program.random.choice(OTHERS[kind]), None
    it.traits = set(it.kind.traits.split())
    it.keys = program.random.choice(KEYS[:-3] if "sorted" in it.traits else KEYS + 2 * KEYS[-3:])
    at = 1100 + 50 * sorted(OTHERS).index(kind) + number
    new = string.Template(it.kind.new).safe_substitute(first=program.first_permits.get(name, 0))
    if "$count" not in new:
        program.start.append("Stage.put(%d, %s);" % (at, new))
    it.new, it.words = "Stage.put(%d, %s);" % (at, new), {"k": "((%s) Stage.at(%d))" % (it.kind.type, at), "at": at}
    it.pattern = re.compile(it.kind.pattern)
    return it


def make_parked(number):
    """Returns a thread as what may be parked."""
    it = Thing(number, "park%d" % number)
    it.kind, it.log_name, it.traits = PARK, None, set()
    it.words, it.pattern = {"k": "Stage.thread(%d)" % number}, re.compile(PARK.pattern)
    return it


def operate(program, step):
    """Returns the name and the text of an operation."""
    it, (traits, words) = program.others[step.target], program.situations.get(step.number, ((), {}))
    how, text = program.choose(it.kind.operations[step.operation], it.traits | set(traits), dict(it.words, **words))
    return "%s of %s" % (how, it.kind.name), text
