"""Locks of programs in Go, the ways to start and to join goroutines, and channels, Once, Cond and WaitGroups for two."""
import string
from collections import namedtuple

from program import Thing, forms

#: Where a lock of type $type is: its declaration, what is done first, and the lock.
Kind = namedtuple("Kind", "name declared start m")
KINDS = [
    Kind("of a global", "var $g $type", "", "$g"), Kind("of an object", "", "put($at, unsafe.Pointer(new($type)))", "(*$type)(at($at))"),
    Kind("embedded", "type ${g}_t struct { n int; $type }", "put($at, unsafe.Pointer(new(${g}_t)))", "(*${g}_t)(at($at))"),
]
TAKES = forms([("Lock", "$m.Lock()", "-reads", 2), ("TryLock", "if !$m.TryLock() { panic(1) }", "-reads"),
               ("Lock of a Locker", "sync.Locker($locker).Lock()", "-reads"), ("RLock", "$m.RLock()", "reads", 2),
               ("TryRLock", "if !$m.TryRLock() { panic(1) }", "reads"), ("Lock of RLocker", "$m.RLocker().Lock()", "reads")])
RELEASES = forms([("Unlock", "$m.Unlock()", "-reads", 2), ("Unlock of a Locker", "sync.Locker($locker).Unlock()", "-reads"),
                  ("a deferred Unlock", "asideUnlock($locker)", "-reads"), ("RUnlock", "$m.RUnlock()", "reads")])
FAILURES = forms([("TryLock that fails", "if $m.TryLock() { panic(1) }"), ("TryRLock that fails", "if $m.TryRLock() { panic(1) }", "written")])
NOTHING = forms([("Gosched", "runtime.Gosched()"), ("panic and recover", "func() { defer asideCaught(); panic(left{}) }()"), ("new memory", "use(make([]int, some()))"),
                 ("defer", "func() { defer use(3) }()")])

#: How the end of a goroutine is waited for: a declaration, what is done first, the end, and the join.
JOINS = {"a WaitGroup": ("var $j sync.WaitGroup", "$j.Add(1)", "$j.Done()", "$j.Wait()"),
         "a channel that is closed": ("var $j chan int", "$j = make(chan int)", "close($j)", "<-$j"),
         "a message": ("var $j chan int", "$j = make(chan int, 1)", "$j <- 1", "<-$j"),
         "a message in a select": ("var $j chan int", "$j = make(chan int, 1)", "$j <- 1", "select { case <-$j: }"),
         "a meeting": ("var $j chan int", "$j = make(chan int)", "$j <- 1", "<-$j"),
         "a meeting in a select of two": ("var $j chan int", "$j = make(chan int)", "$j <- 1", "select { case <-$j: case <-none[int](): }"),
         "an empty token": ("var $j chan struct{}", "$j = make(chan struct{}, 2)", "$j <- struct{}{}", "<-$j")}

#: Other things: the type, what is done first, the texts of the operations, and words for all these. $k is the thing. Who waits for another
#: goroutine has the trait waits, and what ends a block the trait last.
Other = namedtuple("Other", "name type start operations words")
SENDS = forms([("send", "$k <- $v"), ("send in a select", "select { case $k <- $v: default: panic(1) }", "-waits -last"),
               ("send in a select of two", "select { case $k <- $v: case <-none[$e](): }", "-last")])
RECEIVES = forms([("receive", "<-$k"), ("receive with ok", "if _, ok := <-$k; !ok { panic(1) }"), ("receive by range", "for range $k { break }"),
                  ("receive in a select", "select { case <-$k: default: panic(1) }", "-waits"),
                  ("receive in a select of two", "select { case <-$k: case <-none[$e](): panic(1) }")])
PASSES = forms([("receive", "<-$k"), ("receive with ok", "if _, ok := <-$k; ok { panic(1) }"), ("receive by range", "for range $k { panic(1) }"),
                ("receive in a select", "select { case <-$k: default: panic(1) }", "-waits"),
                ("receive in a select of two", "select { case <-$k: case <-none[$e](): panic(1) }")])
MESSAGES = {"put": SENDS, "get": RECEIVES, "close": forms([("close", "close($k)")]), "pass": PASSES}
NUMBERS, NOTHINGS = {"e": "int64", "v": "3"}, {"e": "struct{}", "v": "struct{}{}"}
DOWNS = [("Done", "$k.Done()"), ("Add of -1", "$k.Add(-1)"), ("a deferred Done", "asideDone(&$k)")]
HANDED = {"lock": forms([("Lock", "$k.Lock()"), ("TryLock", "if !$k.TryLock() { panic(1) }", "-waits")]),
          "unlock": forms([("Unlock", "$k.Unlock()"), ("Unlock of a Locker", "sync.Locker(&$k).Unlock()")])}
READS = {"lock": forms([("RLock", "$k.RLock()"), ("TryRLock", "if !$k.TryRLock() { panic(1) }")]),
         "unlock": forms([("RUnlock", "$k.RUnlock()"), ("Unlock of RLocker", "$k.RLocker().Unlock()")])}
OTHERS = {
    "once": [Other("a Once", "sync.Once", "", {"once": forms([("Do", "$k.Do(func() { use(1) })")])}, {})],
    "latch": [Other("a WaitGroup for two", "sync.WaitGroup", "$k.Add(2)", {"down": forms(DOWNS), "await": forms([("Wait", "$k.Wait()")])}, {})],
    "rounds": [Other("a WaitGroup in rounds", "sync.WaitGroup", "", {
        "up1": forms([("Add of 1", "$k.Add(1)")]), "up2": forms([("Add of 2", "$k.Add(2)"), ("twice Add", "$k.Add(1); $k.Add(1)")]),
        "down1": forms(DOWNS), "down2": forms([("Add of -2", "$k.Add(-2)")]), "await": forms([("Wait", "$k.Wait()")])}, {})],
    "queue": [Other("a channel with a buffer", "chan int64", "$k = make(chan int64, 4)", MESSAGES, NUMBERS)],
    "channel": [Other("a channel of numbers", "chan $e", "$k = make(chan $e, $slots)", MESSAGES, NUMBERS),
                Other("a channel of nothing", "chan $e", "$k = make(chan $e, $slots)", MESSAGES, NOTHINGS)],
    "message": [Other("a channel without a buffer", "chan int64", "$k = make(chan int64)", {
        "send": [one for one in SENDS if "-waits" not in one.needs], "receive": [one for one in RECEIVES if "-waits" not in one.needs]}, NUMBERS)],
    "handed": [Other("a Mutex that is handed on", "sync.Mutex", "", HANDED, {}), Other("a RWMutex that is handed on", "sync.RWMutex", "", HANDED, {}),
               Other("a RWMutex that a reader hands on", "sync.RWMutex", "", READS, {})],
    "timer": [Other("a timer", "*time.Timer", "$k = time.NewTimer(time.Hour); $k.Stop()", {
        "set": forms([("Reset", "$k.Reset(0); fired($k)"), ("Stop and Reset", "$k.Stop(); $k.Reset(0); fired($k)")]),
        "after": forms([("After", "<-time.After(0)"), ("After in a select", "select { case <-time.After(0): case <-none[int](): panic(1) }"),
                        ("NewTimer", "<-time.NewTimer(1).C")]),
        "tick": forms([("receive", "<-$k.C"), ("receive in a select", "select { case <-$k.C: default: panic(1) }"),
                       ("receive in a select of two", "select { case <-$k.C: case <-none[int](): }")])}, {})],
}


def make_lock(program, number, name):
    """Returns a lock, and adds its declaration to the program."""
    it = Thing(number, name)
    it.kind, it.shared = program.random.choice(KINDS), name in program.trace.shared
    it.type = "sync.RWMutex" if it.shared else "sync.Mutex"
    words = {"g": "%s_m%d" % (program.prefix, number), "type": it.type, "at": 500 + number}
    add(program, it.kind.declared, it.kind.start, words)
    m = string.Template(it.kind.m).substitute(words)
    it.words = {"m": m, "locker": "&" + m if it.kind.name == "of a global" else m}
    return it


def add(program, declared, start, words):
    if declared:
        program.globals.append(string.Template(declared).substitute(words))
    if start:
        program.start.append(string.Template(start).substitute(words))


def make_other(program, kind, number, name):
    """Returns a channel, a WaitGroup or the like, and adds its declaration to the program."""
    it = Thing(number, name)
    slots = program.trace.slots.get(name, 0)
    # (whether a goroutine takes back its own message changes at a quiet moment)
    it.kind = program.random.choice([one for one in OTHERS[kind] if one.words is not NOTHINGS or slots < 2 or not program.has_quiet_moments])
    it.words = dict(it.kind.words, k="%s_%s" % (program.prefix, name), slots=slots)
    add(program, "var $k " + it.kind.type, it.kind.start, it.words)
    return it


def take_or_release(program, step, table):
    it = program.locks[step.target]
    how, text = program.choose(table, {"reads"} if step.operation in ("racq", "rrel") else set(), it.words)
    return "%s of a %s %s" % (how, it.type, it.kind.name), text


def fail(program, step):
    """Returns a try that fails, or None if no other goroutine holds a lock."""
    names = [name for name in program.held_by_others(step)]
    if not names:
        return None
    name = program.random.choice(names)
    written = program.locks[name].shared and program.owners[step.number][name][0].operation == "acq"
    return program.choose(FAILURES, {"written"} if written else set(), program.locks[name].words)


def fork(program, step):
    kind, by_timer = program.joins[step.target], step.target in program.by_timer
    declared, start, end, _ = JOINS[kind]
    words = {"j": "%s_join%d" % (program.prefix, step.target)}
    add(program, declared, start, words)
    # (a function that is deferred runs behind runtime.Goexit too)
    ends = "%s_defers%d()" % (program.prefix, step.target)
    program.functions.append("func %s {\nended(%d)\n%s\n}" % (ends, step.target, string.Template(end).substitute(words)))
    body = "defer %s\n%s_body%d()" % (ends, program.prefix, step.target)
    if by_timer:
        return "AfterFunc, joined by " + kind, "time.AfterFunc(0, func() {\nflag(%d)\n%s\n}); follow(%d)" % (step.number, body, step.number)
    return "go, joined by " + kind, "go func() {\n%s\n}()" % body


def join(program, step):
    kind = program.joins[step.target]
    return "join by " + kind, string.Template(JOINS[kind][3]).substitute(j="%s_join%d" % (program.prefix, step.target))
