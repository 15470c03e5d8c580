"""Locks, conditions, semaphores, barriers, once and orders that are said of programs in C and C++."""
from collections import namedtuple

from program import Thing, fits, forms

#: A kind of lock: its declaration, what main does with it first, and its traits. $m is the lock, $n its number.
Kind = namedtuple("Kind", "name declared started traits needs weight")

TYPED = "{ pthread_mutexattr_t a; pthread_mutexattr_init(&a); pthread_mutexattr_settype(&a, PTHREAD_MUTEX_%s); pthread_mutex_init(&$m, &a); }"
ROBUST = ("{ pthread_mutexattr_t a; pthread_mutexattr_init(&a); pthread_mutexattr_setrobust(&a, PTHREAD_MUTEX_ROBUST); "
          "pthread_mutex_init(&$m, &a); }")
KINDS = [
    Kind("pthread_mutex_t", "pthread_mutex_t $m = PTHREAD_MUTEX_INITIALIZER;", "", "mutex", "plain", 1),
    Kind("pthread_mutex_t that checks", "static pthread_mutex_t $m;", TYPED % "ERRORCHECK", "mutex checks", "plain", 1),
    Kind("adaptive pthread_mutex_t", "static pthread_mutex_t $m;", TYPED % "ADAPTIVE_NP", "mutex", "plain", 1),
    Kind("pthread_mutex_t of the heap", "#define $m (*(pthread_mutex_t *)stage_at(1500 + $n))",
         "stage_put(1500 + $n, malloc(sizeof(pthread_mutex_t)), 1); pthread_mutex_init(&$m, 0);", "mutex", "plain", 1),
    Kind("robust pthread_mutex_t", "static pthread_mutex_t $m;", ROBUST, "robust", "robust", 1),
    Kind("recursive pthread_mutex_t", "static pthread_mutex_t $m;", TYPED % "RECURSIVE", "mutex checks", "twice", 1),
    Kind("pthread_spinlock_t", "static pthread_spinlock_t $m;", "pthread_spin_init(&$m, 0);", "spin", "plain", 1),
    Kind("pthread_rwlock_t", "pthread_rwlock_t $m = PTHREAD_RWLOCK_INITIALIZER;", "", "rwlock", "shared", 1),
    Kind("a lock that annotations tell of", "static int $m;", "", "told", "shared", 1),
    Kind("mtx_t", "static mtx_t $m;", "mtx_init(&$m, mtx_plain);", "mtx", "plain", 1),
    Kind("timed mtx_t", "static mtx_t $m;", "mtx_init(&$m, mtx_timed);", "mtx mtx-timed", "plain", 1),
    Kind("recursive mtx_t", "static mtx_t $m;", "mtx_init(&$m, mtx_plain | mtx_recursive);", "mtx", "twice", 1),
    Kind("std::mutex", "std::mutex $m;", "", "std std-mutex", "c++ plain", 4),
    Kind("std::timed_mutex", "std::timed_mutex $m;", "", "std timed", "c++ plain", 2),
    Kind("std::recursive_mutex", "std::recursive_mutex $m;", "", "std", "c++ twice", 2),
    Kind("std::recursive_timed_mutex", "std::recursive_timed_mutex $m;", "", "std timed", "c++ twice", 2),
    Kind("std::shared_timed_mutex", "std::shared_timed_mutex $m;", "", "std timed", "c++14 shared", 1),
    Kind("std::shared_mutex", "std::shared_mutex $m;", "", "std", "c++17 shared", 1),
]

REAL = "struct timespec t; clock_gettime(CLOCK_REALTIME, &t); t.tv_sec += 99; "
MONOTONIC = "struct timespec t; clock_gettime(CLOCK_MONOTONIC, &t); t.tv_sec += 99; "
PAST = "struct timespec t = {1, 0}; "

#: How a lock is taken. Those with the trait "scope" open a scope whose end releases it. $s is "_shared" for a reader, $r "rd" or
#: "wr", $flags 8 for a reader or 0, $kind the lock's class, $guard a name of its own.
TAKES = forms([
    ("pthread_mutex_lock", "pthread_mutex_lock(&$m);", "mutex", 2),
    ("pthread_mutex_lock, whose owner may have ended", "if (pthread_mutex_lock(&$m) == EOWNERDEAD) pthread_mutex_consistent(&$m);", "robust", 2),
    ("pthread_mutex_trylock, whose owner may have ended",
     "{ int r = pthread_mutex_trylock(&$m); if (r == EOWNERDEAD) r = pthread_mutex_consistent(&$m); if (r) abort(); }", "robust"),
    ("pthread_mutex_trylock", "if (pthread_mutex_trylock(&$m)) abort();", "mutex"),
    ("pthread_mutex_timedlock", "{ " + REAL + "if (pthread_mutex_timedlock(&$m, &t)) abort(); }", "mutex"),
    ("pthread_mutex_clocklock", "{ " + MONOTONIC + "if (pthread_mutex_clocklock(&$m, CLOCK_MONOTONIC, &t)) abort(); }", "mutex"),
    ("pthread_mutex_lock and a cleanup", "{ pthread_mutex_t *volatile $guard __attribute__((cleanup(aside_unlock))) = &$m; pthread_mutex_lock($guard);",
     "mutex scope c"),
    ("pthread_spin_lock", "pthread_spin_lock(&$m);", "spin"),
    ("pthread_spin_trylock", "if (pthread_spin_trylock(&$m)) abort();", "spin"),
    ("pthread_rwlock", "pthread_rwlock_${r}lock(&$m);", "rwlock"),
    ("pthread_rwlock_try", "if (pthread_rwlock_try${r}lock(&$m)) abort();", "rwlock"),
    ("pthread_rwlock_timed", "{ " + REAL + "if (pthread_rwlock_timed${r}lock(&$m, &t)) abort(); }", "rwlock"),
    ("pthread_rwlock_clock", "{ " + MONOTONIC + "if (pthread_rwlock_clock${r}lock(&$m, CLOCK_MONOTONIC, &t)) abort(); }", "rwlock"),
    ("__tsan_mutex_post_lock", "__tsan_mutex_pre_lock(&$m, $flags); __tsan_mutex_post_lock(&$m, $flags, 0);", "told"),
    ("AnnotateRWLockAcquired", "AnnotateRWLockAcquired(__FILE__, __LINE__, &$m, !$flags);", "told"),
    ("mtx_lock", "mtx_lock(&$m);", "mtx"),
    ("mtx_trylock", "if (mtx_trylock(&$m) != thrd_success) abort();", "mtx"),
    ("mtx_timedlock", "{ " + REAL + "if (mtx_timedlock(&$m, &t) != thrd_success) abort(); }", "mtx-timed"),
    ("lock", "$m.lock$s();", "std", 2),
    ("try_lock", "if (!$m.try_lock$s()) abort();", "std"),
    ("try_lock_for", "if (!$m.try_lock${s}_for(std::chrono::seconds(99))) abort();", "timed"),
    ("try_lock_until", "if (!$m.try_lock${s}_until(std::chrono::system_clock::now() + std::chrono::seconds(99))) abort();", "timed"),
    ("lock_guard", "{ std::lock_guard<$kind> $guard($m);", "std scope -reads", 2),
    ("unique_lock", "{ std::unique_lock<$kind> $guard($m);", "std scope -reads"),
    ("unique_lock, deferred", "{ std::unique_lock<$kind> $guard($m, std::defer_lock); $guard.lock();", "std scope -reads"),
    ("unique_lock, tried", "{ std::unique_lock<$kind> $guard($m, std::try_to_lock);", "std scope -reads"),
    ("scoped_lock", "{ std::scoped_lock $guard($m);", "std scope -reads c++17"),
    ("shared_lock", "{ std::shared_lock<$kind> $guard($m);", "std scope reads", 2),
])
RELEASES = forms([
    ("pthread_mutex_unlock", "pthread_mutex_unlock(&$m);", "mutex|robust"), ("pthread_spin_unlock", "pthread_spin_unlock(&$m);", "spin"),
    ("pthread_rwlock_unlock", "pthread_rwlock_unlock(&$m);", "rwlock"), ("mtx_unlock", "mtx_unlock(&$m);", "mtx"),
    ("unlock", "$m.unlock$s();", "std"),
    ("__tsan_mutex_pre_unlock", "__tsan_mutex_pre_unlock(&$m, $flags); __tsan_mutex_post_unlock(&$m, $flags);", "told"),
    ("AnnotateRWLockReleased", "AnnotateRWLockReleased(__FILE__, __LINE__, &$m, !$flags);", "told"),
])
#: Tries that fail, and unlocks that are refused, as another thread has the lock.
FAILURES = forms([
    ("pthread_mutex_trylock that fails", "if (!pthread_mutex_trylock(&$m)) abort();", "mutex|robust"),
    ("pthread_mutex_timedlock that fails", "{ " + PAST + "if (!pthread_mutex_timedlock(&$m, &t)) abort(); }", "mutex"),
    ("pthread_mutex_clocklock that fails", "{ " + PAST + "if (!pthread_mutex_clocklock(&$m, CLOCK_MONOTONIC, &t)) abort(); }", "mutex"),
    ("pthread_mutex_unlock that is refused", "if (!pthread_mutex_unlock(&$m)) abort();", "checks|robust"),
    ("__tsan_mutex_post_lock that fails", "__tsan_mutex_pre_lock(&$m, 1 << 4); __tsan_mutex_post_lock(&$m, 1 << 4 | 1 << 5, 0);", "told"),
    ("pthread_spin_trylock that fails", "if (!pthread_spin_trylock(&$m)) abort();", "spin"),
    ("pthread_rwlock_trywrlock that fails", "if (!pthread_rwlock_trywrlock(&$m)) abort();", "rwlock"),
    ("pthread_rwlock_timedwrlock that fails", "{ " + PAST + "if (!pthread_rwlock_timedwrlock(&$m, &t)) abort(); }", "rwlock"),
    ("pthread_rwlock_tryrdlock that fails", "if (!pthread_rwlock_tryrdlock(&$m)) abort();", "rwlock written"),
    ("mtx_trylock that fails", "if (mtx_trylock(&$m) == thrd_success) abort();", "mtx"),
    ("mtx_timedlock that fails", "{ " + PAST + "if (mtx_timedlock(&$m, &t) == thrd_success) abort(); }", "mtx-timed"),
    ("try_lock that fails", "if ($m.try_lock()) abort();", "std"),
    ("try_lock_for that fails", "if ($m.try_lock_for(std::chrono::milliseconds(1))) abort();", "timed"),
])
#: A release and an acquire at once, by a wait that runs out.
WAITS = forms([
    ("pthread_cond_timedwait", "{ static pthread_cond_t c = PTHREAD_COND_INITIALIZER; " + PAST + "pthread_cond_timedwait(&c, &$m, &t); }", "mutex"),
    ("pthread_cond_clockwait",
     "{ static pthread_cond_t c = PTHREAD_COND_INITIALIZER; " + PAST + "pthread_cond_clockwait(&c, &$m, CLOCK_MONOTONIC, &t); }", "mutex"),
    ("cnd_timedwait", "{ static cnd_t c; cnd_init(&c); " + PAST + "cnd_timedwait(&c, &$m, &t); }", "mtx"),
    ("wait_for", "{ static std::condition_variable c; std::unique_lock<std::mutex> u($m, std::adopt_lock); "
     "c.wait_for(u, std::chrono::milliseconds(1)); u.release(); }", "std-mutex"),
    ("wait_until", "{ static std::condition_variable c; std::unique_lock<std::mutex> u($m, std::adopt_lock); "
     "c.wait_until(u, std::chrono::system_clock::now()); u.release(); }", "std-mutex"),
])

#: How a thread waits for a lock that another one has.
WAITED = forms([("pthread_mutex_lock", "pthread_mutex_lock(&$m);", "mutex|robust"), ("pthread_spin_lock", "pthread_spin_lock(&$m);", "spin"),
                ("mtx_lock", "mtx_lock(&$m);", "mtx"), ("lock", "$m.lock();", "std")])

#: Conditions: what declares one, and the texts of who waits and of who wakes. $c is the condition, $flag a number of its own.
Condition = namedtuple("Condition", "name declared waits wakes needs weight")

LOOP = "while (!stage_flagged($flag)) %s;"
UNIQUE = "{ std::unique_lock<%s> u($m, std::adopt_lock); %s u.release(); }"
CONDITIONS = [
    Condition("pthread_cond_wait", "static pthread_cond_t $c = PTHREAD_COND_INITIALIZER;", LOOP % "pthread_cond_wait(&$c, &$m)",
              "pthread_cond_signal(&$c);", "mutex", 1),
    Condition("pthread_cond_wait and broadcast", "static pthread_cond_t $c = PTHREAD_COND_INITIALIZER;", LOOP % "pthread_cond_wait(&$c, &$m)",
              "pthread_cond_broadcast(&$c);", "mutex", 1),
    Condition("pthread_cond_timedwait that is woken", "static pthread_cond_t $c = PTHREAD_COND_INITIALIZER;",
              REAL + LOOP % "pthread_cond_timedwait(&$c, &$m, &t)", "pthread_cond_signal(&$c);", "mutex", 1),
    Condition("pthread_cond_clockwait that is woken", "static pthread_cond_t $c = PTHREAD_COND_INITIALIZER;",
              MONOTONIC + LOOP % "pthread_cond_clockwait(&$c, &$m, CLOCK_MONOTONIC, &t)", "pthread_cond_broadcast(&$c);", "mutex", 1),
    Condition("cnd_timedwait that is woken", "static cnd_t $c;", REAL + LOOP % "cnd_timedwait(&$c, &$m, &t)", "cnd_broadcast(&$c);", "mtx", 1),
    Condition("cnd_wait", "static cnd_t $c;", LOOP % "cnd_wait(&$c, &$m)", "cnd_signal(&$c);", "mtx", 1),
    Condition("condition_variable.wait", "static std::condition_variable $c;", UNIQUE % ("std::mutex", LOOP % "$c.wait(u)"),
              "$c.notify_one();", "std-mutex", 1),
    Condition("condition_variable.wait with a predicate", "static std::condition_variable $c;",
              UNIQUE % ("std::mutex", "$c.wait(u, aside_flag{$flag});"), "$c.notify_all();", "std-mutex", 1),
    Condition("condition_variable_any.wait", "static std::condition_variable_any $c;", LOOP % "$c.wait($m)", "$c.notify_all();", "std -splits-waits", 1),
]

#: Other things: what declares and starts them, and the texts of their operations. $k is the thing, $count a number of threads,
#: $first the permits that a semaphore has at first, $did nothing that has an event.
Other = namedtuple("Other", "name declared started operations needs weight")

OTHERS = {
    "semaphore": [
        Other("a semaphore", "static sem_t $k;", "sem_init(&$k, 0, $first);", {
            "post": forms([("sem_post", "sem_post(&$k);")]),
            "take": forms([("sem_wait", "while (sem_wait(&$k)) {}"), ("sem_trywait", "if (sem_trywait(&$k)) abort();"),
                           ("sem_timedwait", "{ " + REAL + "if (sem_timedwait(&$k, &t)) abort(); }"),
                           ("sem_clockwait", "{ " + MONOTONIC + "if (sem_clockwait(&$k, CLOCK_MONOTONIC, &t)) abort(); }")])}, "", 1)],
    "once": [
        Other("pthread_once", "static pthread_once_t $k = PTHREAD_ONCE_INIT;", "", {"once": forms([("pthread_once", "pthread_once(&$k, aside_nothing);")])},
              "", 1),
        Other("call_once of threads.h", "static once_flag $k = ONCE_FLAG_INIT;", "", {"once": forms([("call_once", "call_once(&$k, aside_nothing);")])},
              "c", 1),
        Other("std::call_once", "static std::once_flag $k;", "", {"once": forms([("std::call_once", "std::call_once($k, aside_nothing);")])}, "c++", 1)],
    "handed": [
        Other("pthread_mutex_t that threads hand on", "static pthread_mutex_t $k = PTHREAD_MUTEX_INITIALIZER;", "", {
            "lock": forms([("pthread_mutex_lock", "pthread_mutex_lock(&$k);"), ("pthread_mutex_trylock", "if (pthread_mutex_trylock(&$k)) abort();")]),
            "unlock": forms([("pthread_mutex_unlock", "pthread_mutex_unlock(&$k);")])}, "", 2),
        Other("mtx_t that threads hand on", "static mtx_t $k;", "mtx_init(&$k, mtx_plain);", {
            "lock": forms([("mtx_lock", "mtx_lock(&$k);")]), "unlock": forms([("mtx_unlock", "mtx_unlock(&$k);")])}, "", 1),
        Other("pthread_spinlock_t that threads hand on", "static pthread_spinlock_t $k;", "pthread_spin_init(&$k, 0);", {
            "lock": forms([("pthread_spin_lock", "pthread_spin_lock(&$k);")]), "unlock": forms([("pthread_spin_unlock", "pthread_spin_unlock(&$k);")])},
              "", 1)],
    "sync": [
        Other("an order that is said", "static long $k;", "", {
            "before": forms([("__tsan_release", "__tsan_release(&$k);"), ("AnnotateHappensBefore", "AnnotateHappensBefore(__FILE__, __LINE__, &$k);")]),
            "after": forms([("__tsan_acquire", "__tsan_acquire(&$k);"), ("AnnotateHappensAfter", "AnnotateHappensAfter(__FILE__, __LINE__, &$k);")])},
              "", 1)],
    "barrier": [
        Other("a barrier", "static pthread_barrier_t $k;", "", {"arrive": forms([("pthread_barrier_wait", "pthread_barrier_wait(&$k);")])}, "", 1)],
}


def make_lock(program, number, name):
    """Returns a lock, and adds its declaration to the program."""
    it, trace = Thing(number, name), program.trace
    use = "shared" if name in trace.shared else "twice" if name in trace.twice else "robust" if name in trace.robust else "plain"
    possible = [one for one in KINDS if fits(one.needs, program.traits | {use})]
    it.kind = program.random.choices(possible, [one.weight for one in possible])[0]
    it.traits = set(it.kind.traits.split())
    it.words = {"m": "m%d" % number, "n": number, "kind": it.kind.name}
    program.declare(it.kind.declared, it.words)
    program.begin_with(it.kind.started, it.words)
    program.begin_with("stage_thing(\"l\", $n, &$m);", it.words)
    return it


def make_other(program, kind, number, name):
    """Returns a thing of OTHERS, and adds its declaration to the program."""
    it = Thing(number, name)
    possible = [one for one in OTHERS[kind] if fits(one.needs, program.traits)]
    it.kind = program.random.choices(possible, [one.weight for one in possible])[0]
    it.words = {"k": "%s_%d" % (kind, number), "n": number, "first": program.first_permits.get(name, 0)}
    program.declare(it.kind.declared, it.words)
    program.begin_with(it.kind.started, it.words)
    program.begin_with("stage_thing(\"%s\", $n, &$k);" % kind, it.words)
    return it


def take(program, step, scopes):
    """Returns the name and the text of an acquire, and whether it opens a scope."""
    it, reads = program.locks[step.target], step.operation == "racq"
    traits = it.traits | ({"scope"} if program.releases_in_order(step, scopes) else set()) | ({"reads"} if reads else set())
    words = dict(it.words, s="_shared" if reads else "", r="rd" if reads else "wr", flags=8 if reads else 0, guard=program.new_name("guard"))
    how, text = program.choose(TAKES, traits, words)
    return "%s of a %s" % (how, it.kind.name), text, text.count("{") > text.count("}")


def release(program, step):
    it = program.locks[step.target]
    reads = step.operation == "rrel"
    how, text = program.choose(RELEASES, it.traits, dict(it.words, s="_shared" if reads else "", flags=8 if reads else 0))
    return "%s of a %s" % (how, it.kind.name), text


def wait(program, lock):
    """Returns a wait that runs out, or None if the lock has no conditions."""
    it = program.locks[lock]
    try:
        return program.choose(WAITS, it.traits, it.words)
    except LookupError:
        return None


def fail(program, step):
    """Returns a try that fails, or None if no other thread holds a lock."""
    names = program.held_by_others(step)
    if not names:
        return None
    name = program.random.choice(names)
    it = program.locks[name]
    written = {"written"} if program.owners[step.number][name][0].operation == "acq" else set()
    return program.choose(FAILURES, it.traits | written, it.words)


def condition(program, meeting):
    """Returns the name of a condition and the texts of who waits and of who wakes, or None if none is used."""
    it = program.locks[meeting.target]
    # (condition_variable_any gives the mutex back before it waits, so another thread may have the mutex before a block is split)
    traits = it.traits | ({"splits-waits"} if "waits" in program.splits else set())
    possible = [one for one in CONDITIONS if fits(one.needs, traits)]
    if not possible or program.chance(0.3):
        return None
    one = program.random.choice(possible)
    words = dict(it.words, c="condition%d" % meeting.steps[0].number, flag=meeting.steps[0].number)
    program.declare(one.declared, words)
    if "cnd_t" in one.declared:
        program.begin_with("cnd_init(&$c);", words)
    return one.name, one.waits, one.wakes, words
