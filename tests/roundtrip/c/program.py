"""From a trace, a program in C or C++ that executes it."""
import string

from c import accesses, blocks, locks, sizes, threads, variables
from program import Body, Program
from traces import event_of, line_of

HEADERS = ["dlfcn.h", "errno.h", "pthread.h", "semaphore.h", "setjmp.h", "stdlib.h", "string.h", "strings.h", "threads.h", "time.h", "sched.h", "stdarg.h",
           "sys/mman.h", "sys/syscall.h", "unistd.h", "emmintrin.h"]
HEADERS_OF_CXX = ["algorithm", "array", "atomic", "bitset", "chrono", "complex", "condition_variable", "deque", "functional", "future", "list", "map",
                  "memory", "mutex", "new", "numeric", "string", "thread", "tuple", "unordered_map", "vector"]
TYPES = """#include "scheduler.h"
enum choice { NONE, ONE };
typedef int vector16 __attribute__((vector_size(16)));
typedef int vector32 __attribute__((vector_size(32)));
struct bits { unsigned a : 7, b : 9; unsigned : 0; unsigned c : 5; };
""" + sizes.TYPES + """
static __thread void *near;
static jmp_buf jumps[4096];
static struct bytes33 some_bytes33;
static struct bytes3 some_bytes3;
static __attribute__((unused)) void aside_nothing(void) {}
static __attribute__((noinline, unused)) void aside_leaf(int a) { stage_use(a); }
static __attribute__((unused)) void aside_unlock(pthread_mutex_t *volatile *at) { pthread_mutex_unlock(*at); }
"""
#: What the logger has of sanitizer/tsan_interface.h and of the macros of ANNOTATE_.
ANNOTATIONS = """#ifdef __cplusplus
extern "C" {
#endif
void __tsan_acquire(void *);
void __tsan_release(void *);
void __tsan_mutex_pre_lock(void *, unsigned);
void __tsan_mutex_post_lock(void *, unsigned, int);
int __tsan_mutex_pre_unlock(void *, unsigned);
void __tsan_mutex_post_unlock(void *, unsigned);
void AnnotateRWLockAcquired(const char *, int, const volatile void *, long);
void AnnotateRWLockReleased(const char *, int, const volatile void *, long);
void AnnotateHappensBefore(const char *, int, const volatile void *);
void AnnotateHappensAfter(const char *, int, const volatile void *);
void AnnotateNewMemory(const char *, int, const volatile void *, long);
void AnnotateIgnoreReadsBegin(const char *, int);
void AnnotateIgnoreReadsEnd(const char *, int);
void AnnotateBenignRaceSized(const char *, int, const volatile void *, long, const char *);
#ifdef __cplusplus
}
#endif
"""
LOADS = 'void *loaded = dlopen(getenv("STAGE_LIBRARY"), RTLD_NOW); if (!loaded) abort();'
#: Functions on a structure. (Functions whose names begin with aside_ are no blocks.)
HELPERS = """static __attribute__((noinline, unused)) $s aside_make_$kind(void) { $s it; stage_see(&it); return it; }
static __attribute__((noinline, unused)) void aside_take_$kind($s it) { stage_see(&it); }
static __attribute__((noinline, unused)) $s aside_give_$kind($s *at) { return *at; }
static __attribute__((noinline, unused)) $s *aside_point_$kind(void) { return ($s *)stage_source(); }"""


class CProgram(Program):
    """A program in C or C++. `traits` has the language, the compiler, the standards up to its own, and "library" or "dlopen" if it has
    one. `splits` are the words of AERODROME_SPLIT, and `grain` is AERODROME_GRAIN, or 0.
    """

    language = "c"

    def __init__(self, trace, random, traits, limits=False, objects=0, splits=(), grain=0):
        super().__init__(trace, random, traits, limits)
        self.objects, self.splits, self.grain, self.rooms, self.open_at = objects, splits, grain, 1 << 20, {}
        self.touches, self.frames, self.frames_met = {}, {}, {}
        self.types, self.globals, self.prototypes, self.bodies, self.start, self.library, self.of_library = [], [], [], [], [], [], []
        self.labels, self.common_bodies = {}, {}
        self.first_permits = trace.first_permits
        if self.left_out("first unwinding"):
            self.start.append("stage_unwind();")
        self.variables = {name: self.make_variable(at, name) for at, name in enumerate(trace.variables)}
        self.locks = {name: locks.make_lock(self, at, name) for at, name in enumerate(trace.locks)}
        self.others = {name: locks.make_other(self, kind, at, name)
                       for kind, names in trace.things.items() if kind in locks.OTHERS for at, name in enumerate(names)}
        self.bytes = {name: sizes.make(self, at, name, grain) for at, name in enumerate(trace.things.get("bytes", ()))}
        self.starts = {step.target: threads.choose_start(self, step.target) for step in trace.steps if step.operation == "fork"}
        self.common = blocks.choose_common(self)
        self.plan_ends(threads.ENDS_IN_CXX if "c++" in self.traits else threads.ENDS)
        self.events = events_of(trace, self)
        everyone = {1} | {step.thread for step in trace.steps} | set(self.starts)
        self.tops = {thread: CBody(self, thread).lines for thread in sorted(everyone)}

    def hands_on(self):
        """Returns whether a thread unlocks a mutex that another one has locked."""
        return any((name or "").endswith(".handed") for events in self.events.values() for _, name in events if isinstance(name, str))

    def fill(self, text, words):
        return string.Template(text).substitute(words)

    def split_wait(self, rel, acq):
        """Has a wait on a condition variable end the open blocks and begin them again, if AERODROME_SPLIT says so."""
        if "waits" in self.splits:
            self.events[rel.number] = self.events[rel.number] + [("end", None) for _ in self.open_at[rel.number]]
            self.events[acq.number] = [("begin", begin) for begin in self.open_at[rel.number]] + self.events[acq.number]

    def declare(self, text, words):
        self.globals.append(string.Template(text).substitute(words))

    def begin_with(self, text, words):
        if text:
            self.start.append(string.Template(text).substitute(words))

    def make_variable(self, number, name):
        it = variables.Variable(number, name, self.trace.steps)
        variables.choose_type(self, it, [one for one in accesses.OBJECTS if not self.left_out("type " + one.type)] if self.objects else [])
        self.types.append(variables.typedef_of(self, it))
        variables.choose_place(self, it)
        fill = lambda text: string.Template(text).substitute(it.words)
        self.globals.append(fill(it.place.declared))
        it.direct, it.born = fill(it.place.direct), fill(it.place.born)
        if it.place.name in (variables.OF_LIBRARY, variables.OF_LOADED):
            self.of_library.append(('extern "C" { %s %s; }' if "c++" in self.traits else "%s %s;") % (it.typedef, it.words["g"]))
        if it.place.name == "a packed field":
            self.types.append("struct __attribute__((packed)) P%d { %s f; };" % (number, it.typedef))
        if it.place.name == variables.OF_BOTH:
            self.of_library.append("static __attribute__((used)) %s %s;" % (it.typedef, it.words["g"]))
        if not it.is_late():
            self.start.append(it.born)
        return it

    def lines(self):
        """Yields the lines of the trace with the step of each."""
        for step in self.trace.steps:
            for operation, name in self.events[step.number]:
                yield step, line_of(step.thread, operation, name)

    def text(self):
        """Returns the text of the program, and that of its library or None."""
        is_cxx = "c++" in self.traits
        headers = HEADERS + (HEADERS_OF_CXX + (["shared_mutex"] if "c++14" in self.traits else []) if is_cxx else ["stdatomic.h"])
        top = (["#define BOOL bool"] if is_cxx else ["#define _GNU_SOURCE", "#define BOOL _Bool"]) + ["#include <%s>" % one for one in headers]
        helpers = []
        for name in sorted({it.type.name for it in self.variables.values() if it.family == "structure"}):
            helpers.append(string.Template(HELPERS).substitute(s=name, kind=name.split()[1]))
        if is_cxx:
            helpers.append("static __attribute__((noinline, unused)) void aside_throws(int a) { if (a) throw 3; }")
            helpers.append("struct aside_flag { int number; bool operator()() const { return stage_flagged(number) != 0; } };")
        common = blocks.define_common(self)
        functions = [threads.function_of(self.starts[thread], thread, "\n    ".join(lines)) for thread, lines in self.tops.items() if thread != 1]
        has_library = bool(self.of_library or self.library)
        first = ([LOADS] if has_library and "dlopen" in self.traits else []) + self.start + self.tops[1]
        main = "int main() {\n    %s\n    stage_finish(%d);\n    return 0;\n}" % ("\n    ".join(first), len(self.trace.steps))
        text = top + [TYPES, ANNOTATIONS] + self.types + self.globals + helpers + self.prototypes + self.bodies + common + functions + [main]
        library = top + [TYPES] + self.types + helpers + self.of_library + self.library if has_library else None
        return "\n".join(text) + "\n", library and "\n".join(library) + "\n"


def events_of(trace, program):
    """Returns for each step the operations and names of its events, as the page of the logger has them."""
    states = {"semaphore": {name: Semaphore(name, first) for name, first in program.first_permits.items()},
              "handed": {name: Handed(name) for name in trace.things.get("handed", ())}}
    result, done, open_blocks = {}, set(), {}
    for step in trace.steps:
        mine = open_blocks.setdefault(step.thread, [])
        program.open_at[step.number] = list(mine)
        if step.operation in ("begin", "end", "fork", "join"):
            result[step.number] = events_of_blocks(program, step, mine)
        elif step.operation == "touch":
            program.touches[step.number] = sizes.touch(program, program.bytes[step.target])
            result[step.number] = program.touches[step.number].events
        elif step.meeting and step.meeting.kind == "frame":
            if step.operation == "open":
                how, parts, events = sizes.frame(program, step.meeting)
                program.frames_met[id(step.meeting)] = how, parts
                result.update(events)
        elif step.operation == "once":
            result[step.number] = [("r" if step.target in done else "w", "once." + step.target)]
            done.add(step.target)
        else:
            result[step.number] = events_of_thing(trace, states, step)
    return result


def events_of_blocks(program, step, open_blocks):
    """Returns the events of a begin, end, fork or join of a thread that has these blocks open in the log, by their begins."""
    event = event_of(step, ())
    if step.operation == "begin":
        open_blocks.append(step.number)
        return [event]
    if step.operation == "end":
        if step.partner.number not in open_blocks:
            return []
        open_blocks.remove(step.partner.number)
        return [event]
    ends = [("end", None) for _ in open_blocks] if "threads" in program.splits else []
    if ends:
        open_blocks.clear()
    return ends + [event]


def events_of_thing(trace, states, step):
    if step.operation == "post":
        return [("w", states["semaphore"][step.target].post(step.thread))]
    if step.operation == "take":
        return [("r", name) for name in states["semaphore"][step.target].take(step.thread)]
    if step.operation in ("lock", "unlock"):
        return [states["handed"][step.target].change(step)]
    if step.operation in ("before", "after"):
        return [("w" if step.operation == "before" else "r", "sync." + step.target)]
    if step.operation in ("arrive", "leave"):
        return [("w" if step.operation == "arrive" else "r", "bar." + step.target)]
    return [] if step.operation == "nop" else [event_of(step, trace.shared)]


class Handed:
    """A mutex that any thread may unlock. Once another one than its owner has, it isn't a lock in the log any more."""

    def __init__(self, name):
        self.name, self.owner, self.is_handed = name, None, False

    def change(self, step):
        self.is_handed |= step.operation == "unlock" and self.owner != step.thread
        self.owner = step.thread if step.operation == "lock" else None
        if self.is_handed:
            return "w", self.name + ".handed"
        return "acq" if step.operation == "lock" else "rel", self.name


class Semaphore:
    """The posts that a wait reads, by the table of docs/logging-events.md. `spare` are the first permits until it has none."""

    def __init__(self, name, permits):
        self.name, self.permits, self.count = name, permits, 0
        self.forget()
        self.spare = permits

    def forget(self):
        self.posts, self.posters, self.waiters, self.waits, self.spare = [], set(), set(), 0, 0

    def post(self, thread):
        self.count, self.permits = self.count + 1, self.permits + 1
        self.posts.append("sem.%s.%d" % (self.name, self.count))
        self.posters.add(thread)
        return self.posts[-1]

    def take(self, thread):
        self.permits, self.waits = self.permits - 1, self.waits + 1
        self.waiters.add(thread)
        is_last, alone, needs = not self.permits, self.waiters == {thread}, self.waits - self.spare
        if not self.posts or needs <= 0:
            read = []
        elif alone and len(self.posters) == 1:
            read = self.posts[needs - 1:needs]
        elif alone:
            read = list(self.posts) if is_last else []
        else:
            read = self.posts[-1:] if is_last and not self.spare else []
        if is_last:
            self.forget()
        return read


class CBody(Body):
    """The text of a thread's function. `scopes` has the releases that the open scopes of the innermost open block end with."""

    blocks, locks, threads = blocks, locks, threads

    def __init__(self, program, thread):
        self.scopes, self.outer_scopes, self.in_library = [], [], False
        super().__init__(program, thread)

    def done(self, number):
        return "stage_done(%d);" % number

    def at_turn(self, first, text, last):
        return "stage_turn(%d); %s stage_done(%d);" % (first, text, last)

    def add_acquire(self, step):
        how, text, is_scope = locks.take(self.program, step, self.scopes)
        if is_scope:
            self.scopes.append(step.partner.number)
        return self.add_steps([step], how, text)

    def add_release(self, step, near):
        if step.at_exit:
            # The end of the thread makes it, as those of its blocks before it.
            next(group for group in self.program.groups if group.steps[-1].number == step.number - 1).steps.append(step)
            return 1
        if self.scopes and self.scopes[-1] == step.number:
            self.scopes.pop()
            return self.add_steps([step], "the end of a scope", "}")
        once = len(self.program.owners[step.number][step.target]) == 1 and step.target not in self.program.trace.shared
        waits = near and near.operation == "acq" and near.target == step.target and once
        done = locks.wait(self.program, step.target) if waits else None
        if done:
            self.program.split_wait(step, near)
            return self.add_steps([step, near], *done)
        return self.add_steps([step], *locks.release(self.program, step))

    def add_begin(self, step):
        added = super().add_begin(step)
        self.outer_scopes.append(self.scopes)
        self.scopes = []
        self.in_library = self.stack[-1][1].name in (blocks.OF_LIBRARY, blocks.OF_LOADED)
        return added

    def add_end(self, step):
        mode, numbers = self.program.leaving[step.number]
        first, last = step.number == numbers[0], step.number == numbers[-1]
        begin, kind, before = self.stack.pop()
        if first and mode == "exit":
            self.lines.append("stage_turn(%d); stage_done(%d); %s" % (numbers[0], self.steps[-1].number, threads.leave(self.program, step.thread)))
        elif first:
            leave = {"throw": "throw 7;", "longjmp": "longjmp(jumps[%d], 1);" % numbers[-1]}.get(mode, "")
            self.lines.append("stage_turn(%d); %s" % (step.number, leave))
        call = blocks.define(self.program, begin, kind, self.lines)
        self.lines, self.scopes, self.in_library = before, self.outer_scopes.pop(), False
        self.lines.append("stage_turn(%d);" % begin.number)
        # (clang makes a loop of a function that calls itself at its very end)
        is_own = kind in blocks.COMMON and self.stack and self.stack[-1][0].target == begin.target and "clang" in self.program.traits
        if mode == "tail" and not last and call.startswith("(") and not is_own:
            self.lines.append("return %s;" % call)
        elif last and mode in ("throw", "longjmp"):
            self.lines.append("try { %s; } catch (int) {}" % call if mode == "throw" else "if (!setjmp(jumps[%d])) { %s; }" % (numbers[-1], call))
        else:
            self.lines.append(call + ";")
        if last and mode != "exit":
            self.lines.append(self.done(step.number))
        return 1

    def other(self, step):
        if step.operation != "touch":
            return super().other(step)
        done = self.program.touches[step.number]
        return self.around(done.how, done.text)

    def around(self, how, text):
        """Puts an access into a function of its own, now and then."""
        program = self.program
        if self.in_library or not program.chance(0.15):
            return how, text
        name = program.new_name("aside_access")
        program.prototypes.append("static void %s(void);" % name)
        program.bodies.append("static __attribute__((noinline)) void %s(void) { %s }" % (name, text))
        way, text = program.choose(accesses.AROUND, (), {"f": name})
        return how + " in " + way, text

    def access(self, step, near):
        """Returns the steps of an access, with its name and text. A read and the write behind it may be one."""
        program, it = self.program, self.program.variables[step.target]
        if near and step.operation == "r" and near.operation == "w" and program.chance(0.7):
            other = program.variables[near.target]
            born_between = other is not it and ((other.is_late() and other.first is near) or (it.is_late() and it.last is step))
            done = None
            if not born_between:
                done = accesses.change(program, it, self.in_library) if other is it else accesses.copy(program, other, it, self.in_library)
            if done:
                return ([step, near],) + done
        return ([step],) + (accesses.read if step.operation == "r" else accesses.write)(program, it, self.in_library)

    def add_access(self, step, near):
        program, it = self.program, self.program.variables[step.target]
        steps, how, text = self.access(step, near)
        if it.is_late() and it.first is step:
            text = it.born + " " + text
        how, text = self.around(how, text)
        for one in steps:
            gone = program.variables[one.target]
            if gone.is_late() and gone.last is one:
                text += " { void *p = stage_at(%d); stage_remove(%d); %s(p); }" % (gone.number, gone.number, gone.free)
        return self.add_steps(steps, "%s, x being %s in %s" % (how, it.type.name, it.place.name), text)

    def meet(self, meeting):
        return meeting_of(self.program, meeting)


def meeting_of(program, meeting):
    """Returns the name of a meeting and the text of each of its threads.

    Only the first and the last step of a thread have their turns: what is in between waits by itself.
    """
    if meeting.kind == "condition":
        return condition_of(program, meeting)
    if meeting.kind == "frame":
        return program.frames_met[id(meeting)]
    it = program.others[meeting.target]
    words = dict(it.words, count=len(meeting.steps) // 2)
    how, text = program.choose(it.kind.operations["arrive"], (), words)
    parts = {}
    for thread in {step.thread for step in meeting.steps}:
        arrive, leave = [step.number for step in meeting.steps if step.thread == thread]
        # The first one makes the barrier anew for this meeting. Each other one comes once those before it are in the barrier.
        place = [step.number for step in meeting.steps].index(arrive)
        ready = ("stage_arrived(&%s, %d); " if place else "pthread_barrier_init(&%s, 0, %d); ") % (it.words["k"], place or words["count"])
        parts[thread] = "stage_turn(%d); %sstage_done(%d); %s stage_turn(%d); stage_done(%d);" % (arrive, ready, arrive, text, leave, leave)
    return how, parts


def condition_of(program, meeting):
    (rel, acq, again, back), waiter = meeting.steps, meeting.steps[0].thread
    found, it = locks.condition(program, meeting), program.locks[meeting.target]
    unlock, lock = locks.release(program, rel)[1], program.choose(locks.WAITED, it.traits, it.words)[1]
    if not found:
        # The waker waits for the lock, which the waiter gives back some time after.
        parts = {waiter: "stage_turn(%d); stage_done(%d); stage_wait(%d); %s stage_turn(%d); %s stage_done(%d);" % (
            rel.number, rel.number, rel.number, unlock, back.number, locks.take(program, back, [])[1], back.number),
            acq.thread: "stage_turn(%d); stage_flag(%d); %s %s stage_done(%d);" % (acq.number, rel.number, lock, unlock, again.number)}
        return "a lock that another thread waits for", parts
    name, waits, wakes, words = found
    program.split_wait(rel, back)
    fill = lambda text: string.Template(text).substitute(words)
    parts = {waiter: "stage_turn(%d); stage_done(%d); { %s } stage_turn(%d); stage_done(%d);" % (
        rel.number, rel.number, fill(waits), back.number, back.number),
        acq.thread: "stage_turn(%d); %s stage_flag(%d); %s %s stage_done(%d);" % (
            acq.number, lock, rel.number, fill(wakes), unlock, again.number)}
    return name, parts
