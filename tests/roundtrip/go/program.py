"""From traces, one program in Go that executes one of them, by its number."""
import re

from go import blocks, locks, variables
from go.events import Events
from program import Body, Program
from traces import line_of

ENDS = [("return", 2), ("panic", 1), ("tail", 1)]
#: The settings of the logger that a program may have, with their values. With None the default holds.
SETTINGS = [("AERODROME_SPLIT", ["none", None, "waits", "threads", "waits,threads"]), ("AERODROME_GRAIN", [None, None, None, None, "1", "2", "4", "8"]),
            ("AERODROME_CHANNELS", [None, None, "one", "both"]), ("AERODROME_LOCAL", [None, None, None, None, None, "skip"])]
#: The functions that are no blocks, beside those in which goroutines begin.
NO_BLOCKS = ["main.aside*", "main.main*", "main.t*_catch*", "main.*_defers*", "main.t*_first*"]


class GoProgram(Program):
    """The functions of a trace in a program in Go. Without quiet moments a block of a goroutine of its own is open all the time.

    In a crowded program all variables are small global ones, which lie side by side.
    """

    language = "go"

    def __init__(self, trace, random, number, limits=False):
        super().__init__(trace, random, {"go"}, limits)
        self.prefix, self.has_quiet_moments = "t%d" % number, random.random() < 0.35
        self.settings = {name: value for name, values in SETTINGS for value in [random.choice(values)] if value}
        self.skips_local, self.is_crowded = "AERODROME_LOCAL" in self.settings, number % 7 == 0
        self.globals, self.start, self.functions = [], [], []
        self.labels = {}
        self.variables = {name: variables.make_variable(self, at, name) for at, name in enumerate(trace.variables)}
        self.locks = {name: locks.make_lock(self, at, name) for at, name in enumerate(trace.locks)}
        self.others = {name: locks.make_other(self, kind, at, name)
                       for kind, names in trace.things.items() if kind in locks.OTHERS for at, name in enumerate(names)}
        forks = [step.target for step in trace.steps if step.operation == "fork"]
        self.joins = {target: random.choice(sorted(locks.JOINS)) for target in forks}
        # (at a quiet moment a timer may get the number of a goroutine)
        self.by_timer = [] if self.has_quiet_moments else [target for target in forks if random.random() < 0.2]
        self.plan_ends(ENDS)
        self.all_events = Events(self).all()
        self.events = {number: [one for one in events if not self.is_left_out(one[1])] for number, events in self.all_events.items()}
        everyone = {1} | {step.thread for step in trace.steps} | set(self.joins)
        self.tops = {thread: GoBody(self, thread).lines for thread in sorted(everyone)}

    def is_left_out(self, name):
        """Returns whether the log may lack the events of a name, because of a quiet moment, or as only one goroutine has touched a channel."""
        quiet = self.has_quiet_moments and re.match(r"(message|latch|rounds|timer)\d+\.|(ends|of)\.", str(name))
        return bool(quiet or (self.skips_local and re.match(r"(message|queue|channel)\d+$|(ends|of)\.", str(name))))

    def may_lack(self, step):
        """Returns whether the log may lack an access, because no second goroutine has touched the variable up to then."""
        threads = {one.thread for one in self.trace.steps[:step.number + 1] if one.target == step.target}
        return self.skips_local and len(threads) < 2 and self.variables[step.target].place.name not in ("a global", "a global array")

    def has_certain_verdict(self):
        """Returns whether the log has the verdict of the trace: a log with less may hide a violation, and of two ways any comes first."""
        both = self.settings.get("AERODROME_CHANNELS") == "both"
        return not self.skips_local and not (both and ("message" in self.trace.features or "a meeting" in " ".join(self.joins.values())))

    def no_blocks(self):
        """Returns the setting that makes blocks of the functions of the trace."""
        bodies = ["main.%s_body" % self.prefix] + ["main.%s_body%d" % (self.prefix, thread) for thread in self.tops]
        return "-" + ",".join(NO_BLOCKS + bodies)

    def lines(self):
        """Yields the lines of the trace with the step of each. A goroutine writes when it ends, and who joins it reads."""
        last = {}
        for step in self.trace.steps:
            last[step.target if step.operation == "fork" else step.thread] = step.number
        for step in self.trace.steps:
            for operation, name, *thread in self.all_events[step.number]:
                name = self.trace.steps[name].target if isinstance(name, int) else name
                yield step, line_of(thread[0] if thread else step.thread, operation, name)
            for thread, number in sorted(last.items()):
                if number == step.number and thread != 1:
                    yield step, line_of(thread, "w", "ends.T%d" % thread)

    def text(self):
        keeper = [] if self.has_quiet_moments else ["go func() {\nkeeper(%d)\nput(1023, unsafe.Pointer(&held))\n}()" % len(self.trace.steps), "for held == 0 { runtime.Gosched() }"]
        bodies = []
        for thread, lines in self.tops.items():
            if thread == 1:
                # (the block of the keeper ends before the program does)
                last = [] if self.has_quiet_moments else ["for at(1023) == nil { runtime.Gosched() }"]
                lines = ["%s_first()" % self.prefix] + lines + last
            bodies.append("func %s_body%d() {\n%s\n}" % (self.prefix, thread, "\n".join(lines)))
        # (held is read without an event)
        first = "//go:norace\nfunc %s_wait() {\n%s\n}\nfunc %s_body() {\n%s_wait()\n%s\n}\nfunc %s_first() { %s_body() }" % (
            self.prefix, "\n".join(keeper), self.prefix, self.prefix, "\n".join(self.start), self.prefix, self.prefix)
        return "\n".join(self.globals + self.functions + [first] + bodies) + "\n"


class GoBody(Body):
    """The text of a goroutine's function."""

    blocks, locks, threads, variables = blocks, locks, locks, variables

    def done(self, number):
        return "done(%d)" % number

    def at_turn(self, first, text, last):
        return "turn(%d); %s; done(%d)" % (first, text, last)

    def add_acquire(self, step):
        return self.add_steps([step], *locks.take_or_release(self.program, step, locks.TAKES))

    def add_release(self, step, near):
        return self.add_steps([step], *locks.take_or_release(self.program, step, locks.RELEASES))

    def add(self, at):
        return self.add_end(self.steps[at]) if self.steps[at].operation == "end" else super().add(at)

    def add_end(self, step):
        mode, numbers = self.program.leaving[step.number]
        begin, kind, before = self.stack.pop()
        if step.number == numbers[0] and mode == "exit":
            self.lines.append("turn(%d); done(%d); runtime.Goexit()" % (numbers[0], numbers[-1]))
        elif step.number == numbers[0] and mode != "last act":
            self.lines.append("turn(%d)" % step.number)
            if mode == "panic":
                self.lines.append("if some() >= 0 { panic(left{}) }")
        call = blocks.define(self.program, begin, kind, self.lines)
        self.lines = before
        self.lines.append("turn(%d)" % begin.number)
        last = step.number == numbers[-1]
        if mode == "panic" and last:
            name = "%s_catch%d" % (self.program.prefix, step.number)
            self.program.functions.append("func %s() { defer asideCaught(); %s }" % (name, call))
            call = name + "()"
        self.lines.append(call)
        if last and mode != "exit":
            self.lines.append("done(%d)" % step.number)
        return 1

    def meet(self, meeting):
        return MEETINGS[meeting.kind](self.program, meeting)


def message_of(program, meeting):
    it, (send, receive) = program.others[meeting.target], meeting.steps
    how, sends = program.choose(it.kind.operations["send"], (), it.words)
    also, receives = program.choose(it.kind.operations["receive"], (), it.words)
    pause = "pause(); " if program.chance(0.5) else ""
    return "%s and %s of %s" % (how, also, it.kind.name), {
        send.thread: "turn(%d); done(%d); %s%s" % (send.number, send.number, pause, sends),
        receive.thread: "turn(%d); %s; done(%d)" % (receive.number, receives, receive.number)}


def wait_of(program, meeting):
    """The first thread does what the other one waits for, perhaps as the last act of its blocks, which end at once then."""
    it, first, later = program.others[meeting.target], meeting.steps[0], meeting.steps[-1]
    ends = len(meeting.steps) > 2
    how, does = program.choose(it.kind.operations[first.operation], {"last"} if ends else (), it.words)
    also, waits = program.choose(it.kind.operations[later.operation], {"waits"}, it.words)
    # (with both ways of the order the block ends when its function does)
    begins = "turn(%d)" % later.number if ends and program.settings.get("AERODROME_CHANNELS") == "both" else "follow(%d)" % first.number
    return "%s, and %s that waits for it, of %s" % (how, also, it.kind.name), {
        first.thread: "turn(%d); flag(%d); pause(); %s" % (first.number, first.number, does) + ("" if ends else "; done(%d)" % first.number),
        later.thread: "%s; %s; turn(%d); done(%d)" % (begins, waits, later.number, later.number)}


def condition_of(program, meeting):
    (rel, acq, again, back), it = meeting.steps, program.locks[meeting.target]
    cond = "%s_cond%d" % (program.prefix, rel.number)
    locks.add(program, "var %s *sync.Cond" % cond, "%s = sync.NewCond(%s)" % (cond, it.words["locker"]), {})
    wake = program.random.choice(["Signal", "Broadcast"])
    return "Wait and %s of a Cond" % wake, {
        rel.thread: "turn(%d); done(%d); for !flagged(%d) { %s.Wait() }; turn(%d); done(%d)" % (rel.number, rel.number, rel.number, cond, back.number, back.number),
        acq.thread: "turn(%d); %s.Lock(); flag(%d); %s.%s(); %s.Unlock(); done(%d)" % (
            acq.number, it.words["m"], rel.number, cond, wake, it.words["m"], again.number)}


MEETINGS = {"message": message_of, "condition": condition_of, "wait": wait_of}
