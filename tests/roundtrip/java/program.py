"""From a trace, a program in Java that executes it."""
import string

from java import blocks, locks, things, threads, variables
from java.events import Events
from program import Body, Group, Program, fits
from traces import line_of

IMPORTS = ["java.lang.invoke.*", "java.nio.*", "java.util.*", "java.util.concurrent.*", "java.util.concurrent.atomic.*", "java.util.concurrent.locks.*"]
ENDS = [("return", 4), ("throw", 2), ("tail", 2), ("overflow", 1)]
#: What catches a StackOverflowError, and the methods of Deep.java that call themselves until it comes.
CAUGHT = ["StackOverflowError", "VirtualMachineError", "Error", "Throwable"]
OVERFLOWS = ["Deep.plain(1)", "Deep.wide(1, 2, 3, 4)", "Deep.catching(1)", "Deep.finishing(1)", "Deep.locked(1)", "Deep.entering(1)", "Deep.holding(1)",
             "Deep.writing(1)", "new Deep().turned(1)"]


class JavaProgram(Program):
    """A program in Java, whose class is called `name`."""

    language = "java"

    def __init__(self, trace, random, name, limits=False):
        super().__init__(trace, random, {"java"}, limits)
        self.name = name
        self.fields, self.beside, self.start, self.methods = ["int thrown;"], [], [], []
        self.labels, self.common_bodies, self.no_blocks, self.has_thread = {}, {}, [], False
        self.first_permits = {name: 1 if first == "take" else 0 for name, first in first_operations(trace).items()}
        self.waits = self.choose_waits()
        self.taken_back = locks.taken_back(self)
        self.barriers = self.choose_barriers()
        self.variables = {one: variables.make_variable(self, at, one) for at, one in enumerate(trace.variables)}
        good = locks.scoped(self)
        self.locks = {one: locks.make_lock(self, at, one, good) for at, one in enumerate(trace.locks)}
        self.ways = locks.choose_ways(self)
        self.others = {one: things.make_thing(self, kind, at, one)
                       for kind, names in trace.things.items() if kind in things.OTHERS for at, one in enumerate(names)}
        self.others.update({"park%d" % one: things.make_parked(one) for one in range(1, trace.next_thread)})
        self.starts = {step.target: threads.choose_start(self, step.target) for step in trace.steps if step.operation == "fork"}
        self.common = {label for label in trace.labels if self.chance(0.3)}
        self.plan_ends(ENDS)
        self.plan_exit()
        events = Events(self)
        self.events, self.situations = events.all(), events.situations
        everyone = {1} | {step.thread for step in trace.steps} | set(self.starts)
        self.tops = {thread: JavaBody(self, thread).lines for thread in sorted(everyone)}

    def plan_exit(self):
        """Decides whether the program ends by System.exit, which ends the blocks of main."""
        steps, last = self.trace.steps, []
        while len(last) < len(steps) and steps[-1 - len(last)].operation == "end":
            last.insert(0, steps[-1 - len(last)])
        if last and self.chance(0.3):
            self.groups = [group for group in self.groups if group.steps[0] not in last] + [Group(last, "blocks left by System.exit")]
            self.leaving.update({step.number: ("exit", [one.number for one in last]) for step in last})

    def choose_waits(self):
        """Returns some runs of all releases of a lock and as many acquires behind them that are one wait, by the first one's number."""
        result, within = {}, set()
        for thread in {step.thread for step in self.trace.steps}:
            steps = self.steps_of(thread)
            for at, step in enumerate(steps):
                run = self.wait_of(steps, at)
                if run and step.number not in within and self.chance(0.7):
                    result[step.number] = run
                    within |= {one.number for one in run}
        return result

    def wait_of(self, steps, at):
        """Returns the steps from number `at` on that may be one wait for a condition, or None."""
        step = steps[at]
        if step.operation != "rel" or step.meeting:
            return None
        count = len(self.owners[step.number][step.target])
        run = steps[at:at + 2 * count]
        near = all(other.number == one.number + 1 for one, other in zip(run, run[1:]))
        wanted = ["rel"] * count + ["acq"] * count
        same = all(one.target == step.target and not one.meeting for one in run)
        return run if near and same and [one.operation for one in run] == wanted else None

    def choose_barriers(self):
        """Returns for each meeting at a barrier the number of the object that it has, and how many meetings had that before."""
        result, last = {}, {}
        for meeting in locks.meetings_of(self.trace):
            if meeting.kind == "barrier":
                generation, phase, size = last.get(meeting.target, (0, 0, len(meeting.steps)))
                if meeting.target in last:
                    keeps = size == len(meeting.steps) and self.chance(0.7)
                    generation, phase = (generation, phase + 1) if keeps else (generation + 1, 0)
                last[meeting.target] = generation, phase, len(meeting.steps)
                result[id(meeting)] = generation, phase
        return result

    def object_of(self, step):
        """Returns the name of the object of a step: several ones have the name of a barrier."""
        return "%s.%d" % (step.target, self.barriers[id(step.meeting)][0]) if step.operation in ("arrive", "leave") else step.target

    def part_of_barrier(self, step):
        """Returns what a thread writes when it arrives, but for its number."""
        phases = "phases" in self.others[step.target].traits
        before = self.barriers[id(step.meeting)][1]
        return self.object_of(step) + (".phase%d.all" % before if phases else ".meeting%d.all" % (before + 1))

    def lines(self):
        """Yields the lines of the trace with the step of each. A join of a task's thread orders as its result does."""
        for step in self.trace.steps:
            for operation, name in self.events[step.number]:
                join = step.operation == "join"
                yield step, line_of(step.thread, "join" if join else operation, "T%d" % step.target if join else name)

    def text(self):
        common = blocks.define_common(self)
        thread = string.Template("static void thread$t() { try { Stage.begun($t); body$t(); } catch (Exception e) { Stage.end(e); } }\n"
                                 "static long body$t() throws Exception {\n    $lines\n    return 0;\n}")
        functions = [thread.substitute(t=one, lines="\n    ".join(lines)) for one, lines in self.tops.items() if one != 1]
        main = "public static void main(String[] words) {\n    try {\n    Stage.begun(1);\n    Stage.put(3999, new %s());\n    %s\n    body1();\n" \
            "    } catch (Exception e) { Stage.end(e); }\n}\nstatic long body1() throws Exception {\n    %s\n    return 0;\n}" % (
                self.name, "\n    ".join(self.start), "\n    ".join(self.tops[1]))
        members = "\n".join(self.fields + self.methods + common + functions + [main])
        beside = "\n".join(self.beside + locks.classes(self))
        return "%s\n\npublic class %s {\n%s\n}\n%s\n" % ("\n".join("import %s;" % one for one in IMPORTS), self.name, members, beside)


def first_operations(trace):
    """Returns the first operation on each semaphore."""
    result = {}
    for step in trace.steps:
        if step.operation in ("post", "take"):
            result.setdefault(step.target, step.operation)
    return {name: result.get(name, "post") for name in trace.things.get("semaphore", ())}


class JavaBody(Body):
    """The text of a thread's method."""

    blocks, locks, threads, variables = blocks, locks, threads, variables

    def __init__(self, program, thread):
        self.scopes = []
        super().__init__(program, thread)

    def turn(self, number):
        return "Stage.turn(%d); if (Stage.marks) Mark.step(%d);" % (number, number)

    def done(self, number):
        return "Stage.done(%d);" % number

    def at_turn(self, first, text, last):
        return "%s %s %s" % (self.turn(first), text, self.done(last))

    def other(self, step):
        if step.target in self.program.others:
            return things.operate(self.program, step)
        if step.operation == "nop":
            return (locks.fail(self.program, step) if self.program.chance(0.5) else None) or threads.nothing(self.program, step)
        return super().other(step)

    def add_acquire(self, step):
        it = self.program.locks[step.target]
        if "methods" not in it.traits or not self.program.chance(0.8):
            return self.add_steps([step], *locks.take(self.program, step))
        end = locks.scope_end(self.program, step)
        if self.is_whole_block(step, end):
            begin, _, before = self.stack.pop()
            self.stack.append((begin, it, before))
            self.lines = [self.done(step.number)]
            self.group([begin, step], "a synchronized method that is a block, by a " + it.kind.name)
            return 1
        self.scopes.append((step, end, self.lines))
        self.lines = [self.done(step.number)]
        self.group([step], "a synchronized method, by a " + it.kind.name)
        return 1

    def is_whole_block(self, acquire, release):
        """Returns whether a lock is held from the begin of a block to its end, which nothing else ends."""
        begin = self.stack[-1][0] if self.stack else None
        if not begin or begin.number + 1 != acquire.number or begin.partner.number != release.number + 1 or begin.target in self.program.common:
            return False
        mode, numbers = self.program.leaving[begin.partner.number]
        return mode != "exit" and len(numbers) == 1

    def add_release(self, step, near):
        if step.number in self.program.waits:
            return self.add_steps(self.program.waits[step.number], *locks.wait(self.program, step.target))
        if self.stack and self.stack[-1][1] is self.program.locks[step.target] and near is self.stack[-1][0].partner:
            return self.add_end_of_method(step, near)
        if not self.scopes or self.scopes[-1][1] is not step:
            return self.add_steps([step], *locks.release(self.program, step))
        acquire, _, before = self.scopes.pop()
        self.group([step], "the end of a synchronized method")
        name = "s%d" % acquire.number
        self.program.no_blocks.append(name)
        call = locks.add_method(self.program, acquire, name, self.lines + [self.turn(step.number)])
        self.lines = before + [self.turn(acquire.number), call + ";", self.done(step.number)]
        return 1

    def add_end_of_method(self, release, end):
        """Adds the end of a block that is a synchronized method."""
        mode = self.program.leaving[end.number][0]
        begin, it, before = self.stack.pop()
        name = "%s_%d" % (begin.target, begin.number)
        call = locks.add_method(self.program, release, name, self.lines + [self.turn(release.number) + self.leave(mode)])
        self.program.labels[begin.number] = "re:^M%d\\.%s$" % (it.number, name)
        self.group([release, end], "the end of a synchronized method that is a block, by " + mode)
        self.lines = before + [self.turn(begin.number), self.caught(mode, call), self.done(end.number)]
        return 2

    def add_end(self, step):
        mode, numbers = self.program.leaving[step.number]
        begin, kind, before = self.stack.pop()
        last = step.number == numbers[-1]
        if step.number == numbers[0]:
            self.lines.append(self.turn(step.number) + self.leave(mode))
        call = blocks.define(self.program, begin, kind, self.lines)
        self.lines = before
        self.lines.append(self.turn(begin.number))
        if mode == "tail" and not last:
            self.lines.append("if (true) return %s;" % call)
        else:
            self.lines.append(self.caught(mode if last else "", call))
        if last:
            self.lines.append(self.done(step.number))
        return 1

    def caught(self, mode, call):
        """Returns the call with what catches an exception that leaves it."""
        if mode == "throw":
            return "try { %s; } catch (Stage.Left left) { }" % call
        if mode == "overflow":
            return "try { %s; } catch (%s full) { Stage.full(full); }" % (call, self.program.random.choice(CAUGHT))
        return call + ";"

    def leave(self, mode):
        """Returns how the innermost block is left, behind the turn of its end."""
        if mode == "overflow":
            return " if (true) %s;" % self.program.random.choice(OVERFLOWS)
        return {"throw": " if (true) throw new Stage.Left();", "exit": " if (true) System.exit(0);"}.get(mode, "")

    def meet(self, meeting):
        return MEETINGS[meeting.kind](self.program, meeting, self.turn)


def barrier_of(program, meeting, turn):
    it, (generation, phase) = program.others[meeting.target], program.barriers[id(meeting)]
    again = (generation, phase
             + 1) in [program.barriers[id(one)] for one in locks.meetings_of(program.trace) if one.kind == "barrier" and one.target == meeting.target]
    how, text = program.choose(it.kind.operations["arrive"], () if again else ("last",), it.words)
    new, parts = string.Template(it.new).substitute(count=len(meeting.steps) // 2), {}
    for thread in {step.thread for step in meeting.steps}:
        arrive, leave = [step.number for step in meeting.steps if step.thread == thread]
        ready = new if arrive == meeting.steps[0].number and not phase else ""
        parts[thread] = "%s %s Stage.done(%d); %s %s Stage.done(%d);" % (turn(arrive), ready, arrive, text, turn(leave), leave)
    return "%s of %s" % (how, it.kind.name), parts


def exchange_of(program, meeting, turn):
    hows, parts = [], {}
    for give, got in zip(meeting.steps[:2], meeting.steps[2:]):
        how, text = things.operate(program, give)
        hows.append(how)
        parts[give.thread] = "%s Stage.done(%d); %s %s Stage.done(%d);" % (turn(give.number), give.number, text, turn(got.number), got.number)
    return " and ".join(hows), parts


def message_of(program, meeting, turn):
    send, receive = meeting.steps
    (how, sends), (also, receives) = things.operate(program, send), things.operate(program, receive)
    return "%s and %s" % (how, also), {
        send.thread: "%s Stage.done(%d); %s" % (turn(send.number), send.number, sends),
        receive.thread: "%s %s Stage.done(%d);" % (turn(receive.number), receives, receive.number)}


def park_of(program, meeting, turn):
    """A thread gets a permit before it parks, or once it is parked."""
    unpark, park = meeting.steps
    (how, wakes), (also, parks) = things.operate(program, unpark), things.operate(program, park)
    if also.startswith("park of") and program.chance(0.5):
        return "%s of one that is parked" % how, {
            unpark.thread: "%s Stage.done(%d); Stage.parked(%d); %s" % (turn(unpark.number), unpark.number, park.thread, wakes),
            park.thread: "%s Stage.drain(); %s Stage.done(%d);" % (turn(park.number), parks, park.number)}
    return "%s, then %s" % (how, also), {
        unpark.thread: "%s %s Stage.done(%d);" % (turn(unpark.number), wakes, unpark.number),
        park.thread: "%s %s Stage.done(%d);" % (turn(park.number), parks, park.number)}


def condition_of(program, meeting, turn):
    it, waiter = program.locks[meeting.target], meeting.steps[0].thread
    mine = [step.number for step in meeting.steps if step.thread == waiter]
    releases, (acquire, release), back = mine[:len(mine) // 2], [step for step in meeting.steps if step.thread != waiter], mine[len(mine) // 2:]
    one = program.random.choice([one for one in locks.CONDITIONS if fits(one.needs, it.traits)])
    words = dict(it.words, c=3000 + releases[0], flag=releases[0], side="write")
    fill = lambda text: string.Template(text).substitute(words)
    if one.started:
        program.start.append(fill(one.started))
    take, give = ("synchronized ($m) {", "}") if "monitor" in it.traits else (
        ("$m.lock();", "$m.unlock();") if "lock" in it.traits else ("$m.writeLock().lock();", "$m.writeLock().unlock();"))
    wake = "%s Stage.flag(%d); %s %s" % (fill(take), releases[0], fill(one.wakes), fill(give))
    return "%s of a %s, held %d times" % (one.name, it.kind.name, len(releases)), {
        waiter: "%s Stage.done(%d); %s %s Stage.done(%d);" % (turn(releases[0]), releases[-1], fill(one.waits), turn(back[0]), back[-1]),
        acquire.thread: "%s %s Stage.done(%d);" % (turn(acquire.number), wake, release.number)}


MEETINGS = {"barrier": barrier_of, "message": message_of, "condition": condition_of, "exchange": exchange_of, "park": park_of}
