"""Compares a log with the trace that its program has executed.

The scheduler marks in the log where the turn of each step begins, so each line belongs to one step. What is asked of the lines of
a step: its thread, its operation and its object, in order; of a variable at least one line of the right operation, and no line of
another variable of the trace; and of all accesses that exactly those have a name in common, of which one writes it, that conflict
in the trace. (A chain of such accesses counts too, as of two accesses to parts of eight bytes before these became variables of
their own.) Lines of memory that isn't the trace's are passed over.
"""
import re

LINE = re.compile(r"^T(\d+)\|(\w+)(?:\((.*)\))?(?:\|.*)?$")
ORDERED = ("begin", "end", "fork", "join", "acq", "rel")


#: The steps whose events come in any order, known by the first one of a group, with a key that sorts these events: the posts and the
#: like that a wait reads; the ends and begins of two threads that meet at a channel without a buffer, and the two ways of their order;
#: the look at a channel by a thread that waits until it can send; and two readers of a lock.
BLOCKS = {"end": 0, "begin": 1}
ANY_ORDER = [
    (lambda step: step.operation in ("take", "await"), lambda operation, name, thread: (BLOCKS.get(operation, 2), name if operation == "r" else "")),
    (lambda step: step.meeting and step.meeting.kind == "message",
     lambda operation, name, thread: (BLOCKS[operation], thread) if operation in BLOCKS else (2, name.endswith(".back"))),
    (lambda step: step.meeting and step.operation == "get", lambda operation, name, thread: operation != "r" or "." in name),
    (lambda step: step.meeting and step.operation == "unlock", lambda operation, name, thread: thread if operation == "r" else 0),
]


class Difference:
    def __init__(self, kind, step, how, expected, found):
        self.kind, self.step, self.how, self.expected, self.found = kind, step, how, expected, found

    def __str__(self):
        where = "step %d %s" % (self.step.number, self.step) if self.step else "the whole"
        return "%s: %s (%s): expected %s, found %s" % (where, self.kind, self.how, self.expected, self.found)


class Line:
    def __init__(self, number, thread, operation, name):
        self.number, self.thread, self.operation, self.name = number, thread, operation, name

    def __str__(self):
        return "T%d|%s" % (self.thread, self.operation if self.name is None else "%s(%s)" % (self.operation, self.name))


def lines_of(path):
    """Yields the lines of a log. One that is none of a trace has thread 0."""
    with open(path, errors="replace") as file:
        for number, text in enumerate(file, 1):
            match = LINE.match(text.rstrip("\n"))
            if match:
                yield Line(number, int(match[1]), match[2], match[3])
            elif text.strip():
                yield Line(number, 0, "no event", text.strip())


def windows_of(lines, step_of_mark):
    """Returns for each step the lines between its mark and the next one; those before all marks are at -1."""
    windows, current = {}, -1
    for line in lines:
        mark = step_of_mark(line)
        if mark is None:
            windows.setdefault(current, []).append(line)
        else:
            current = mark
    return windows


def matches_label(label, name):
    """Returns whether a name is the label, which begins with re: if it is a pattern."""
    return bool(re.match(label[3:], name)) if label.startswith("re:") else label == name


def conflict(one, other):
    """Returns whether one of two sets of names and operations writes a name that is in the other."""
    return any((name, "w") in other or (operation == "w" and (name, "r") in other) for name, operation in one)


class Comparison:
    """`names` says which things the names of the log are: `names.thing(line, group)` is the name that the trace has for it, or None."""

    def __init__(self, trace, program, windows, names):
        self.trace, self.program, self.windows, self.names = trace, program, dict(windows), names
        self.differences, self.touched, self.wider, self.late = [], {}, {}, {}
        self.group_of = {step.number: group for group in program.groups for step in group.steps}
        self.variables = set(trace.variables)
        self.step_of_line = {line.number: step for step, lines in windows.items() for line in lines}

    def differ(self, kind, step, expected, found, how=None):
        self.differences.append(Difference(kind, step, how or (self.group_of[step.number].how if step else ""), expected, found))

    def run(self):
        done = set()
        for step in self.trace.steps:
            group = self.group_of[step.number]
            if id(group) not in done:
                done.add(id(group))
                self.compare_group(group)
        for at, lines in sorted(self.windows.items()):
            for line in lines:
                if line.operation not in ("r", "w") and not self.comes_late(line, line.name) and 0 <= at < len(self.trace.steps):
                    self.differ("extra", None, "no event", line, "between the steps")
        for thread, events in self.late.items():
            if events:
                self.differ("missing", None, "at the end of T%d: %s" % (thread, events), "nothing", "pthread_exit or the like")
        self.compare_conflicts()
        return self.differences

    def compare_group(self, group):
        lines = [line for step in group.steps for line in self.windows.pop(step.number, [])]
        ordered, accesses = [], []
        for line in lines:
            thing = self.names.thing(line, group)
            if line.operation not in ("r", "w"):
                ordered.append((line, thing))
            elif thing in self.variables:
                accesses.append((line, thing))
            elif thing is not None:
                ordered.append((line, thing))
        self.compare_ordered(group, ordered)
        self.compare_accesses(group, accesses, lines)

    # Events of locks, threads and blocks.

    def compare_ordered(self, group, ordered):
        wanted = self.wanted_of(group)
        threads = {step.thread for step in group.steps} | {thread for _, _, _, thread in wanted}
        kept = []
        for line, thing in ordered:
            if line.thread in threads:
                kept.append((line, thing))
            elif not self.comes_late(line, thing):
                self.differ("event of another thread", group.steps[0], "none", line)
        if group.steps[0].at_exit:
            self.wait_for(group, wanted, kept)
            return
        meeting = group.steps[0].meeting
        if meeting and meeting.kind in ("barrier", "exchange"):
            # All arrivals come before all departures, but otherwise in any order.
            arrivals = len([line for line, _ in kept if line.operation == "w"])
            turn = any(line.operation == "r" for line, _ in kept[:arrivals])
            wanted.sort(key=lambda one: (one[1] == "r", one[3], one[2]))
            kept.sort(key=lambda one: (turn or one[0].operation == "r", one[0].thread, str(one[1])))
        for key in [key for applies, key in ANY_ORDER if applies(group.steps[0])]:
            wanted.sort(key=lambda one: key(one[1], str(one[2]), one[3]))
            kept.sort(key=lambda one: key(one[0].operation, str(one[1]), one[0].thread))
        self.compare_lists(group, wanted, kept)

    def wait_for(self, group, wanted, kept):
        """Compares the events that a thread's end makes, in any order. Those that are missing may still come."""
        late = self.late[group.steps[0].thread] = [(operation, name) for _, operation, name, _ in wanted]
        for line, thing in kept:
            if not self.comes_late(line, thing):
                self.differ("extra", group.steps[0], late, line)

    def comes_late(self, line, thing):
        """Returns whether it is an event that its thread's end has to make, which then has come."""
        late = self.late.get(line.thread, ())
        found = (line.operation, thing) in late
        if found:
            late.remove((line.operation, thing))
        return found

    def wanted_of(self, group):
        """Returns the ordered events of a group, each with its step and with its thread, which is the step's if the event names none."""
        return [(step, operation, name, thread[0] if thread else step.thread) for step in group.steps
                for operation, name, *thread in self.program.events[step.number] if name not in self.variables]

    def compare_lists(self, group, wanted, kept):
        if len(wanted) != len(kept):
            expected = ", ".join(self.shown(*one) for one in wanted) or "nothing"
            self.differ("missing" if len(kept) < len(wanted) else "extra", group.steps[0], expected, ", ".join(str(line) for line, _ in kept) or "nothing")
            return
        for (step, operation, name, thread), (line, thing) in zip(wanted, kept):
            if operation == "begin":
                same = line.operation == "begin" and matches_label(self.label_of(step, name), line.name)
            else:
                same = line.operation == operation and thing == name
            if not same or line.thread != thread:
                self.differ("another event", step, self.shown(step, operation, name, thread), line)

    def label_of(self, step, name):
        """Returns the label of a begin. One that begins a block again has the number of the block's first begin for a name."""
        return self.program.labels[name if isinstance(name, int) else step.number]

    def shown(self, step, operation, name, thread):
        name = self.label_of(step, name) if operation == "begin" else name
        return "T%d|%s" % (thread, operation if name is None else "%s(%s)" % (operation, name))

    # Accesses to variables.

    def compare_accesses(self, group, accesses, lines):
        wanted = {(step.operation, step.target): step for step in group.steps if step.operation in ("r", "w")}
        seen, first = [], group.steps[0]
        for line, thing in accesses:
            step = wanted.get((line.operation, thing))
            if line.thread not in {one.thread for one in group.steps}:
                self.differ("access by another thread", first, "none", line)
            elif step:
                seen.append((line.operation, thing))
                self.touched.setdefault(step.number, set()).add((line.name, line.operation))
            elif not (line.operation == "r" and ("w", thing) in wanted and self.may_read(line, lines, thing, wanted["w", thing])):
                self.differ("extra access", first, "none of %s" % thing, line)
        for (operation, name), step in wanted.items():
            near = self.names.wider(name, operation, lines, step)
            if near:
                self.wider.setdefault(step.number, set()).update(near)
            if (operation, name) not in seen:
                if near:
                    self.touched.setdefault(step.number, set()).update(near)
                elif not (operation == "r" and ("w", name) in wanted) and not self.program.may_lack(step):
                    # (Compilers leave out the event of a read before a write of the same place, if nothing is in between.)
                    self.differ("missing", step, "%s(%s)" % (operation, name), ", ".join(map(str, lines[:5])) or "nothing")

    def may_read(self, line, lines, variable, step):
        """Returns whether the step, which writes the variable, may also read it by the name of the line."""
        return self.names.may_read(variable) or (line.name, "r") in self.names.wider(variable, "w", lines, step)

    def compare_conflicts(self):
        """Compares which accesses conflict."""
        accesses = [step for step in self.trace.steps if step.operation in ("r", "w") and step.number in self.touched]
        for at, one in enumerate(accesses):
            for other in accesses[:at]:
                if one.thread == other.thread:
                    continue
                wants = one.target == other.target and "w" in (one.operation, other.operation)
                shares = conflict(self.touched[one.number], self.touched[other.number])
                if wants and not shares:
                    shares = self.is_led_to(other, one, [step for step in accesses if step.target == one.target])
                if shares != wants:
                    names = [sorted(self.touched[step.number])[:4] for step in (one, other)]
                    self.differ("conflict lost" if wants else "conflict invented", one,
                                "%s with step %d %s (%s)" % ("a conflict" if wants else "none", other.number, other, self.group_of[other.number].how),
                                "%s and %s" % tuple(names))

    def is_led_to(self, one, other, steps):
        """Returns whether a chain of conflicts, and of accesses by one thread, leads from one access to a later one."""
        touched = {step.number: self.touched[step.number] | self.wider.get(step.number, set()) for step in steps}
        reached = [one]
        for step in steps:
            if one.number < step.number <= other.number and any(
                    before.thread == step.thread or conflict(touched[before.number], touched[step.number]) for before in reached):
                reached.append(step)
        return other in reached


def projection(lines, names, group):
    """Returns the events of the trace's things in a log, without marks and repetitions."""
    result = []
    for line in lines:
        if names.step_of_mark(line) is None:
            thing = names.thing(line, group)
            one = line.thread, line.operation, thing if line.operation != "begin" else line.name
            if (thing is not None or line.operation == "end") and (line.operation not in ("r", "w") or not result or result[-1] != one):
                result.append(one)
    return result
