"""Which variables and locks the names of a log of Java are. A name is learned at the first event of its thing."""
import re

from compare import Difference, Line

MARK = re.compile(r"^Mark\[\]@\d+\[(\d+)\]$")
#: Events of maps and sets that docs/java-events.md has beside those of a key: looks, and writes of keys.
BESIDE = re.compile(r".*@\d+\.(all|look)\d+$")
PART = re.compile(r"^(.*@\d+)\.((?:(?:phase|meeting)\d+\.)?(?:all|look|item|permit|none|head|first|last)\d+|clear|key\S*)$")
#: Blocks and monitors of Deep.java, where a stack overflows: nobody knows how many there are.
DEEP = re.compile(r"^Deep\b")


class Names:
    def __init__(self, program):
        self.program, self.learned, self.writers, self.bases = program, {}, {}, {}
        self.given, self.taken = {}, {}

    def step_of_mark(self, line):
        match = MARK.match(line.name or "") if line.operation == "w" else None
        return int(match[1]) if match else None

    def thing(self, line, group):
        """Returns what the trace calls the thing of a line, or None if it isn't the trace's."""
        if line.operation in ("begin", "end", "fork", "join", "no event") or line.name is None:
            return line.name
        if line.name.startswith(("done.", "task.")):
            return self.of_task(line, group)
        part = PART.match(line.name)
        if part and self.of_part(part[1], group):
            return self.written(line, self.name_of_part(line, part, group))
        if line.name in self.learned:
            return self.learned[line.name]
        if BESIDE.match(line.name):
            return None
        for step in group.steps:
            for operation, name in self.program.events[step.number]:
                it = self.program.variables.get(name) or self.program.locks.get((name or "").replace("rw.", ""))
                if it and operation == line.operation and it.log_name is None and it.pattern.fullmatch(line.name):
                    self.learned[line.name], it.log_name = name, line.name
                    return name
        return None

    def of_part(self, base, group):
        """Returns whether a name is that of a semaphore, a queue or the like."""
        for step in group.steps:
            it = self.program.others.get(step.target)
            if it and base not in self.bases and it.pattern.fullmatch(base):
                self.bases[base] = self.program.object_of(step)
        return base in self.bases

    def name_of_part(self, line, part, group):
        """Returns the name of a part. A key's, and that of a put by an Exchanger, is learned at its first event."""
        whole = "%s.%s" % (self.bases[part[1]], part[2])
        of = [step for step in group.steps if step.thread == line.thread]
        if of and (part[2].startswith("key") or of[0].operation == "give"):
            events = [event for step in of for event in self.program.events[step.number]]
            names = [name for operation, name in events if operation == line.operation and re.search("[.](key|item)", name)]
            if line.name not in self.learned and names and names[0] not in self.learned.values():
                self.learned[line.name] = names[0]
            return self.learned.get(line.name, whole)
        return whole

    def written(self, line, name):
        """Returns the name, or None if the thread reads what it has written itself."""
        if line.operation == "w":
            self.writers[line.name] = line.thread
        return None if line.operation == "r" and self.writers.get(line.name) == line.thread else name

    def of_task(self, line, group):
        """Returns the name of a future, or of the result of a thread's task."""
        for step in group.steps:
            it = self.program.others.get(step.target)
            if it and step.operation in ("complete", "see") and it.pattern.fullmatch(line.name[5:]):
                return it.name if self.learned.setdefault(line.name, it.name) == it.name else line.name
        if line.name.startswith("task."):
            (self.given if line.operation == "w" else self.taken).setdefault(line.name, line)
            return None
        if line.operation == "w":
            self.writers[line.name] = line.thread
            return None
        # The JDK's own tasks, as those of a search in a map, end in the thread that looks at their results.
        return None if self.writers.get(line.name) in (None, line.thread) else "done.T%s" % self.writers[line.name]

    def missing_tasks(self, comparison):
        """Returns the differences of tasks: each one that a thread gives to another is taken by that, and before it does anything."""
        for step in self.program.trace.steps:
            if step.operation != "fork" or not self.program.starts[step.target].is_given:
                continue
            given = [name for name, line in self.given.items() if line.thread == step.thread and self.taken.get(name) and self.taken[name].thread == step.target]
            if not [name for name in given if self.given[name].number < self.taken[name].number]:
                yield Difference("missing", step, comparison.group_of[step.number].how, "a task that is given and taken", "given by %s, taken by %s" % (
                    sorted({line.thread for line in self.given.values()}), sorted({line.thread for line in self.taken.values()})))

    def may_read(self, variable):
        return False

    def wider(self, variable, operation, lines, step):
        return set()


def without_overflows(lines):
    """Yields the lines of a log without the blocks and monitors of Deep.java, as far as each of them ends again."""
    open_blocks, held = {}, {}
    for line in lines:
        stack = open_blocks.setdefault(line.thread, [])
        if line.operation == "begin":
            stack.append(bool(DEEP.match(line.name)))
            if stack[-1]:
                continue
        elif line.operation == "end" and stack and stack.pop():
            continue
        elif line.operation in ("acq", "rel") and DEEP.match(line.name):
            held[line.thread] = held.get(line.thread, 0) + (1 if line.operation == "acq" else -1)
            if held[line.thread] >= 0:
                continue
        elif held.get(line.thread) and MARK.match(line.name or ""):
            yield Line(line.number, line.thread, "acq", "a monitor that is held when the next step begins")
        yield line
