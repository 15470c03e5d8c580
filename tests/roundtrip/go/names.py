"""The lines of a log of Go in the order of the trace's steps, and which variables and locks its names are."""
import re

from go.events import FIRST_TIMER

MARK = re.compile(r"^main\.marks(?:\+(\d+))?$")
#: The first mark of a goroutine that follows a step, and of one that has no steps any more. Those of steps are below.
FOLLOWED, ENDED = 4000, 8000
#: Names of messages, of calls of Done and of goroutines' numbers that are used again, in the log and in the trace.
MESSAGE = re.compile(r"^(.*~\d*|go\.T\d+)$")
MESSAGES = re.compile(r"^(queue|message|latch|rounds|channel|timer)\d+\.|^fork\.")
#: Variables that programs have beside those of the trace, such as those that contain channels, and those of package time.
BESIDE = re.compile(r"^main\.(t\d+_(join|queue|message|cond|latch|rounds|channel|timer)\d+|held)$|^time\.\w+$")


class Names:
    def __init__(self, program):
        self.program, self.learned, self.bound, self.writers = program, {}, set(), {}

    def events(self, steps):
        """Returns the events of steps, each with its step and its thread."""
        return [(step, operation, name, thread[0] if thread else step.thread) for step in steps for operation, name, *thread in self.program.events[step.number]]

    def windows(self, lines):
        """Returns for each step its lines, with the numbers that threads have in the trace.

        A begin is logged just before the first event of its block, so it goes to the step of the thread's next begin.
        """
        events = self.events(self.program.trace.steps)
        forks = [step.target for step, operation, _, _ in events if operation == "fork"]
        begins = {thread: [step.number for step, operation, _, by in events if operation == "begin" and by == thread] for thread in [1] + forks}
        timers = sorted({thread for step, _, _, thread in events if thread != step.thread and thread >= FIRST_TIMER})
        numbers, windows, current, ended = {1: 1}, {}, -1, set()
        if not self.program.has_quiet_moments:
            forks.insert(0, 0)
        for line in lines:
            mark = MARK.match(line.name or "") if line.operation == "w" else None
            if line.thread not in numbers and line.operation == "r" and MESSAGE.match(line.name) and timers:
                numbers[line.thread] = timers.pop(0)
            line.thread = numbers.get(line.thread, -1)
            number = int(mark[1] or 0) // 8 if mark else None
            if mark and number >= ENDED:
                ended.add(line.thread)
            elif mark and number < FOLLOWED:
                current = number
            elif line.thread in ended and line.operation == "w":
                self.writers.setdefault(line.name, line.thread)
            if mark or line.thread in ended:
                continue
            again = line.operation == "w" and line.name.startswith("go.T")
            if line.operation == "fork" or again:
                target = forks.pop(0) if forks else -1
                numbers[int(line.name[4:] if again else line.name[1:])] = target
                line.operation, line.name = "fork", "T%d" % target
            if line.thread == 0 or line.name == "T0":
                continue                # the keeper
            at = begins[line.thread].pop(0) if line.operation == "begin" and begins.get(line.thread) else current
            windows.setdefault(min(at, current), []).append(line)
        return windows

    def thing(self, line, group):
        """Returns what the trace calls the thing of a line, or None if it isn't the trace's."""
        if line.operation in ("begin", "end", "fork", "join", "no event") or line.name is None:
            return line.name
        if line.name in self.learned:
            return self.learned[line.name]
        if line.operation == "w":
            self.writers.setdefault(line.name, line.thread)
        for _, operation, name, thread in self.events(group.steps):
            if operation == line.operation and self.may_be(line, thread, name):
                if not name.startswith("ends."):
                    self.learned[line.name] = name
                    self.bound.add(name)
                return name
        return None

    def may_be(self, line, thread, name):
        """Returns whether a new name may be that of an event of the thread."""
        if line.thread != thread or BESIDE.match(line.name):
            return False
        if name.startswith("ends."):
            return "T%s" % self.writers.get(line.name) == name[5:]
        if name in self.program.variables:
            return not MESSAGE.match(line.name)
        return name not in self.bound and bool(MESSAGE.match(line.name)) == bool(MESSAGES.match(name))

    def may_read(self, variable):
        """Returns whether a write of the variable may read it too: one of a map reads the map."""
        return self.program.variables[variable].place.name == "a map"

    def wider(self, variable, operation, lines, step):
        """Returns the reads of eight bytes that were only copied so far, by the first write of one of their parts."""
        return {(line.name, "r") for line in lines if (operation, line.operation) == ("w", "r") and line.name.endswith(":8")
                and self.learned.get(line.name) == variable}
