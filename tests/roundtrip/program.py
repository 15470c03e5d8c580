"""What the programs of all languages have in common: how realisations are drawn, and what is known of the trace."""
import re
import string
from collections import namedtuple

import known

#: A realisation. `needs` are words: each has to be a trait of the thing that is realised, or, after a minus, none.
Form = namedtuple("Form", "name text needs weight")


def forms(rows):
    """Returns the forms of rows (name, text, needs, weight), of which the last two may be left out."""
    return [Form(*(tuple(row) + ("", 1)[len(row) - 2:])) for row in rows]


def fits(needs, traits):
    """Returns whether a thing with these traits has what a form needs."""
    return all((one[1:] not in traits) if one.startswith("-") else any(each in traits for each in one.split("|")) for one in needs.split())


class Group:
    """Steps that one piece of code realises, and the name of the way in which it does."""

    def __init__(self, steps, how):
        self.steps, self.how = steps, how


class Thing:
    """A variable, a lock or another thing of the trace, with its number, name and traits, and more that a language adds."""

    def __init__(self, number, name):
        self.number, self.name, self.traits = number, name, set()


class Program:
    """A program that executes a trace. `left_out` is a predicate on names of realisations."""

    language = ""

    def __init__(self, trace, random, traits, limits=False):
        self.trace, self.random, self.traits, self.limits = trace, random, set(traits), limits
        self.groups, self.names_used, self.grouped_meetings = [], 0, {}
        self.owners = self.holders()
        self.block_of = self.blocks()
        self.leaving = {}

    def left_out(self, name):
        return not self.limits and known.is_known(self.language, self.traits, name)

    def may_lack(self, step):
        """Returns whether the log may lack an access, as settings of the logger ask for."""
        return False

    def choose(self, table, traits, words=None):
        """Draws a form from those of the table that fit. Returns its name and its text with these words."""
        form = self.draw(table, traits)
        return form.name, string.Template(form.text).substitute(words or {})

    def draw(self, table, traits):
        traits = self.traits | set(traits)
        possible = [one for one in table if fits(one.needs, traits) and not self.left_out(one.name)]
        if not possible:
            raise LookupError("no form for %s" % sorted(traits))
        return self.random.choices(possible, [one.weight for one in possible])[0]

    def chance(self, probability):
        return self.random.random() < probability

    def new_name(self, prefix):
        self.names_used += 1
        return "%s%d" % (prefix, self.names_used)

    def holders(self):
        """Returns for each step the acquires of each lock that have no release before it."""
        now, states = {name: [] for name in self.trace.locks}, []
        for step in self.trace.steps:
            states.append({name: list(acquires) for name, acquires in now.items()})
            if step.operation in ("acq", "racq"):
                now[step.target].append(step)
            elif step.operation in ("rel", "rrel"):
                now[step.target].remove(step.partner)
        return states

    def held_by_others(self, step):
        """Returns the locks that only other threads hold."""
        return [name for name, acquires in self.owners[step.number].items()
                if acquires and all(one.thread != step.thread for one in acquires)]

    def blocks(self):
        """Returns for each step the number of the begin of the innermost block around it, or None."""
        result, open_blocks = {}, {}
        for step in self.trace.steps:
            stack = open_blocks.setdefault(step.thread, [])
            if step.operation == "end":
                stack.pop()
            result[step.number] = stack[-1] if stack else None
            if step.operation == "begin":
                stack.append(step.number)
        return result

    def steps_of(self, thread):
        return [step for step in self.trace.steps if step.thread == thread]

    def plan_ends(self, modes):
        """Decides how blocks are left. `leaving` has for an end its mode and the numbers of the ends that are made at once.

        `modes` are pairs of a name and a weight; "tail" (the last act of one block is the call of the next) wants two ends.
        """
        steps, at = self.trace.steps, 0
        while at < len(steps):
            run = []
            while at < len(steps) and steps[at].operation == "end" and (not run or steps[at].thread == run[0].thread):
                run.append(steps[at])
                at += 1
            if not run:
                at += 1
            while run:
                mode, count = self.plan_run(run, modes)
                for step in run[:count]:
                    self.leaving[step.number] = mode, [one.number for one in run[:count]]
                self.groups.append(Group(run[:count], "blocks left by " + mode))
                run = run[count:]

    def plan_run(self, run, modes):
        """Returns how the first blocks of a run of ends are left, and how many of them are left at once."""
        if run[0].at_exit:
            return "exit", len(run)
        if run[0].meeting:
            return "last act", len(run)
        count = self.random.randint(1, len(run))
        possible = [(mode, weight) for mode, weight in modes if mode != "tail" or count > 1]
        mode = self.random.choices([one for one, _ in possible], [one for _, one in possible])[0]
        return mode, 1 if mode == "return" else count

    def next_if_near(self, steps, at):
        """Returns the thread's step behind number `at` if no other thread has one in between."""
        if at + 1 < len(steps) and steps[at + 1].number == steps[at].number + 1 and not steps[at + 1].meeting:
            return steps[at + 1]
        return None

    def releases_in_order(self, step, scopes):
        """Returns whether an acquire and its release can be the two ends of a scope within the open ones of a function."""
        release = step.partner
        if not release or step.meeting or release.meeting or self.block_of[step.number] != self.block_of[release.number]:
            return False
        return not scopes or scopes[-1] > release.number


class Body:
    """The text of a thread's function: `lines` are those of its innermost open block.

    A language sets its modules `blocks`, `locks`, `threads` and `variables`, and says how it writes a step (`turn`, `done` and `at_turn`),
    an acquire, a release, an end and a meeting. Each `add_` adds a step, maybe with the one behind it, and returns how many were added.
    """

    blocks = locks = threads = variables = None

    def __init__(self, program, thread):
        self.program, self.thread = program, thread
        self.lines, self.stack = [], []
        self.steps = program.steps_of(thread)
        at = 0
        while at < len(self.steps):
            at += self.add(at)

    def group(self, steps, how):
        self.program.groups.append(Group(steps, how))

    def add(self, at):
        step, near = self.steps[at], self.program.next_if_near(self.steps, at)
        if step.meeting:
            return self.add_meeting(step)
        if step.operation == "begin":
            return self.add_begin(step)
        if step.operation == "end":
            return self.add_end(step)
        if step.operation in ("r", "w"):
            return self.add_access(step, near)
        if step.operation in ("acq", "racq"):
            return self.add_acquire(step)
        if step.operation in ("rel", "rrel"):
            return self.add_release(step, near)
        return self.add_steps([step], *self.other(step))

    def other(self, step):
        """Returns the name and the text of a step on a thread or on a thing that is no variable and no lock, or of one without events."""
        program = self.program
        if step.operation == "fork":
            return self.threads.fork(program, step)
        if step.operation == "join":
            return self.threads.join(program, step)
        if step.operation == "nop":
            return (self.locks.fail(program, step) if program.chance(0.7) else None) or program.choose(self.threads.NOTHING, ())
        it = program.others[step.target]
        return program.choose(it.kind.operations[step.operation], (), dict(it.words, item=step.number))

    def add_steps(self, steps, how, text):
        """Adds steps that one text does."""
        self.group(steps, how)
        self.lines.append(self.at_turn(steps[0].number, text, steps[-1].number))
        return len(steps)

    def add_begin(self, step):
        kind = self.blocks.choose_kind(self.program, step)
        self.stack.append((step, kind, self.lines))
        self.lines = [self.done(step.number)]
        self.group([step], "a block that is " + kind.name)
        return 1

    def add_access(self, step, near):
        program, it = self.program, self.program.variables[step.target]
        done = None
        if near and step.operation == "r" and near.operation == "w" and near.target == step.target and program.chance(0.7):
            done = self.variables.change(program, it)
        how, text = done or (self.variables.read if step.operation == "r" else self.variables.write)(program, it)
        return self.add_steps([step, near] if done else [step], "%s, x being %s in %s" % (how, it.type, it.place.name), text)

    def add_meeting(self, step):
        """Adds what this thread does in a meeting. The first of its threads makes the group."""
        program, meeting = self.program, step.meeting
        parts = program.grouped_meetings.get(id(meeting))
        if not parts:
            how, parts = self.meet(meeting)
            program.grouped_meetings[id(meeting)] = parts
            self.group(meeting.steps, how)
        self.lines.append(parts[self.thread])
        return len([one for one in meeting.steps if one.thread == self.thread and one.operation != "end"])
