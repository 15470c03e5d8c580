"""Compiles, runs and compares programs in C and C++."""
import os
import random
import re
from concurrent.futures import ThreadPoolExecutor

import compare
import driver
from c import names, threads
from c.program import CProgram
from traces import Trace

FLAGS = ["-O2", "-O0", "-O1", "-O3", "-Os", "-O2 -D_FORTIFY_SOURCE=2", "-O2 -flto", "-O2 -fPIC"]
STANDARDS = {"c": ["17", "11"], "c++": ["17", "20", "11", "14", "20", "17"]}
FEATURES = ("twice", "semaphore", "spare", "once", "barrier", "condition", "bytes", "handed", "sync", "frame")
SPLITS = ["waits", "threads", "waits,threads"]
#: What the logger says, once, if a thread unlocks a mutex that another one has locked.
HANDED = re.compile(r"aerodrome-log: \S+: a thread unlocks the mutex that another one has locked: the log has w\(\.\.handed\) for it from here on\n")
COMPILERS = {"gcc": {"AERODROME_CC": "gcc", "AERODROME_CXX": "g++"}, "clang": {"AERODROME_CC": "clang", "AERODROME_CXX": "clang++"}}


#: The forms that access all bytes of a variable.
WHOLE = re.compile(r"(__builtin_)?mem(cpy|move|set)|mempcpy|bcopy|bzero|strncpy|structure = (\*p|local|\{)|local = structure")


class CComparison(compare.Comparison):
    """Also compares that each thread has its events between its fork and its join, and that an access to all bytes of a variable is logged
    for each eight of them. One in a frame may have several lines.
    """

    def run(self):
        lines = sorted((line for window in self.windows.values() for line in window), key=lambda line: line.number)
        super().run()
        for thread in self.program.starts:
            mine = [line.number for line in lines if line.thread == thread]
            at = {line.operation: line.number for line in lines if line.name == "T%d" % thread}
            if mine and not at.get("fork", 0) < mine[0] <= mine[-1] < at.get("join", float("inf")):
                self.differ("order of threads", None, "the events of T%d behind its fork and before its join" % thread, at, "threads")
        return self.differences

    def compare_ordered(self, group, ordered):
        meeting = group.steps[0].meeting
        if meeting and meeting.kind == "frame":
            events = [(line.thread, line.operation, thing) for line, thing in ordered]
            ordered = [one for at, one in enumerate(ordered) if not at or events[at] != events[at - 1]]
        if meeting and meeting.kind == "condition":
            # Blocks that a wait has split begin before the lock is had again, at any time.
            again = [(line, thing) for line, thing in ordered if line.operation == "begin"]
            ordered = [one for one in ordered if one not in again]
            ordered[-1:-1] = again
        super().compare_ordered(group, ordered)

    def compare_accesses(self, group, accesses, lines):
        super().compare_accesses(group, accesses, lines)
        for step in group.steps if WHOLE.match(group.how) and not self.program.grain else ():
            missing = self.names.lacking(step, lines) if step.target in self.variables else None
            if missing is not None:
                self.differ("bytes missing", step, "all of %s" % step.target, "none of those from byte %d" % missing)


class Choice:
    """How the program of a seed is compiled. What the options leave open is the seed's."""

    def __init__(self, options, seed):
        self.language, self.compiler = options.language, options.compiler
        self.flags = (FLAGS[seed % len(FLAGS)] if options.flags is None else options.flags).split()
        self.standard = options.std or STANDARDS[self.language][seed % len(STANDARDS[self.language])]
        self.library = options.library or seed % 4 == 3
        self.objects = (options.objects if options.objects is not None else (0, 5)[seed % 2]) if self.language == "c++" else 0
        self.loads = self.library and seed % 8 == 7
        self.settings = settings_of(seed)
        self.suffix = "cc" if self.language == "c++" else "c"
        self.wrapper = os.path.join(options.tree, "bin", "aerodrome-c++" if self.language == "c++" else "aerodrome-cc")

    def traits(self):
        known = [self.language + one for one in ("11", "14", "17", "20") if int(one) <= int(self.standard)] if self.language == "c++" else []
        return {self.language, self.compiler} | set(known) | ({"dlopen" if self.loads else "library"} if self.library else set())

    def words(self):
        return [self.wrapper] + self.flags + ["-std=gnu%s%s" % ("++" if self.language == "c++" else "", self.standard), "-w", "-I", driver.HERE + "/c"]


def settings_of(seed):
    """Returns what the environment of a seed's program sets. AERODROME_STIR and AERODROME_PLACES change no event."""
    settings = {}
    if seed % 5 == 2:
        settings["AERODROME_GRAIN"] = str(1 << seed // 5 % 4)
    if seed % 7 in (1, 4):
        settings["AERODROME_SPLIT"] = SPLITS[seed // 7 % len(SPLITS)]
    if seed % 6 == 5:
        settings["AERODROME_STIR"] = str(seed)
    if seed % 9 == 3:
        settings["AERODROME_PLACES"] = "0"
    return settings


def program_of(options, seed):
    """Returns how a seed's program is compiled, its trace and the program."""
    choice = Choice(options, seed)
    source = random.Random("%s %d %d" % (options.language, seed, options.size))
    # A thread that leaves by pthread_exit throws in C++, and exit there ends variables that others still use.
    features = FEATURES + (("exit", "exit of main", "left") if options.language == "c" else ())
    trace = Trace(source, source.randint(10, 2 * options.size), features)
    splits, grain = choice.settings.get("AERODROME_SPLIT", "").split(","), int(choice.settings.get("AERODROME_GRAIN", 0))
    return choice, trace, CProgram(trace, source, choice.traits(), options.limits, choice.objects, splits, grain)


def compiled(choice, program, folder, scheduler):
    """Compiles a program and its library."""
    text, library = program.text()
    source = "%s/program.%s" % (folder, choice.suffix)
    driver.write(source, text)
    libraries = []
    if library:
        libraries = ["%s/library.so" % folder]
        driver.write("%s/library.%s" % (folder, choice.suffix), library)
        driver.built(choice.words() + ["-fPIC", "-shared", "%s/library.%s" % (folder, choice.suffix), "-o", libraries[0]], COMPILERS[choice.compiler])
    # (a library that dlopen loads calls the scheduler)
    linked = ["-rdynamic", "-ldl"] if choice.loads else libraries
    driver.built(choice.words() + [source, scheduler] + linked + ["-o", folder + "/program", "-lm", "-latomic", "-pthread"], COMPILERS[choice.compiler])


def run_once(choice, program, folder, marked):
    """Runs a program under the logger, and returns the differences if it fails or says something else than it has to."""
    name = "marked" if marked else "plain"
    settings = dict(choice.settings, AERODROME_LOG="%s/%s.log" % (folder, name), STAGE_TABLE="%s/%s.table" % (folder, name),
                    AERODROME_BLOCKS="-" + ",".join(["aside_*"] + threads.beside(program)), STAGE_LIBRARY=folder + "/library.so")
    if marked:
        settings["STAGE_MARKS"] = "1"
    status, _, said = driver.call([folder + "/program"], settings)
    is_said = HANDED.fullmatch(said) if program.hands_on() else not said
    if status or not is_said:
        wanted = "status 0" + " and a line on a mutex that is handed on" * program.hands_on()
        return [compare.Difference("failure", None, name + " run", wanted, "status %d %s" % (status, said[:500]))]
    return []


def differences_of(options, seed, folder, scheduler):
    """Makes, compiles and runs the program of a seed, and returns the differences of its log from the trace."""
    choice, trace, program = program_of(options, seed)
    folder = driver.fresh(folder)
    driver.write(folder + "/trace.std", "".join(line + "\n" for _, line in program.lines()))
    compiled(choice, program, folder, scheduler)
    failures = run_once(choice, program, folder, True) + run_once(choice, program, folder, False)
    if failures:
        return failures
    symbols = names.symbols_of(folder + "/program", program.left_out("a static local called like its function"))
    marked, plain = [names.Names(program, "%s/%s.table" % (folder, name), symbols) for name in ("marked", "plain")]
    lines = list(compare.lines_of(folder + "/marked.log"))
    comparison = CComparison(trace, program, compare.windows_of(lines, marked.step_of_mark), marked)
    found = comparison.run()
    found += driver.compare_verdicts(options.checker, folder + "/trace.std", folder + "/marked.log", program, comparison)
    return found or same_without_marks(program, lines, list(compare.lines_of(folder + "/plain.log")), marked, plain)


def same_without_marks(program, lines, others, marked, plain):
    """Returns how a log without marks differs from the one with marks, in the order of the events of all things that last."""
    marked.lasting()
    plain.lasting()
    group = program.groups[0]
    if any(step.meeting for step in program.trace.steps) or any(step.at_exit for step in program.trace.steps):
        # What happens at once may come in another order.
        key = lambda events: sorted(events, key=str)
    else:
        key = list
    one, other = key(compare.projection(lines, marked, group)), key(compare.projection(others, plain, group))
    if one == other:
        return []
    at = next((at for at in range(min(len(one), len(other))) if one[at] != other[at]), min(len(one), len(other)))
    return [compare.Difference("another log without marks", None, "event %d" % at, one[at:at + 2], other[at:at + 2])]


def run(options, seeds):
    """Yields the seeds, with the folder and the differences of each."""
    os.makedirs(options.folder, exist_ok=True)
    scheduler = os.path.join(options.folder, "scheduler-%s.o" % options.language)
    driver.built(["gcc", "-O1", "-fPIC", "-c", driver.HERE + "/c/scheduler.c", "-o", scheduler])
    folders = {seed: os.path.join(options.folder, "%s-%d" % ("cxx" if options.language == "c++" else "c", seed)) for seed in seeds}
    with ThreadPoolExecutor(options.jobs) as pool:
        for seed, found in zip(seeds, pool.map(lambda seed: differences_of(options, seed, folders[seed], scheduler), seeds)):
            yield seed, folders[seed], found
