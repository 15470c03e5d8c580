"""Compiles, runs and compares programs in Go. All traces are functions of one program, as go takes most of the time."""
import random
from concurrent.futures import ThreadPoolExecutor

import compare
import driver
from go.names import Names
from go.program import GoProgram
from traces import Trace

#: What traces may have beside variables, locks and blocks, some of it twice as often. Each has a part of it, so that it has more of that.
FEATURES = ("once", "queue", "message", "condition", "latch", "rounds", "rounds", "channel", "channel", "handed", "timer")
HEAD = "package main\n\nimport (\n\t\"runtime\"\n\t\"sync\"\n\t\"sync/atomic\"\n\t\"time\"\n\t\"unsafe\"\n)\n\nvar _ = runtime.Gosched\n" \
    "var _ sync.Mutex\nvar _ atomic.Int64\nvar _ time.Time\nvar _ unsafe.Pointer\n\n"


def program_of(options, seed):
    source = random.Random("go %d %d" % (seed, options.size))
    size, features = source.randint(10, 2 * options.size), source.sample(FEATURES, 3)
    trace = Trace(source, size, features + ["exit", "shared condition", "waiters"], often=source.choice((1, 4, 4)))
    return trace, GoProgram(trace, source, seed, options.limits)


def differences_of(options, seed, trace, program, folder):
    """Runs the program for the trace of a seed, and returns the differences of its log from the trace."""
    folder = driver.fresh(folder)
    driver.write(folder + "/trace.std", "".join(line + "\n" for _, line in program.lines()))
    driver.write(folder + "/functions.go", program.text())
    driver.write(folder + "/settings", "".join("%s=%s\n" % one for one in sorted(program.settings.items())))
    settings = dict(program.settings, AERODROME_LOG=folder + "/marked.log", AERODROME_BLOCKS=program.no_blocks(), STAGE_MARKS="1",
                    STAGE_TRACE=str(seed))
    status, _, said = driver.call([options.folder + "/go/program"], settings)
    if status or (said and "no block is logged" not in said):
        return [compare.Difference("failure", None, "the run", "status 0", "status %d %s" % (status, said[:900]))]
    names = Names(program)
    comparison = compare.Comparison(trace, program, names.windows(compare.lines_of(folder + "/marked.log")), names)
    found = comparison.run()
    if not program.has_certain_verdict():
        return found
    return found + driver.compare_verdicts(options.checker, folder + "/trace.std", folder + "/marked.log", program, comparison)


def run(options, seeds):
    """Yields the seeds, with the folder and the differences of each."""
    made = {seed: program_of(options, seed) for seed in seeds}
    source = driver.fresh(options.folder + "/go")
    with open(driver.HERE + "/go/stage.go") as file:
        driver.write(source + "/stage.go", file.read())
    calls = "".join("\t%d: t%d_body1,\n" % (seed, seed) for seed in seeds)
    driver.write(source + "/traces.go", HEAD + "var traces = map[int]func(){\n%s}\n\n" % calls + "".join(program.text() for _, program in made.values()))
    driver.built([options.tree + "/bin/aerodrome-go", "build"] + (["-gcflags=" + options.flags] if options.flags else []) + [
        "-o", "program", "stage.go", "traces.go"], folder=source)
    folders = {seed: "%s/go-%d" % (options.folder, seed) for seed in seeds}
    with ThreadPoolExecutor(options.jobs) as pool:
        for seed, found in zip(seeds, pool.map(lambda seed: differences_of(options, seed, *made[seed], folders[seed]), seeds)):
            yield seed, folders[seed], found
