"""Compiles, runs and compares programs in Java."""
import os
import random
import re
import shutil
from concurrent.futures import ThreadPoolExecutor

import compare
import driver
from java.names import Names, without_overflows
from java.program import JavaProgram
from traces import Trace

FEATURES = ("twice", "semaphore", "latch", "queue", "barrier", "message", "condition", "deque", "adder", "map", "future", "exchange", "park",
            "again", "permits", "looks", "scopes")
QUICK = ["-XX:+UseSerialGC", "-XX:TieredStopAtLevel=1"]
FILES = ("Stage", "Mark", "Twin", "Deep", "Own")
NO_BLOCKS = "main,run,call,<init>,<clinit>,lower,holding,lock,unlock,tryLock,lockInterruptibly,newCondition,Mark.step,$p.thread*,$p.body*,$p.lambda$*,B*,Twin.*,Own$*"


def compiled(program, folder):
    for name in FILES:
        shutil.copy(os.path.join(driver.HERE, "java", name + ".java"), folder)
    driver.write("%s/%s.java" % (folder, program.name), program.text())
    driver.built(["javac", "-nowarn"] + ["-J" + one for one in QUICK] + ["-d", folder] + [
        "%s/%s.java" % (folder, name) for name in (program.name,) + FILES])


def differences_of(options, seed, folder):
    """Makes, compiles and runs the program of a seed, and returns the differences of its log from the trace."""
    source = random.Random("java %d %d" % (seed, options.size))
    trace = Trace(source, source.randint(10, 2 * options.size), FEATURES)
    program = JavaProgram(trace, source, "P%d" % seed, options.limits)
    folder = driver.fresh(folder)
    driver.write(folder + "/trace.std", "".join(line + "\n" for _, line in program.lines()))
    compiled(program, folder)
    agent = "%s/lib/aerodrome/aerodrome-agent.jar" % options.tree
    wanted = "log=%s/marked.log,skip=Stage,blocks=-%s" % (folder, ",".join([NO_BLOCKS.replace("$p", program.name)] + program.no_blocks))
    status, _, said = driver.call(["java"] + QUICK + (options.flags or "").split() + ["-cp", folder, "-javaagent:%s=%s" % (agent, wanted), program.name],
                                  {"STAGE_MARKS": "1"})
    said = "\n".join(line for line in said.splitlines() if not re.search("no method is called|no block is logged", line))
    if status or said:
        return [compare.Difference("failure", None, "the run", "status 0", "status %d %s" % (status, said[:900]))]
    names = Names(program)
    lines = without_overflows(compare.lines_of(folder + "/marked.log"))
    comparison = compare.Comparison(trace, program, compare.windows_of(lines, names.step_of_mark), names)
    found = comparison.run() + list(names.missing_tasks(comparison))
    return found + driver.compare_verdicts(options.checker, folder + "/trace.std", folder + "/marked.log", program, comparison)


def run(options, seeds):
    """Yields the seeds, with the folder and the differences of each."""
    os.makedirs(options.folder, exist_ok=True)
    folders = {seed: os.path.join(options.folder, "java-%d" % seed) for seed in seeds}
    with ThreadPoolExecutor(options.jobs) as pool:
        for seed, found in zip(seeds, pool.map(lambda seed: differences_of(options, seed, folders[seed]), seeds)):
            yield seed, folders[seed], found
