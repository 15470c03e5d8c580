"""What the drivers of all languages share: commands, verdicts and the folder of a program."""
import os
import re
import shutil
import subprocess

from compare import Difference

HERE = os.path.dirname(os.path.abspath(__file__))


class CannotRun(Exception):
    """Something that the programs need can't be run or compiled."""


def call(words, settings=None, seconds=300, folder=None):
    """Runs a command, with these settings in its environment, and returns its status and the texts that it wrote."""
    environment = {name: value for name, value in os.environ.items() if not name.startswith("AERODROME_")}
    environment.update(settings or {})
    try:
        done = subprocess.run(words, stdin=subprocess.DEVNULL, stdout=subprocess.PIPE, stderr=subprocess.PIPE, universal_newlines=True,
                              errors="replace", env=environment, timeout=seconds, cwd=folder)
    except OSError as error:
        raise CannotRun("%s: %s" % (words[0], error))
    except subprocess.TimeoutExpired:
        return 124, "", "not ended after %d seconds" % seconds
    return done.returncode, done.stdout, done.stderr


def built(words, settings=None, folder=None):
    """Runs a command that has to succeed."""
    status, out, err = call(words, settings, folder=folder)
    if status:
        raise CannotRun("%s: status %d\n%s" % (" ".join(words), status, (out + err)[:4000]))


def fresh(folder):
    shutil.rmtree(folder, True)
    os.makedirs(folder)
    return folder


def write(path, text):
    with open(path, "w") as file:
        file.write(text)


def verdict_of(checker, path):
    """Returns the verdict on a trace, and the line of a violation."""
    _, out, err = call(checker + [path])
    match = re.search(r"violation at line (\d+)", out)
    if match:
        return "violation", int(match[1])
    match = re.search(r"^traces 1: serializable (\d+), open (\d+), violations 0, faults 0$", out, re.MULTILINE)
    if not match:
        return "a fault: " + (out + err)[:300], None
    return ("serializable" if match[1] == "1" else "open blocks"), None


def compare_verdicts(checker, expected, found, program, comparison):
    """Returns how the verdict on a log differs from that on the trace, whose lines have the steps `program.lines()`."""
    if not checker:
        return []
    (wanted, line), (verdict, at) = verdict_of(checker, expected), verdict_of(checker, found)
    if wanted != verdict:
        return [Difference("another verdict", None, "the checker", wanted, verdict)]
    if line is None:
        return []
    step = [step for step, _ in program.lines()][line - 1]
    group = comparison.group_of[step.number]
    if comparison.step_of_line.get(at) in [one.number for one in group.steps]:
        return []
    return [Difference("violation at another event", step, group.how, "in its step", "line %d of the log" % at)]
