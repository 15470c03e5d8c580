"""What scripts of tools/ know of the kit: its command as a module, which of its lines are routine, which crates crates.txt has, which
processes are the prover's, and which libraries the last `rt ci` proved; and how a time is written."""
import functools
import hashlib
import importlib.machinery
import importlib.util
import inspect
import os
import re
import shutil
from typing import NamedTuple

NO_RT = (
    "no command rt on the path. It belongs to the Rattle kit, which isn't public: docs/install.md names its versions, and whom to ask. "
    "Then put the kit's folder bin/ on your path. "
    "`make logger` and `make java` don't need it."
)

# What a command of the kit says where all is well. Any other line is shown.
ROUTINE = re.compile(
    r"(statements|library|crate) \S+: modules loaded=\d+ checked=\d+( .*)?$"
    r"|logic \S+: libraries=\d+ "
    r"|logic=proved "
    r"|only=\d+ proved=\d+$"
    r"|by-macro: \S+ blocks=[1-9]\d*$"
    r"|so far: "
    r"|(struct|enum|union|trait|impl|fn|const|static|mod|type) \S+: proved(, may wait)?$"
    r"|empty contracts: 0 found; "
    r"|rt: chose --jobs "
    r"|rt: must-fail \S+: refused, as it must be(: .*)?$"
    r"|\w+: \d+ (twins pass|refused), in \d+ s: "
    r"|test \S+ \.\.\. ok$"
    r"|running \d+ tests?$"
    r"|test result: ok\."
    r"|$"
)


def rt_module():
    """The kit's command rt as a module, so that a script does with a crate what the gate does."""
    path = os.path.realpath(shutil.which("rt"))
    loader = importlib.machinery.SourceFileLoader("rt_command", path)
    made = importlib.util.module_from_spec(importlib.util.spec_from_loader("rt_command", loader))
    loader.exec_module(made)
    return made


def keep_stamps(crate):
    """Has each crate below work out the sum of its files once, and not once more for each way that leads to it (for aero_program 2,338
    times, 17 seconds). All are locked; where a file changes even so, the sum is of what it was, and the next run proves again."""
    for below in crate.below() if hasattr(crate, "below") else []:
        if hasattr(below, "stamp") and "stamp" not in vars(below) and not inspect.signature(below.stamp).parameters:
            below.stamp = functools.partial(str, below.stamp())


def is_routine(line):
    return bool(ROUTINE.match(line))


# What tools/ci notes of the crates that the last `rt ci` proved: a crate, the sum of its text, and what its library was then.
NOTED = "out/proved-by-ci"


def text_sum(crate):
    """A sum of all that the crate's proof is made from, but for the crates below it."""
    made = hashlib.sha256()
    for part in ("src", "specs", "proofs"):
        for at, folders, names in os.walk(f"crates/{crate}/{part}"):
            folders.sort()
            for name in sorted(names):
                with open(f"{at}/{name}", "rb") as it:
                    made.update(repr((f"{at}/{name}", it.read())).encode())
    return made.hexdigest()


def library_mark(crate):
    """What the crate's library in out/ is, or an empty text where there is none, or one that has the kit's own stamp."""
    top, made = f"crates/{crate}/out/rlib", hashlib.sha256()
    if not os.path.isdir(f"{top}/{crate}.rlib") or os.path.exists(f"{top}/stamp"):
        return ""
    for at, folders, names in os.walk(top):
        folders.sort()
        for name in sorted(names):
            it = os.stat(f"{at}/{name}")
            made.update(repr((at, name, it.st_size, it.st_mtime_ns, it.st_ino)).encode())
    return made.hexdigest()


def proved_by_ci():
    """The crates whose library in out/ is still the one that the last `rt ci` proved, from the text that stands there now. Such a library
    has no stamp of the kit's: it has statements alone, and fits only the others of that run. The prover refuses any mix."""
    try:
        with open(NOTED, encoding="utf-8") as it:
            first, *lines = it.read().splitlines()
        with open("crates.txt", "rb") as it:
            is_same = first == hashlib.sha256(it.read()).hexdigest()
    except (OSError, ValueError):
        return set()
    rows = [it.split() for it in lines if is_same]
    return {crate for crate, text, mark in rows if text_sum(crate) == text and library_mark(crate) == mark}


def are_proved_by_ci(crates):
    """Whether the last `rt ci` proved the libraries of all these crates, and they are still there."""
    return proved_by_ci().issuperset(crates)


# The memory that a process of the prover may take.
NEED = 4 << 30


def places(rt):
    """How many processes of the prover may work at once, by the kit's own count: one a processor, and one for each 4 GB of free memory."""
    return max(1, min(rt.processors(), rt.free() // NEED))


def uses_of(path):
    """What each crate of crates.txt stands on, of the crates there, in the file's order."""
    with open(path, encoding="utf-8") as it:
        lines = [line.partition("#")[0].partition(":") for line in it]
    said = {head.split()[0]: rest.split() for head, _, rest in lines if head.split()}
    return {name: [it for it in rest if it in said] for name, rest in said.items()}


def time_of(seconds):
    """A time in words, as in 1 min 20 s."""
    seconds = int(seconds)
    return f"{seconds // 60} min {seconds % 60} s" if seconds >= 60 else f"{seconds} s"


class Process(NamedTuple):
    parent: int
    began: str
    seconds: float  # of processors


def processes():
    """Each process by its number."""
    found = {}
    for pid in filter(str.isdigit, os.listdir("/proc") if os.path.isdir("/proc") else []):
        try:
            with open(f"/proc/{pid}/stat", encoding="utf-8", errors="replace") as it:
                words = it.read().rsplit(")", 1)[1].split()
            found[int(pid)] = Process(int(words[1]), words[19], (int(words[11]) + int(words[12])) / os.sysconf("SC_CLK_TCK"))
        except (OSError, ValueError, IndexError):
            # (ended meanwhile)
            pass
    return found


def is_below(pid, top, found):
    """Whether the process is top, or was started by it or by one that it started."""
    while pid in found and pid != top:
        pid = found[pid].parent
    return pid == top


def prover_words(pid):
    """The command line of a process of the prover, and none of any other process."""
    try:
        with open(f"/proc/{pid}/cmdline", "rb") as it:
            words = it.read().decode(errors="replace").split("\0")
    except OSError:
        return []
    return words if os.path.basename(words[0]) == "rattle" and "--crate-name" in words else []


def after(words, flag):
    return words[words.index(flag) + 1] if flag in words else ""


def crates_under_way(top):
    """The crates of which the prover has a process below the process top, each once."""
    found = processes()
    return sorted({after(prover_words(pid), "--crate-name") for pid in found if is_below(pid, top, found)} - {""})
