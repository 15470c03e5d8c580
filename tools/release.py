"""What tools/dist and tools/deb share: the files of a release, and how their bytes are made the same each time."""
import hashlib
import os
import re
import shutil
import subprocess
import tempfile
import time
import zipfile

TOP = os.path.dirname(os.path.dirname(os.path.abspath(__file__)))
# What may be left out, and the file that shows that it was built. Without `older`, the program is taken as it is, for later C libraries only.
PARTS = {"java": "share/java/aerodrome-agent.jar", "library": "lib/aerodrome/libaerodrome.a"}
WORDS = [*PARTS, "older"]
# The greatest version of the GNU C library whose functions the program may need, and the libraries that each Debian has.
NEWEST = (2, 34)
SHARED = re.compile(r"(libc|libm|libpthread|libgcc_s|ld-linux-x86-64)\.so\.\d+")
YEAR_1980 = 315532800


class Refused(Exception):
    """Why nothing is made."""


def output_of(*words):
    try:
        return subprocess.run(words, cwd=TOP, stdout=subprocess.PIPE, check=True).stdout.decode().strip()
    except (OSError, subprocess.CalledProcessError) as why:
        raise Refused(str(why)) from why


def version():
    """The version of the program."""
    return output_of("bin/aerodrome", "-V").split()[1]


def without():
    """The parts that the environment leaves out."""
    found = os.environ.get("WITHOUT", "").split()
    if set(found) - set(WORDS):
        raise Refused(f"WITHOUT may have {', '.join(WORDS)}, and not {' '.join(found)}")
    return found


def time_of_files():
    """The time that each file has, in seconds since 1970."""
    given = os.environ.get("SOURCE_DATE_EPOCH")
    if given:
        return int(given)
    try:
        how = {"cwd": TOP, "stdout": subprocess.PIPE, "stderr": subprocess.DEVNULL}
        return int(subprocess.run(["git", "log", "-1", "--format=%ct"], check=True, **how).stdout)
    except (OSError, subprocess.CalledProcessError, ValueError):
        return YEAR_1980


def needed(program, most=NEWEST):
    """The libraries that the program needs, and the greatest version of the C library that it needs, or the reason why that is too
    much."""
    shared = re.findall(r"NEEDED\s+(\S+)", output_of("objdump", "-p", program))
    beyond = [it for it in shared if not SHARED.fullmatch(it)]
    if beyond:
        raise Refused(f"{program} needs {', '.join(beyond)}")
    found = {}
    for line in output_of("objdump", "-T", program).splitlines():
        symbol = re.search(r"\*UND\*.*\bGLIBC_(\d+(?:\.\d+)+)\)?\s+(\S+)$", line)
        if symbol:
            found.setdefault(tuple(int(it) for it in symbol[1].split(".")), []).append(symbol[2])
    if not found:
        raise Refused(f"{program} names no version of the C library")
    if max(found) > most:
        raise Refused(f"{program} needs version {dotted(max(found))} of the C library, for {', '.join(sorted(found[max(found)]))}")
    return shared, dotted(max(found))


def dotted(numbers):
    return ".".join(map(str, numbers))


def same_jar(path, when):
    """Writes a jar again, so that its bytes don't depend on when it was made."""
    with zipfile.ZipFile(path) as jar:
        # (the manifest has to be the first file)
        names = sorted(set(jar.namelist()), key=lambda it: (not it.startswith("META-INF/"), it != "META-INF/MANIFEST.MF", it))
        parts = [(name, jar.read(name)) for name in names if not name.endswith("/")]
    with zipfile.ZipFile(path, "w", zipfile.ZIP_DEFLATED) as jar:
        for name, content in parts:
            entry = zipfile.ZipInfo(name, time.gmtime(max(when, YEAR_1980))[:6])
            entry.external_attr, entry.compress_type = 0o644 << 16, zipfile.ZIP_DEFLATED
            jar.writestr(entry, content)


def install_into(folder, when, compiler):
    """Puts the files of `make install` into a folder, with the logger if a compiler is given. Gives what the program there needs, as
    `needed` does."""
    lacks = without()
    needs = needed("bin/aerodrome")
    alone = {name: it for name, it in os.environ.items() if not name.startswith(("MAKE", "MFLAGS"))}
    words = ["make", "-s", "files", f"CC={compiler or 'none'}", f"DESTDIR={os.path.dirname(folder)}/", f"PREFIX={os.path.basename(folder)}"]
    ran = subprocess.run(words, cwd=TOP, env=alone, stdout=subprocess.PIPE, stderr=subprocess.STDOUT, check=False)
    if ran.returncode:
        raise Refused(f"make files ended with status {ran.returncode}\n{ran.stdout.decode(errors='replace')}")
    for part, path in PARTS.items():
        if part in lacks:
            for one in (path, "include/aerodrome.h") if part == "library" else (path,):
                if os.path.exists(f"{folder}/{one}"):
                    os.remove(f"{folder}/{one}")
        elif not os.path.exists(f"{folder}/{path}"):
            raise Refused(f"no {path}: make {part} builds it, and WITHOUT={part} leaves it out")
    if "java" not in lacks:
        same_jar(f"{folder}/{PARTS['java']}", when)
    if "library" not in lacks:
        output_of("objcopy", "--enable-deterministic-archives", f"{folder}/{PARTS['library']}")
    if "older" not in lacks:
        # (a module that needs this one)
        import older

        with tempfile.TemporaryDirectory(prefix="older-") as room:
            shutil.copy(older.linked_for_older("bin/aerodrome", room), f"{folder}/bin/aerodrome")
        needs = needed(f"{folder}/bin/aerodrome", older.OLDER)
    return needs


def sum_of(path, kind="sha256"):
    with open(path, "rb") as it:
        return hashlib.new(kind, it.read()).hexdigest()


def paths_in(folder):
    """The files, links and folders below a folder, by their paths in it, in order."""
    found = []
    for at, folders, names in os.walk(folder):
        found += [os.path.relpath(f"{at}/{name}", folder) for name in [*names, *folders]]
    return sorted(found)


def files_in(folder):
    """The files below a folder, without links."""
    return [it for it in paths_in(folder) if os.path.isfile(f"{folder}/{it}") and not os.path.islink(f"{folder}/{it}")]
