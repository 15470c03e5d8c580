"""Runs the examples of the pages.

Examples are blocks of code. Those marked `console`, and all those of a manual page, run in one folder for the whole page; each
one marked `text` runs in a folder of its own. sh runs each line that begins with `$ `, with the lines after it that begin with
`> `. The lines that follow must be exactly what the command writes on standard output and standard error together. `aerodrome`
is PROGRAM, and the scripts have the names under which they are installed. The folder contains the repository's examples/ and
tools/. If `cat FILE` shows a file that doesn't exist, the file is made from the lines shown. A command may take 600 seconds, or
as many as CASE_SECONDS says. If an example calls aerodrome-cc or aerodrome-c++, the logger is built for it, the logger for Go
if it calls aerodrome-go, and the agent for Java, with its path in AGENT, if it runs java with the agent. Without gcc, go, a JDK
or JUnit it is skipped or fails, as SKIPS says (tests/run): its words are c, go and java.

If a block of commands can't be run here, it is marked `text not run: WHY`, and any other text is marked `text no commands`; a
reader of the page sees only the first word of the mark. A manual page has `not run: WHY` or `no commands` in a comment before
the block. A program has the name of its language, such as `c`. A block with another mark, such as `sh`, or without a mark is an
error. So each block of commands is run, or says why it isn't.
"""
import os
import re
import shutil
import subprocess
import tempfile

from page_text import SCRIPTS, TOP, blocks_of

LIMIT = os.environ.get("CASE_SECONDS", "600")
NOT_RUN = re.compile(r"text not run: \S.*|text no commands|(?!text|console|(ba|z|k|fi)?sh\b|shell)[a-z+]+")


def steps_of(lines):
    """The commands of an example, each with the output that it must write."""
    steps = []
    for line in lines:
        if line.startswith("$ "):
            steps.append([line[2:], ""])
        elif line.startswith("> ") and steps and not steps[-1][1]:
            steps[-1][0] += "\n" + line[2:]
        elif steps:
            steps[-1][1] += line + "\n"
    return steps


class Room:
    """The folder in which the examples of a page run, and the status of the last command."""

    def __init__(self, room, program):
        self.at, self.status, self.logger, self.go = f"{room}/at", 0, f"{room}/logger", f"{room}/go"
        os.makedirs(f"{self.at}/bin")
        for where in (f"{room}/aerodrome", f"{self.at}/bin/aerodrome"):
            os.symlink(program, where)
        for name, script in SCRIPTS.items():
            os.symlink(f"{TOP}/{script}", f"{room}/{name}")
        for name in ("examples", "tools"):
            os.symlink(f"{TOP}/{name}", f"{self.at}/{name}")
        path = f"{room}:{self.logger}/bin:{self.go}/bin:{os.environ['PATH']}"
        self.environment = {**os.environ, "PATH": path, "LC_ALL": "C"}
        for name in [name for name in self.environment if name.startswith("AERODROME")]:
            del self.environment[name]
        self.environment["AGENT"] = f"{self.at}/aerodrome-agent.jar"

    def build_logger(self):
        """Builds the logger for C if it isn't built yet, and returns why it can't be built, or nothing."""
        return self.build_by("logger/build", self.logger, "gcc")

    def build_go(self):
        """Builds the logger for Go if it isn't built yet, and returns why it can't be built, or nothing."""
        return self.build_by("go/build", self.go, "go", "gcc")

    def build_by(self, script, to, *tools):
        missing = [tool for tool in tools if not shutil.which(tool, path=self.environment["PATH"])]
        if missing:
            return f"no {missing[0]} here"
        if not os.path.exists(to):
            subprocess.run([f"{TOP}/{script}", to], check=True)
        return ""

    def build_agent(self):
        """Builds the agent for Java if it isn't built yet, and returns why it can't be built, or nothing."""
        if not os.path.exists(f"{self.at}/aerodrome-agent.jar"):
            asked = subprocess.run([f"{TOP}/java/build", "--check"], stdout=subprocess.PIPE, check=False)
            if asked.returncode:
                return asked.stdout.decode().strip()
            alone = {name: it for name, it in os.environ.items() if not name.startswith(("MAKE", "MFLAGS"))}
            subprocess.run(["make", "-s", "-C", TOP, "java"], env=alone, check=True)
            os.symlink(f"{TOP}/lib/aerodrome/aerodrome-agent.jar", f"{self.at}/aerodrome-agent.jar")
        return ""

    def find_junit(self):
        """Returns why tests by JUnit can't run, or nothing."""
        jar = "/usr/share/java/junit-platform-console-standalone.jar"
        return "" if os.path.exists(jar) else f"no {jar} here"

    def makes(self, command, wanted):
        """Makes the file that the command shows, if the file doesn't exist, and returns whether it did."""
        shown = re.fullmatch(r"cat (\S+)", command)
        if not shown or os.path.exists(f"{self.at}/{shown.group(1)}"):
            return False
        with open(f"{self.at}/{shown.group(1)}", "w", encoding="utf-8") as it:
            it.write(wanted)
        return True

    def run(self, command):
        """Runs the command, and returns its output."""
        words = ["timeout", LIMIT, "sh", "-c", f"(exit {self.status}); {command}"]
        ran = subprocess.run(
            words, cwd=self.at, env=self.environment, stdin=subprocess.DEVNULL,
            stdout=subprocess.PIPE, stderr=subprocess.STDOUT, check=False,
        )
        self.status = ran.returncode
        late = f"not ended after {LIMIT} seconds\n" if self.status == 124 else ""
        return ran.stdout.decode("utf-8", "replace") + late


def run_examples(page, program, tally):
    with tempfile.TemporaryDirectory(prefix="pages-") as place:
        shared = Room(place, program)
        for mark, lines in blocks_of(page):
            if mark == "console":
                run_block(page, shared, lines, tally)
            elif mark == "text":
                with tempfile.TemporaryDirectory(prefix="pages-") as own:
                    run_block(page, Room(own, program), lines, tally)
            else:
                known = NOT_RUN.fullmatch(mark)
                tally.note(known, f"{page}: nobody knows what a block marked `{mark}` is", "\n".join(lines))


def run_block(page, room, lines, tally):
    starts = lines and lines[0].startswith("$ ")
    tally.note(starts, f"{page}: a block of commands doesn't begin with one", "\n".join(lines))
    for needs, build, kind in (
        (r"aerodrome-c(c|\+\+)", room.build_logger, "c"),
        (r"aerodrome-go ", room.build_go, "go"),
        (r"aerodrome-agent\.jar|\$AGENT\b", room.build_agent, "java"),
        (r"junit-platform", room.find_junit, "java"),
    ):
        missing = build() if any(re.search(needs, line) for line in lines) else ""
        if missing:
            tally.skip(f"{page}: {lines[0]}", missing, kind)
            return
    for command, wanted in steps_of(lines):
        if not room.makes(command, wanted):
            wrote = room.run(command)
            tally.note(wrote == wanted, f"{page}: $ {command}", f"--- wanted\n{wanted}--- wrote\n{wrote}---")
