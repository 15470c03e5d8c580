"""Which variables and locks the names of a log of C are, by the addresses that the program has written down."""
import re
import subprocess
from collections import namedtuple

from c.sizes import FRAME, part_name

NAME = re.compile(r"^(?:0x(?P<address>[0-9a-f]+)|(?P<symbol>.*?)(?:\+(?P<offset>\d+))?(?:@(?P<base>[0-9a-f]+))?)(?:\.(?P<times>\d+))?$")
PREFIXES = {"rw.": "l", "sem.": "semaphore", "bar.": "barrier", "once.": "once", "sync.": "sync"}
KINDS = {"semaphore": "sem.%s.%s", "barrier": "bar.%s", "once": "once.%s", "sync": "sync.%s", "handed": "%s%s"}
HANDED = ".handed"
FOREVER = 1 << 30


class Place(namedtuple("Place", "kind number start size first last turn")):
    """Where a thing was, from one step to another. `turn` counts the places that it had before."""

    def is_at(self, address, step):
        return self.start <= address < self.start + self.size and self.first <= step <= self.last


class Names:
    """`table` is the file that the scheduler wrote, `symbols` those of the program by `symbols_of`."""

    def __init__(self, program, table, symbols):
        self.program, self.places, self.found = program, [], {}
        self.name_of_part, self.part_of_name, self.is_lasting = {}, {}, False
        for line in open(table):
            kind, number, *numbers = line.split()
            turn = len([one for one in self.places if (one.kind, one.number) == (kind, int(number))])
            self.places.append(Place(kind, int(number), *map(int, numbers), turn))
        marks = next(place.start for place in self.places if place.kind == "marks")
        moved = marks - min(symbols["stage_marks"])
        self.symbols = {name: {at + moved for at in addresses} for name, addresses in symbols.items()}

    def step_of_mark(self, line):
        if line.operation == "w" and line.name.startswith("stage_marks"):
            return int(line.name.partition("+")[2] or 0) // 8
        return None

    def addresses(self, name):
        match = NAME.match(name)
        if match["address"]:
            return [int(match["address"], 16)]
        offset = int(match["offset"] or 0)
        if match["base"]:
            return [int(match["base"], 16) + offset]
        found = self.symbols.get(match["symbol"])
        if not found and re.match(r"^g\d+$", match["symbol"]):
            # A global of the library.
            found = [place.start for place in self.places if place.kind == "x" and place.number == int(match["symbol"][1:])]
        return [one + offset for one in found or ()]

    def thing(self, line, group):
        """Returns what the trace calls the thing of a line, or None if it isn't the trace's."""
        if line.operation in ("begin", "end", "fork", "join", "no event") or line.name is None:
            return line.name
        key = line.name, group.steps[0].number
        if key not in self.found:
            self.found[key] = self.look(*key)
        return self.found[key]

    def look(self, name, step):
        prefix = next((one for one in PREFIXES if name.startswith(one)), "")
        rest, post = name[len(prefix):], ""
        if prefix == "sem.":
            rest, _, post = rest.rpartition(".")
        elif rest.endswith(HANDED):
            rest, post = rest[:-len(HANDED)], HANDED
        wanted = PREFIXES.get(prefix)
        for address in self.addresses(rest):
            for place in self.places:
                if place.is_at(address, step) and place.number < 1000 and wanted in (None, place.kind):
                    return self.name_of_bytes(place, address, name) if place.kind == "bytes" else self.name_of(place, prefix, post)
        is_known = self.program.left_out("once of the unwinder") or any("std::async" in one.name for one in self.program.starts.values())
        return name if prefix == "once." and not is_known else None

    def name_of(self, place, prefix, post):
        if place.kind in ("x", "l"):
            return ("rw." if prefix else "") + "%s%d%s" % (place.kind, place.number, post)
        if place.kind not in KINDS:
            return None
        name = place.kind + str(place.number)
        return KINDS[place.kind] % ((name, post) if place.kind in ("semaphore", "handed") else name)

    def name_of_bytes(self, place, address, name):
        """Returns the name of a part of bytes. Each part has one name in the log as long as it is there, and no other one has it."""
        part = part_name("bytes%d" % place.number, place.turn, address - place.start)
        is_known = self.name_of_part.setdefault(part, name) == name and self.part_of_name.setdefault(name, part) == part
        if is_known and place.number >= FRAME:
            return part_name("bytes%d" % place.number, place.turn, None)
        return part if is_known or self.is_lasting else "%s, which isn't %s" % (name, part)

    def may_read(self, variable):
        """Returns whether a write of the variable may read it too: objects of std look at their fields, and a bit-field is written with
        the bits beside it."""
        return self.program.variables[variable].family in ("object", "bits")

    def wider(self, variable, operation, lines, step):
        """Returns the accesses by the name of bytes before the variable, of the same eight (docs/logging-events.md, Sizes)."""
        found, number = set(), self.program.variables[variable].number
        for place in self.places:
            if place.kind == "x" and place.number == number and place.first <= step.number <= place.last:
                # (AERODROME_GRAIN counts from the first byte of a global variable, wherever that lies)
                first = place.start - 7 if self.program.grain else place.start & ~7
                for line in lines:
                    if line.thread == step.thread and line.operation == operation and line.name:
                        found |= {(line.name, operation) for at in self.addresses(line.name) if first <= at < place.start}
        return found

    def lacking(self, step, lines):
        """Returns the first byte of a variable that an access to all of it doesn't have, of each eight bytes, or None."""
        number = self.program.variables[step.target].number
        mine = [line for line in lines if line.thread == step.thread and line.operation == step.operation and line.name]
        found = {at >> 3 for line in mine for at in self.addresses(line.name)}
        for place in self.places:
            if place.kind == "x" and place.number == number and place.first <= step.number <= place.last:
                missing = [at for at in range(place.start >> 3, (place.start + place.size + 7) >> 3) if at not in found]
                return max(0, (missing[0] << 3) - place.start) if missing else None
        return None

    def lasting(self):
        """Keeps only the places that last from the first step to the last, at any time. Names are looked up anew.

        What lay there before the first step is taken for them too.
        """
        self.is_lasting = True
        self.places = [Place(one.kind, one.number, one.start, one.size, -FOREVER, FOREVER, one.turn)
                       for one in self.places if one.first == 0 and one.last == FOREVER]
        self.found = {}


def symbols_of(program, by_first_part):
    """Returns the addresses of each variable of a program, also by readable names, and by the first part of a name if it has a dot."""
    result = {}
    for options in ([], ["-C"]):
        said = subprocess.run(["nm"] + options + [program], stdout=subprocess.PIPE, universal_newlines=True, check=True).stdout
        for line in said.splitlines():
            match = re.match(r"^([0-9a-f]{16}) [bBdDvVuRrsSgG] (.*)$", line)
            if match:
                # (the log has the names of strings without the version of the C++ library)
                whole = re.sub(r"\[abi:\w+\]", "", match[2])
                for name in {whole, re.sub(r"\.\d+$", "", whole), whole.rpartition(".")[2]} | {whole.split(".")[0] for _ in range(by_first_part)}:
                    result.setdefault(name, set()).add(int(match[1], 16))
    return result
