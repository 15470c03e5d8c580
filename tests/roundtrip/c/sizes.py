"""Bytes that programs in C and C++ access in several widths: which names the log has for each access.

A thing of the kind "bytes" is 24 bytes at an address that 16 divides, or 8 in a pool. Each step of it, a "touch", is a form of this
module, and its events are exact: the class Sizes says which variables there are, as docs/logging-events.md promises, or AERODROME_GRAIN
does. In a text, $at is the address of the part, $n its bytes, $t a type of so many, $whole the address of the thing, and $i its number.
"""
from collections import namedtuple

from program import Thing, forms

ROOM, PLACE = 24, 1900

#: A step: the name and text of its form, and its events.
Touch = namedtuple("Touch", "how text events")

TYPES = """typedef unsigned char part1 __attribute__((may_alias));
typedef unsigned short part2 __attribute__((may_alias));
typedef unsigned part4 __attribute__((may_alias));
typedef unsigned long part8 __attribute__((may_alias));
typedef int part16 __attribute__((vector_size(16), may_alias));"""

#: Where the bytes are: what stands outside of functions, and what main does first. (In a pool they lie side by side. Constructors of
#: global objects have accessed the stack before, in sizes of their own.)
Where = namedtuple("Where", "name declared born traits")
DECLARED, BORN = "char $k[32] __attribute__((aligned(16)));", "stage_bytes($i, $k);"
PLACES = [
    Where("a global", DECLARED, BORN, ""), Where("a static", "static " + DECLARED, BORN, ""),
    Where("main's stack", "", DECLARED + " AnnotateNewMemory(__FILE__, __LINE__, $k, 32); " + BORN, ""), Where("a thread-local of main", "static __thread " + DECLARED, BORN, ""),
    Where("a pool", "", "AnnotateNewMemory(__FILE__, __LINE__, stage_pool + 24 * $i, 24); stage_bytes($i, stage_pool + 24 * $i);", "pool"),
    Where("heap", "", "stage_bytes($i, malloc(24));", "heap"),
    Where("mmap", "", "stage_bytes($i, mmap(0, 4096, PROT_READ | PROT_WRITE, MAP_PRIVATE | MAP_ANONYMOUS, -1, 0));", "mapped"),
]

#: Accesses to 1, 2, 4 or 8 bytes at once.
ONE = forms([
    ("read", "stage_use((long)*($t *)$at);", "r", 4), ("read of volatile", "stage_use((long)*(volatile $t *)$at);", "r"),
    ("atomic load", "stage_use((long)__atomic_load_n(($t *)$at, __ATOMIC_ACQUIRE));", "r"),
    ("compare-exchange that fails", "{ $t e = ($t)(stage_peek($at, $n) ^ 1); "
     "stage_use(__atomic_compare_exchange_n(($t *)$at, &e, 1, 0, __ATOMIC_SEQ_CST, __ATOMIC_RELAXED)); }", "r"),
    ("write", "*($t *)$at = ($t)stage_any();", "w", 4), ("write of a constant", "*($t *)$at = 1;", "w"),
    ("write of volatile", "*(volatile $t *)$at = ($t)stage_any();", "w"),
    ("atomic store", "__atomic_store_n(($t *)$at, 1, __ATOMIC_RELEASE);", "w"),
    ("fetch_add", "__atomic_fetch_add(($t *)$at, 1, __ATOMIC_RELAXED);", "w"),
    ("exchange", "stage_use((long)__atomic_exchange_n(($t *)$at, 1, __ATOMIC_ACQ_REL));", "w"),
    ("compare-exchange that succeeds", "{ $t e = ($t)stage_peek($at, $n); "
     "stage_use(__atomic_compare_exchange_n(($t *)$at, &e, 1, 0, __ATOMIC_SEQ_CST, __ATOMIC_RELAXED)); }", "w"),
])
#: Accesses to the first 16 bytes at once.
WIDE = forms([
    ("read of 16 bytes", "{ part16 l = *(part16 *)$at; stage_see(&l); }", "r"),
    ("write of 16 bytes", "*(part16 *)$at = (part16){1, 2, 3, (int)stage_any()};", "w"),
])
#: Copies of any part.
COPIES = forms([
    ("memcpy", "memcpy($at, stage_source(), stage_same($n));", "w"), ("memmove", "memmove($at, stage_source(), stage_same($n));", "w"),
    ("mempcpy", "mempcpy($at, stage_source(), stage_same($n));", "w"), ("bcopy", "bcopy(stage_source(), $at, stage_same($n));", "w"),
    ("memset", "memset($at, 1, stage_same($n));", "w"), ("bzero", "bzero($at, stage_same($n));", "w"),
    ("memcpy of a constant size", "memcpy($at, stage_source(), $n);", "w odd"), ("memset of a constant size", "memset($at, 0, $n);", "w odd"),
    ("strcpy", "strcpy($at, stage_text(stage_scratch(), $n - 1));", "w"), ("stpcpy", "stage_see(stpcpy($at, stage_text(stage_scratch(), $n - 1)));", "w"),
    ("strncpy", "strncpy($at, stage_text(stage_scratch(), 3), stage_same($n));", "w"),
    ("strncpy that cuts", "strncpy($at, stage_text(stage_scratch(), 30), stage_same($n));", "w"),
    ("memcpy out", "memcpy(stage_scratch(), $at, stage_same($n));", "r"), ("memmove out", "memmove(stage_scratch(), $at, stage_same($n));", "r"),
    ("mempcpy out", "mempcpy(stage_scratch(), $at, stage_same($n));", "r"), ("bcopy out", "bcopy($at, stage_scratch(), stage_same($n));", "r"),
    ("memcpy out, of a constant size", "memcpy(stage_scratch(), $at, $n);", "r odd"),
    ("strcpy out", "strcpy((char *)stage_scratch(), stage_text($at, $n - 1));", "r"),
    ("stpcpy out", "stage_see(stpcpy((char *)stage_scratch(), stage_text($at, $n - 1)));", "r"),
    ("strncpy out", "strncpy((char *)stage_scratch(), stage_text($at, $n - 1), stage_same(40));", "r"),
    ("strncpy out, that cuts", "{ stage_text($at, $n - 1); strncpy((char *)stage_scratch(), $at, stage_same($n - 1)); }", "r cuts"),
    ("strcat out", "strcat(stage_text(stage_scratch(), 2), stage_text($at, $n - 1));", "r"),
    ("strncat out", "strncat(stage_text(stage_scratch(), 2), stage_text($at, $n - 1), stage_same(40));", "r"),
])
#: A read of the part up to the byte $end, which is the first one of $more bytes that are written.
APPENDS = forms([
    ("strcat", "strcat(stage_text($at, $n - 1), stage_text(stage_scratch(), $more - 1));"),
    ("strncat", "strncat(stage_text($at, $n - 1), stage_text(stage_scratch(), $more - 1), stage_same(40));"),
    ("strncat that cuts", "strncat(stage_text($at, $n - 1), stage_text(stage_scratch(), 40), stage_same($more - 1));"),
])
#: What makes the bytes new variables, and what leaves them as they are.
NEW = forms([
    ("AnnotateNewMemory", "AnnotateNewMemory(__FILE__, __LINE__, $whole, 24); stage_bytes($i, $whole);"),
    ("free and malloc", "free($whole); stage_bytes($i, malloc(24));", "heap", 2),
    ("free and calloc", "free($whole); stage_bytes($i, calloc(1, 24));", "heap"),
    ("mmap in its place", "if (mmap($whole, 4096, PROT_READ | PROT_WRITE, MAP_PRIVATE | MAP_ANONYMOUS | MAP_FIXED, -1, 0) != $whole) abort(); "
     "stage_bytes($i, $whole);", "mapped", 2),
    ("mremap", "{ void *p = mmap(0, 4096, PROT_NONE, MAP_PRIVATE | MAP_ANONYMOUS, -1, 0); "
     "if (mremap($whole, 4096, 4096, MREMAP_MAYMOVE | MREMAP_FIXED, p) != p) abort(); stage_bytes($i, p); }", "mapped", 2),
    ("mremap to and fro", "{ void *p = mmap(0, 4096, PROT_NONE, MAP_PRIVATE | MAP_ANONYMOUS, -1, 0), *q = $whole; "
     "if (mremap(q, 4096, 4096, MREMAP_MAYMOVE | MREMAP_FIXED, p) != p || mremap(p, 4096, 4096, MREMAP_MAYMOVE | MREMAP_FIXED, q) != q) abort(); "
     "stage_bytes($i, q); }", "mapped", 2),
])
SAME = forms([("realloc in place", "if (realloc($whole, 24) != $whole) abort();"), ("realloc that shrinks", "if (realloc($whole, 20) != $whole) abort();")])
#: A realloc that moves them, as so many bytes are nowhere behind them: $room grows by the time.
MOVES = forms([
    ("realloc", "{ void *p = realloc($whole, $room); if (p == $whole) abort(); stage_bytes($i, p); }"),
    ("reallocarray", "{ void *p = reallocarray($whole, 4, $room / 4); if (p == $whole) abort(); stage_bytes($i, p); }"),
])


#: Frames of functions: what another thread does with their bytes, which have the numbers from FRAME on.
FRAME = 50
LOOKS = forms([("read", "stage_use((long)*(part4 *)stage_at($at));", "r"), ("write", "*(part4 *)stage_at($at) = 2;", "w"),
               ("memcpy out", "memcpy(stage_scratch(), stage_at($at), stage_same(4));", "r")])
OPENS = forms([("an element of a local variable = constant", "*(part4 *)room = 1;"), ("*p = constant", "*(part4 *)stage_at($at) = 1;")])
INSIDE = ("static __attribute__((noinline)) void $f(void) { $room stage_bytes($i, room); $write stage_done($open); "
          "stage_turn($close); stage_gone($i); stage_done($close); }")
ROOMS = ["char room[32] __attribute__((aligned(16)));", "char room[64] __attribute__((aligned(16)));"]


class Sizes:
    """The variables of eight bytes, each by its first byte and its end. `is_copied` says that only copies have accessed all eight."""

    def __init__(self):
        self.variables, self.is_copied = [], False

    def claim(self, first, end):
        """Makes what no access has touched before a variable, or one between each two that are there."""
        for one in sorted(self.variables) + [(8, 8)]:
            if first < min(end, one[0]):
                self.variables.append((first, min(end, one[0])))
            first = max(first, one[1])

    def of(self, first, end):
        return sorted(one for one in self.variables if one[0] < end and first < one[1])

    def logged(self, first, end, is_write):
        """Returns the first bytes of the variables that an access is logged for. What a write has of a variable is one of its own."""
        found = self.of(first, end)
        low, high = found[0][0], found[-1][1]
        for one in found if is_write else ():
            self.variables.remove(one)
            edges = sorted(set(one) | {cut for cut in (first, end) if one[0] < cut < one[1]})
            self.variables += zip(edges, edges[1:])
        return [one[0] for one in self.of(low, high)]

    def access(self, first, end, is_write):
        """Returns the first bytes of the variables that an access at once is logged for."""
        if self.is_copied and (first, end) == (0, 8):
            self.variables = [(0, 8)]
        self.is_copied = False
        self.claim(first, end)
        return self.logged(first, end, is_write)

    def copy(self, first, end, is_write):
        """The same of a copy: what it is the first to touch of each four bytes is a variable."""
        is_whole = (first, end) == (0, 8)
        if not (is_whole and self.is_copied):
            self.is_copied = is_whole and not self.variables
            self.claim(first, min(end, 4))
            self.claim(max(first, 4), end)
        return self.logged(first, end, is_write)


class Bytes(Thing):
    """24 bytes: `where` they are, and how often they became new variables."""

    def __init__(self, number, name, where, grain):
        super().__init__(number, name)
        self.where, self.grain, self.traits = where, grain, set(where.traits.split()) | {"small"}
        self.generation = -1
        self.renew()

    def renew(self):
        self.generation, self.sizes = self.generation + 1, [Sizes() for _ in range(ROOM // 8)]

    def events(self, operation, how, first, end):
        """Returns the events of an access to these bytes, in one ("access") or as a copy ("copy")."""
        found = list(range(first & -self.grain, end, self.grain)) if self.grain else []
        for at in () if self.grain else range(first & -8, end, 8):
            part, stop = max(first - at, 0), min(end - at, 8)
            sizes = self.sizes[at // 8]
            found += [at + one for one in (sizes.copy if how == "copy" else sizes.access)(part, stop, operation == "w")]
        return [(operation, part_name(self.name, self.generation, one)) for one in found]


def part_name(name, generation, first):
    """Returns the name of the variable that begins at a byte. (In a frame, earlier ones say which variables there are: it is None.)"""
    return "%s_%d" % (name, generation) if first is None else "%s_%d+%d" % (name, generation, first)


def make(program, number, name, grain):
    """Returns 24 bytes, and adds their declaration to the program."""
    it = Bytes(number, name, program.random.choice(PLACES), grain)
    words = {"k": "bytes_%d" % number, "i": number}
    if it.where.declared:
        program.declare(it.where.declared, words)
    program.begin_with(it.where.born, words)
    return it


def touch(program, it):
    """Draws a step of the bytes."""
    kinds = [(single, 10), (wide, 1), (copied, 8), (appended, 2), (moved_within, 1), (renewed, 1), (unchanged, 1), (moved, 1)]
    while True:
        done = program.random.choices([kind for kind, _ in kinds], [weight for _, weight in kinds])[0](program, it)
        if done:
            return Touch("%s in %s" % (done.how, it.where.name), done.text, done.events)


def filled(program, it, table, traits=(), first=0, **words):
    """Returns the form that is drawn, and its text for the part that begins at a byte."""
    whole = "stage_at(%d)" % (PLACE + it.number)
    form = program.draw(table, it.traits | set(traits))
    words.update(whole=whole, i=it.number, at="((char *)%s + %d)" % (whole, first))
    return form, program.fill(form.text, words)


def single(program, it):
    """Accesses 1, 2, 4 or 8 bytes at once."""
    width = program.random.choice([1, 2, 4, 4, 8, 8])
    first = program.random.randrange(0, ROOM, width)
    form, text = filled(program, it, ONE, (program.random.choice("rw"),), first=first, n=width, t="part%d" % width)
    return Touch("%s of %d at %d" % (form.name, width, first), text, it.events(form.needs, "access", first, first + width))


def wide(program, it):
    """Accesses the first 16 bytes at once, if 16 divides their address."""
    if "pool" in it.traits:
        return None
    form, text = filled(program, it, WIDE, (program.random.choice("rw"),))
    return Touch(form.name, text, it.events(form.needs, "access", 0, 16))


def range_of(program):
    """Draws a part: eight bytes, a half of eight, or any."""
    random = program.random
    size = random.choice([8, 8, 4, random.randint(2, 20)])
    return random.randrange(0, ROOM - size + 1, size if size in (4, 8) else 1), size


def copied(program, it):
    """Copies to a part or from it."""
    first, size = range_of(program)
    traits = {program.random.choice("rw")} | ({"odd"} if size not in (1, 2, 4, 8) else set())
    form, text = filled(program, it, COPIES, traits | {"cuts"}, first=first, n=size)
    end = first + size - ("cuts" in form.needs)
    return Touch("%s of %d at %d" % (form.name, size, first), text, it.events(form.needs[0], "copy", first, end))


def appended(program, it):
    """Appends a text to that of a part. There may be no room for it."""
    first, size = range_of(program)
    end = first + size
    if end >= ROOM - 1:
        return None
    more = program.random.randint(1, ROOM - end)
    form, text = filled(program, it, APPENDS, first=first, n=size, more=more)
    return Touch("%s of %d behind %d at %d" % (form.name, more, size, first), text,
                 it.events("r", "copy", first, end) + it.events("w", "copy", end - 1, end - 1 + more))


def moved_within(program, it):
    """Copies one part to another one, which may overlap it."""
    (first, size), source = range_of(program), program.random.randint(0, ROOM)
    source = min(source, ROOM - size)
    text = program.fill("{ char *p = (char *)stage_at($at); memmove(p + $to, p + stage_same($source), stage_same($size)); }",
                        {"at": PLACE + it.number, "to": first, "source": source, "size": size})
    return Touch("memmove of %d from %d to %d" % (size, source, first), text,
                 it.events("r", "copy", source, source + size) + it.events("w", "copy", first, first + size))


def renewed(program, it):
    """Makes the bytes new variables."""
    form, text = filled(program, it, NEW)
    it.renew()
    if "heap" in form.needs:
        it.traits.add("small")
    return Touch(form.name, text, [])


def unchanged(program, it):
    """Does what leaves them as they are, if they are of the heap."""
    if not {"heap", "small"} <= it.traits:
        return None
    form, text = filled(program, it, SAME)
    return Touch(form.name, text, [])


def moved(program, it):
    """Has realloc move them, if they are of the heap and haven't moved."""
    if not {"heap", "small"} <= it.traits or program.rooms > 1 << 24:
        return None
    form, text = filled(program, it, MOVES, room=program.rooms)
    program.rooms *= 4
    it.traits.remove("small")
    events = it.events("r", "copy", 0, ROOM)
    it.renew()
    return Touch("%s that moves" % form.name, text, events + it.events("w", "copy", 0, ROOM))


def frame(program, meeting):
    """Draws a meeting of two threads in a frame: its name, the text of each thread, and the events of its steps."""
    opens, looks, closes = meeting.steps
    number = FRAME + int(meeting.target[len("frame"):])
    program.frames[number] = program.frames.get(number, -1) + 1
    part, form = part_name("bytes%d" % number, program.frames[number], None), program.draw(LOOKS, ("r", "w"))
    name = program.new_name("aside_frame")
    words = {"f": name, "room": program.random.choice(ROOMS), "i": number, "at": PLACE + number, "open": opens.number, "close": closes.number}
    program.prototypes.append("static void %s(void);" % name)
    how, words["write"] = program.choose(OPENS, (), words)
    program.bodies.append(program.fill(INSIDE, words))
    parts = {opens.thread: "stage_turn(%d); %s();" % (opens.number, name),
             looks.thread: "stage_turn(%d); %s stage_done(%d);" % (looks.number, program.fill(form.text, words), looks.number)}
    return "%s and %s of a frame" % (how, form.name), parts, {opens.number: [("w", part)], looks.number: [(form.needs, part)], closes.number: []}
