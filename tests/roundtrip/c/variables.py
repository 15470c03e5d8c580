"""Variables of programs in C and C++: their types, and where they are."""
from collections import namedtuple

from program import Thing, fits

SIZES = [1, 2, 3, 4, 5, 7, 8, 12, 13, 16, 17, 24, 31, 32, 33, 64, 100, 128, 256, 1000, 1024, 4096, 6000]
COUNTS = [1, 2, 3, 4, 7, 16, 64, 1024]

#: A type: its name, its bytes and its traits. `array` is a structure of one array, `number` what __atomic_ functions take.
Type = namedtuple("Type", "name size traits")

INTEGERS = [Type(name, size, "integer number") for name, size in (
    ("char", 1), ("unsigned char", 1), ("short", 2), ("int", 4), ("unsigned", 4), ("long", 8), ("long long", 8))]
REALS = [Type("float", 4, "real"), Type("double", 8, "real"), Type("long double", 16, "real wide-real")]
SCALARS = INTEGERS + REALS + [Type("enum choice", 4, "integer enum"), Type("__int128", 16, "integer wide"), Type("void *", 8, "pointer"),
                              Type("BOOL", 1, "boolean"), Type("vector16", 16, "vector v16"), Type("vector32", 32, "vector v32")]
STRUCTURES = [Type("struct bytes%d" % size, size, "array of-bytes sized" + (" small" if size <= 16 else "")) for size in SIZES] \
    + [Type("struct ints%d" % count, 4 * count, "array of-ints" + (" small" if count <= 4 else "")) for count in COUNTS] \
    + [Type("struct mixed", 24, "mixed"), Type("struct longs", 16, "small"), Type("struct floats", 16, "small")] * 2
ATOMICS = [Type("char", 1, ""), Type("short", 2, ""), Type("int", 4, ""), Type("long", 8, ""), Type("unsigned", 4, "")]
#: The families of variables: a weight, the types, and the qualifier of each.
FAMILIES = {"scalar": (5, SCALARS, "%s"), "structure": (5, STRUCTURES, "%s"), "bits": (1, [Type("struct bits", 8, "")], "%s"),
            "volatile": (1, INTEGERS + REALS, "volatile %s"), "atomic": (2, ATOMICS, None)}

#: Where a variable is: what stands outside of functions, how it is named there ("" if only by a pointer), what main does first, and
#: what its type has to be. $g is a name of its own, $type its type, $n its number, $i an index from 0 to 3.
Place = namedtuple("Place", "name declared direct born needs weight")

OF_LIBRARY, OF_LOADED = "a library's global", "a global of a library that dlopen loads"
OF_BOTH = "a static whose name a library has too"
PUT = "stage_put($n, &%s, sizeof($type));"
LATE = "late -awkward -atomic -object"
PLACES = [
    Place("a global", "$type $g;", "$g", PUT % "$g", "", 1),
    Place("a static", "static $type $g;", "$g", PUT % "$g", "", 1),
    Place("a field", "struct S$n { $before $type f; $behind }; struct S$n $g;", "$g.f", PUT % "$g.f", "", 1),
    Place("an element", "$type $g[4];", "$g[$index]", PUT % "$g[$i]", "", 1),
    Place("main's stack", "", "", "$type $g$aligned; " + PUT % "$g", "", 1),
    Place("a static local", "", "", "static $type $g; " + PUT % "$g", "", 1),
    Place("a thread-local of main", "static __thread $type $g$aligned;", "", PUT % "$g", "-object", 1),
    Place("heap", "", "", "stage_put($n, $new, sizeof($type));", "-awkward -object", 1),
    Place("heap, allocated late", "", "", "stage_put($n, $new, sizeof($type));", "-awkward -object", 3),
    Place("mmap", "", "", "stage_put($n, mmap(0, 8192, PROT_READ | PROT_WRITE, MAP_PRIVATE | MAP_ANONYMOUS, -1, 0), sizeof($type));",
          "-awkward -object", 1),
    Place("memory that realloc moved", "", "", "{ char *p = (char *)malloc(24); void *q = malloc(24); stage_see(q); "
          "p = (char *)realloc(p, 24 + sizeof($type)); stage_put($n, p + 16, sizeof($type)); }", "-awkward -object", 1),
    Place("a packed field", "struct __attribute__((packed)) S$n { char c; $type f; }; struct S$n $g;", "$g.f",
          "stage_put($n, (char *)&$g + 1, sizeof($type));", "-awkward -atomic -object", 1),
    Place(OF_LIBRARY, "extern $extern $type $g;", "$g", PUT % "$g", "library -object", 3),
    Place(OF_LOADED, "", "", 'stage_put($n, dlsym(loaded, "$g"), sizeof($type));', "dlopen -object", 3),
    Place(OF_BOTH, "static $type $g;", "$g", PUT % "$g", "library|dlopen -object", 1),
    Place("a vector", "std::vector<$type> $g(4);", "$g[$index]", PUT % "$g[$i]", "c++ -awkward -atomic -boolean -volatile -object", 1),
    Place("a std::array", "std::array<$type, 4> $g;", "$g[$index]", PUT % "$g[$i]", "c++ -object", 1),
    Place("a member of a class", "struct S$n { static $type f; }; $type S$n::f;", "S$n::f", PUT % "S$n::f", "c++", 1),
    Place("an inline member of a class", "struct S$n { inline static $type f; };", "S$n::f", PUT % "S$n::f", "c++17", 1),
    Place("a namespace", "namespace n$n { $type f; }", "n$n::f", PUT % "n$n::f", "c++", 1),
    Place("a unique_ptr", "std::unique_ptr<$type> $g;", "(*$g)", "$g.reset(new $type); stage_put($n, $g.get(), sizeof($type));", "c++", 1),
]
ALLOCATIONS = ["malloc(sizeof($type))", "calloc(1, sizeof($type))", "aligned_alloc(64, (sizeof($type) + 63) / 64 * 64)"]


class Variable(Thing):
    """A variable: `family`, `type`, `place`, `typedef`, and its first and last step."""

    def __init__(self, number, name, steps):
        super().__init__(number, name)
        mine = [step for step in steps if step.operation in ("r", "w") and step.target == name]
        self.first, self.last = (mine[0], mine[-1]) if mine else (None, None)

    def is_late(self):
        return self.place.name == "heap, allocated late"


def choose_type(program, it, objects):
    """Gives a variable a family and a type."""
    families = {name: weight for name, (weight, _, _) in FAMILIES.items()}
    if objects:
        families["object"] = program.objects
    it.family = program.random.choices(list(families), list(families.values()))[0]
    it.object = None
    if it.family == "object":
        it.object = program.random.choice(objects)
        it.type = Type(it.object.type, it.object.size, "")
    else:
        most = 256 if program.grain else 6000
        it.type = program.random.choice([one for one in FAMILIES[it.family][1] if one.size <= most and not program.left_out("type " + one.name)])
    it.traits = {it.family} | set(it.type.traits.split())
    # These want an alignment of 16 or 32 bytes, which not each place has.
    if it.type.name in ("vector16", "vector32", "__int128", "long double"):
        it.traits.add("awkward")


def typedef_of(program, it):
    """Returns the declaration of the variable's type under a name of its own."""
    it.typedef = "T%d" % it.number
    if it.family == "atomic":
        plain = ("std::atomic<%s>" if "c++" in program.traits else "_Atomic(%s)") % it.type.name
    else:
        plain = FAMILIES.get(it.family, (0, 0, "%s"))[2] % it.type.name
    return "typedef %s %s;" % (plain, it.typedef)


def choose_place(program, it):
    """Gives a variable its place, and adds what this wants to the program."""
    random = program.random
    possible = [one for one in PLACES if fits(one.needs, program.traits | it.traits)]
    late = [one for one in possible if one.name == "heap, allocated late"]
    it.place = random.choices(possible, [one.weight for one in possible])[0]
    if program.trace.moving and late and program.chance(0.6):
        it.place = late[0]
    if it.place.name != "a packed field":
        it.traits.add("aligned")
    # (no field has the other bytes of a struct mixed)
    it.part = random.choice([0, 3, 4, 8, 15, 16, 21]) if "mixed" in it.traits else random.randrange(max(1, it.type.size))
    at = random.randrange(4)
    it.free, new = "free", random.choice(ALLOCATIONS + (["operator new(sizeof($type))"] if "c++" in program.traits else []))
    if new.startswith("operator"):
        it.free = "operator delete"
    it.words = {"g": "g%d" % it.number, "type": it.typedef, "n": it.number, "i": at, "extern": '"C"' if "c++" in program.traits else "",
                "aligned": " __attribute__((aligned(16)))" if program.grain else "", "index": random.choice([str(at), "stage_same(%d)" % at]), "before": random.choice(["", "char c;", "int i;"]),
                "behind": random.choice(["", "char d;", "long j;"]), "new": new.replace("$type", it.typedef)}
