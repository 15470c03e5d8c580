"""Variables of programs in Go: where they are, and the ways to write and to read them.

In a text, $n is the variable's number, $g a name of its own, $x the variable, $p its address, $type its type, $value a value of it, $T
the name that sync/atomic has for the type, $old the number in it.
"""
import string
from collections import namedtuple

from program import Thing, forms

TYPES = [("int64", "some()", "number"), ("int32", "int32(some())", "number"), ("int8", "int8(some())", "number"), ("uint16", "uint16(some())", "number"),
         ("float64", "float64(some())", "counted"), ("bool", "some() > 3", ""), ("string", "text()", "text"), ("[]int", "[]int{1, int(some())}", ""),
         ("interface{}", "interface{}(some())", ""), ("pair", "pair{some(), int32(some())}", "pair"), ("[4]int64", "[4]int64{some(), 2}", "array"),
         ("*int", "new(int)", ""), ("complex128", "complex(1, float64(some()))", ""), ("[3]byte", "[3]byte{1, byte(some())}", "bytes"),
         ("error", "error(nil)", ""), ("func()", "func() {}", ""), ("map[int]int", "map[int]int{}", ""), ("big", "big{1, 2, 3, some()}", "big")]

#: The types of variables in a crowded program.
SMALL = ("int32", "int8", "uint16", "bool", "[3]byte")

#: A place: the declaration, what the first goroutine does first, the variable, its address and its traits.
Place = namedtuple("Place", "name declared start x p traits")

BY_POINTER = ("(*(*$type)(at($n)))", "(*$type)(at($n))")
FIELD = "type ${g}_t struct { a int8; f $type; b int8 }\ntype ${g}_e struct { n int; ${g}_t }"
PLACES = [
    Place("a global", "var $g $type", "", "$g", "&$g", "plain"), Place("a global", "var $g $type", "", "$g", "&$g", "plain"),
    Place("a global array", "var $g [4]$type", "", "$g[2]", "&$g[2]", "plain"),
    Place("a global slice", "var $g = make([]$type, 4)", "put($n, unsafe.Pointer(&$g[1]))", *BY_POINTER, "plain"),
    Place("a field", FIELD, "put($n, unsafe.Pointer(new(${g}_t)))", "(*${g}_t)(at($n)).f", "&(*${g}_t)(at($n)).f", "plain"),
    Place("a field of an embedded struct", FIELD, "put($n, unsafe.Pointer(new(${g}_e)))", "(*${g}_e)(at($n)).f", "&(*${g}_e)(at($n)).f", "plain"),
    Place("new memory", "", "put($n, unsafe.Pointer(new($type)))", *BY_POINTER, "plain"),
    Place("a captured local", "", "{ var v $type; f := func() { put($n, unsafe.Pointer(&v)) }; f() }", *BY_POINTER, "plain"),
    Place("a slice", "", "{ v := make([]$type, 5); put($n, unsafe.Pointer(&v[0])) }", "unsafe.Slice((*$type)(at($n)), 5)[3]",
          "&unsafe.Slice((*$type)(at($n)), 5)[3]", "plain"),
    Place("a map", "//go:norace\nfunc ${g}_m() map[string]int64 { v := at($n); return *(*map[string]int64)(unsafe.Pointer(&v)) }",
          "{ v := map[string]int64{\"a\": 1}; put($n, *(*unsafe.Pointer)(unsafe.Pointer(&v))) }", "${g}_m()", "", "map"),
    Place("a number for atomic functions", "", "put($n, unsafe.Pointer(new($type)))", "", "(*$type)(at($n))", "functions"),
    Place("an object of sync/atomic", "", "put($n, unsafe.Pointer(new(atomic.$type)))", "(*atomic.$type)(at($n))", "", "object"),
    Place("a sync.Map", "", "{ m := new(sync.Map); m.Store(7, 1); m.Range(func(k, v any) bool { return true }); put($n, unsafe.Pointer(m)) }",
          "(*sync.Map)(at($n))", "", "entry"),
    Place("an atomic.Value", "", "{ v := new(atomic.Value); v.Store(3); put($n, unsafe.Pointer(v)) }", "(*atomic.Value)(at($n))", "", "value"),
]
OBJECTS = [("Int64", "3", "added signed"), ("Int32", "3", "added signed"), ("Uint64", "3", "added"), ("Bool", "true", ""), ("Pointer[int]", "new(int)", "")]

WRITES = forms([
    ("=", "$x = $value", "plain", 2), ("*p =", "{ p := $p; *p = $value }", "plain"), ("= of two", "$x, _ = $value, some()", "plain"),
    ("= zero", "{ var z $type; $x = z }", "plain"), ("each field =", "$x.a = 1; $x.b = 2", "plain pair"),
    ("a loop", "for i := range $x { $x[i] = 0 }", "plain array"), ("copy", "copy($x[:], sourceOf())", "plain array"),
    ("= *p", "$x = *bigOf()", "plain big"), ("= a result", "$x = asideMakeBig()", "plain big"), ("copy of a string", 'copy($x[:], "abc")', "plain bytes"),
    ("m[k] =", '$x["a"] = some()', "map"), ("delete", 'delete($x, "b")', "map"),
    ("atomic.Store", "atomic.Store$T($p, 3)", "functions"), ("atomic.Add", "atomic.Add$T($p, 3)", "functions"), ("atomic.Swap", "atomic.Swap$T($p, 3)", "functions"),
    ("atomic.CompareAndSwap", "if !atomic.CompareAndSwap$T($p, $old, 5) { panic(1) }", "functions"),
    ("= without sync/atomic", "{ p := $p; *p = $value }", "functions"),
    ("Store", "$x.Store($value)", "object"), ("Swap", "$x.Swap($value)", "object"), ("Add", "$x.Add(2)", "object added"),
    ("CompareAndSwap", "if !$x.CompareAndSwap($old, 5) { panic(1) }", "object signed"),
    ("Store into a Map", "$x.Store(7, some())", "entry"), ("Delete and Store", "$x.Delete(7); $x.Store(7, 2)", "entry"),
    ("LoadAndDelete and LoadOrStore", "$x.LoadAndDelete(7); $x.LoadOrStore(7, 3)", "entry"),
    ("Store of a Value", "$x.Store(4)", "value"), ("Swap of a Value", "$x.Swap(5)", "value"),
])
READS = forms([
    ("x", "use($x)", "plain", 2), ("a local", "{ l := $x; use(l) }", "plain"), ("*p", "{ p := $p; use(*p) }", "plain"),
    ("x as an interface", "use(interface{}($x))", "plain"), ("if x", "if $x == 9 { use(1) }", "plain number"),
    ("switch x", "switch $x { case 1: use(2); case 7: use(3) }", "plain number"),
    ("range", "{ var s int64; for _, v := range $x { s += v }; use(s) }", "plain array"), ("copy out", "copy(targetOf(), $x[:])", "plain array"),
    ("the last field", "use($x.b)", "plain pair"), ("the last element", "use($x[3])", "plain array"), ("the last byte", "use($x[2])", "plain bytes"),
    ("the last of four fields", "use($x.d)", "plain big"), ("x + text", 'use($x + "b")', "plain text"), ("an argument", "asideTakeBig($x)", "plain big"),
    ("m[k]", 'use($x["a"])', "map"), ("v, ok := m[k]", 'if v, ok := $x["a"]; ok { use(v) }', "map"), ("range of a map", "for k := range $x { use(k); break }", "map"),
    ("atomic.Load", "use(atomic.Load$T($p))", "functions"),
    ("atomic.CompareAndSwap, failed", "if atomic.CompareAndSwap$T($p, $old + 1, 5) { panic(1) }", "functions"),
    ("*p without sync/atomic", "use(*$p)", "functions"),
    ("CompareAndSwap, failed", "if $x.CompareAndSwap($old + 1, 5) { panic(1) }", "object signed"),
    ("Load of a key", "use(loaded($x.Load(7)))", "entry"), ("LoadOrStore of a key", "use(loaded($x.LoadOrStore(7, 4)))", "entry"),
    ("Range of a Map", "$x.Range(func(k, v any) bool { use(v); return true })", "entry"),
    ("Load", "use($x.Load())", "object"), ("Load of a Value", "use($x.Load())", "value"),
])
CHANGES = forms([("x++", "$x++", "plain counted|number"), ("x += 3", "$x += 3", "plain counted|number"), ("x = x + 1", "$x = $x + 1", "plain counted|number"),
                 ("*p++", "{ p := $p; *p++ }", "plain counted|number")])


def make_variable(program, number, name):
    """Returns a variable, and adds its declaration to the program."""
    it, random = Thing(number, name), program.random
    it.place = random.choice(PLACES)
    it.type, it.value, traits = random.choice(TYPES)
    if program.is_crowded:
        it.place, (it.type, it.value, traits) = PLACES[0], random.choice([one for one in TYPES if one[0] in SMALL])
    if it.place.traits == "functions":
        it.type, it.value, traits = random.choice(TYPES[:2])
    elif it.place.traits == "object":
        it.type, it.value, traits = random.choice(OBJECTS)
    it.traits = set(it.place.traits.split()) | set(traits.split())
    it.words = {"n": number, "g": "%s_g%d" % (program.prefix, number), "type": it.type, "value": it.value, "T": it.type.title(),
                "old": "peek%s(at(%d))" % (it.type[-2:], number)}
    for texts, text in ((program.globals, it.place.declared), (program.start, it.place.start)):
        if text:
            texts.append(string.Template(text).substitute(it.words))
    for word, text in (("x", it.place.x), ("p", it.place.p)):
        it.words[word] = string.Template(text).substitute(it.words)
    return it


def write(program, it):
    return program.choose(WRITES, it.traits, it.words)


def read(program, it):
    return program.choose(READS, it.traits, it.words)


def change(program, it):
    """Returns a form that reads and writes the variable, or None."""
    return program.choose(CHANGES, it.traits, it.words) if "plain" in it.traits and it.traits & {"counted", "number"} else None
