"""Variables of programs in Java: where they are, and the ways to write and to read them.

In a text, $n is the variable's number, $p the program's class, $b a class of the variable's own, $x the variable or the object that
contains it, $type its type, $value a value of this type, $i an index from 0 to 2, $old and $other the number in it and another one.
"""
import re
import string
from collections import namedtuple

from program import Thing, fits, forms

TYPES = [("int", "(int) Stage.any()", "number changed"), ("long", "Stage.any()", "number changed"), ("double", "(double) Stage.any()", "changed"),
         ("float", "(float) Stage.any()", "changed"), ("byte", "(byte) Stage.any()", "number changed"), ("char", "(char) Stage.any()", "number changed"),
         ("short", "(short) Stage.any()", "number changed"), ("boolean", "Stage.any() > 3", ""), ("String", "Stage.text()", "text"),
         ("Object", "Stage.text()", ""), ("int[]", "new int[2]", "of-arrays"), ("Integer", "(int) Stage.any()", "boxed")]

#: A place: what the program's class and what stands beside it declares, what main does first, the variable or its object, the pattern
#: of its name in the log, and its traits.
Place = namedtuple("Place", "name x pattern traits field beside start needs", defaults=("plain", "", "", "", ""))

OBJECT = "Stage.put($n, new $b());"
FIELD = r"$b\.f@\d+"
MADE = "static { try { %s } catch (ReflectiveOperationException e) { throw new Error(e); } }"
FIND = "MethodHandles.lookup().findVarHandle($b.class, \"f\", int.class)"
#: How a VarHandle of a field is made.
FOUND = [("", FIND), (" by privateLookupIn", FIND.replace("lookup()", "privateLookupIn($b.class, MethodHandles.lookup())")),
         (" by unreflectVarHandle", 'MethodHandles.lookup().unreflectVarHandle($b.class.getDeclaredField("f"))')]


def handled(declared, made):
    return "class $b { %s static final VarHandle V; %s }" % (declared, MADE % ("V = %s;" % made))


def updater(kind, of, type):
    return "class $b { volatile %s f; static final Atomic%sFieldUpdater%s V = Atomic%sFieldUpdater.newUpdater($b.class, \"f\"); }" % (type, kind, of, kind)


REFERENCE_UPDATER = updater("Reference", "<$b, Object>", "Object").replace('$b.class, "f"', '$b.class, Object.class, "f"')
UNSAFE = "class $b { int f; static final sun.misc.Unsafe V; static final long F; " + MADE % (
    'var f = sun.misc.Unsafe.class.getDeclaredField("theUnsafe"); f.setAccessible(true); V = (sun.misc.Unsafe) f.get(null); '
    'F = V.objectFieldOffset($b.class.getDeclaredField("f"));') + " }"
SYNCHRONIZER = "class $b extends Stage.Synchronizer { int state() { return getState(); } void state(int a) { setState(a); } " \
    "boolean swap(int a, int b) { return compareAndSetState(a, b); } }"


def atomic(name, traits, argument="", pattern=r"@\d+"):
    type = name + ("<Object>" if "Reference" in name else "")
    return Place("an " + name, "((%s) Stage.at($n))" % type, name + pattern, traits, start="Stage.put($n, new %s(%s));" % (type, argument))


PLACES = [
    Place("a static field", "$p.s$n", r"$p\.s$n", field="static $type s$n;"),
    Place("a volatile static field", "$p.s$n", r"$p\.s$n", field="static volatile $type s$n;"),
    Place("a static field of another class", "$b.s", r"$b\.s", beside="class $b { static $type s; }"),
    Place("an inherited static field", "$b.s", r"A$n\.s", beside="class A$n { static $type s; } class $b extends A$n { }"),
    Place("a field", "(($b) Stage.at($n)).f", FIELD, beside="class $b { $type f; int g; }", start=OBJECT),
    Place("a volatile field", "(($b) Stage.at($n)).f", FIELD, beside="class $b { volatile $type f; int g; }", start=OBJECT),
    Place("an inherited field", "(($b) Stage.at($n)).f", r"A$n\.f@\d+", start=OBJECT,
          beside="abstract class A$n { protected $type f; } class $b extends A$n { int g; }"),
    Place("a field that another one hides", "((A$n) Stage.at($n)).f", r"A$n\.f@\d+", start=OBJECT,
          beside="class A$n { $type f; } class $b extends A$n { $type f; }"),
    Place("an array of an interface", "$b.A[1]", r"(java\.lang\.)?$type\[\]@\d+\[1\]", beside="interface $b { $type[] A = new $type[3]; }", needs="-of-arrays"),
    Place("an element", "(($type[]) Stage.at($n))[$index]", r"(java\.lang\.)?$type\[\]@\d+\[$i\]", "plain element", start="Stage.put($n, new $type[3]);",
          needs="-of-arrays"),
    Place("an element of an element", "(($type[][]) Stage.at($n))[1][$index]", r"(java\.lang\.)?$type\[\]@\d+\[$i\]", start="Stage.put($n, new $type[2][3]);",
          needs="-of-arrays"),
    Place("a static field of a class of another loader", "((Stage.Cell) Stage.at($n))", r"Twin\.s(@\d+)?", "cell",
          start='Stage.put($n, Stage.made(Stage.loaded("Twin", $n)));'),
    Place("a field of a class of another loader", "((Stage.Cell) Stage.at($n))", r"Twin\.f@\d+", "cell own",
          start='Stage.put($n, Stage.made(Stage.loaded("Twin", $n)));'),
    Place("the state of a synchronizer", "(($b) Stage.at($n))", r"$b@\d+", "state", beside=SYNCHRONIZER, start=OBJECT),
    atomic("AtomicInteger", "atomic-number"), atomic("AtomicLong", "atomic-number"), atomic("AtomicReference", "atomic-reference"),
    atomic("AtomicBoolean", "atomic-boolean"),
    atomic("AtomicIntegerArray", "atomic-array", "4", r"@\d+\[2\]"), atomic("AtomicLongArray", "atomic-array", "4", r"@\d+\[2\]"),
    atomic("AtomicReferenceArray", "atomic-references", "4", r"@\d+\[2\]"),
    atomic("AtomicStampedReference", "atomic-stamped", '"a", 0'), atomic("AtomicMarkableReference", "atomic-marked", '"a", false'),
    Place("a field with an updater", "(($b) Stage.at($n))", FIELD, "updater", beside=updater("Integer", "<$b>", "int"), start=OBJECT + " Stage.use($b.V);"),
    Place("a field with an updater of longs", "(($b) Stage.at($n))", FIELD, "updater", beside=updater("Long", "<$b>", "long"), start=OBJECT
          + " Stage.use($b.V);"),
    Place("a field with an updater of references", "(($b) Stage.at($n))", FIELD, "reference-updater", beside=REFERENCE_UPDATER, start=OBJECT
          + " Stage.use($b.V);"),
] + [
    Place("a field with a VarHandle" + how, "(($b) Stage.at($n))", FIELD, "handle of-int", beside=handled("int f;", found), start=OBJECT + " Stage.use($b.V);")
    for how, found in FOUND] + [
    Place("a static field with a VarHandle", "", r"$b\.s", "static-handle",
          beside=handled("static int s;", 'MethodHandles.lookup().findStaticVarHandle($b.class, "s", int.class)'),
          start="Stage.put($n, $b.class); Stage.use($b.V);"),
    Place("an element with a VarHandle", "((long[]) Stage.at($n)), 1", r"long\[\]@\d+\[1\]", "handle of-long",
          beside="class $b { static final VarHandle V = MethodHandles.arrayElementVarHandle(long[].class); }",
          start="Stage.put($n, new long[3]); Stage.use($b.V);"),
    Place("bytes as a number", "((byte[]) Stage.at($n)), 4", r"byte\[\]@\d+\[4\]", "view",
          beside="class $b { static final VarHandle V = MethodHandles.byteArrayViewVarHandle(int[].class, ByteOrder.nativeOrder()); }",
          start="Stage.put($n, new byte[9]); Stage.use($b.V);"),
    Place("a field with Unsafe", "(($b) Stage.at($n)), $b.F", FIELD, "unsafe", beside=UNSAFE, start=OBJECT + " Stage.use($b.V);"),
    Place("an element with Unsafe", "((int[]) Stage.at($n)), sun.misc.Unsafe.ARRAY_INT_BASE_OFFSET + 4L", r"int\[\]@\d+\[1\]", "unsafe",
          beside=UNSAFE, start="Stage.put($n, new int[3]); Stage.use($b.V);"),
]

NUMBER_CALLS = ["set(3)", "lazySet(4)", "getAndSet(5)", "incrementAndGet()", "getAndAdd(2)", "updateAndGet(q -> q + 1)",
                "accumulateAndGet(3, (q, s) -> q + s)", "setRelease(7)", "setPlain(3)", "setOpaque(1)", "decrementAndGet()"]
NUMBER_LOOKS = ["get()", "getPlain()", "getAcquire()", "getOpaque()", "intValue()", "doubleValue()", "toString()"]


def calls(traits, names, read=False):
    text = "Stage.use($x.%s);" if read else "$x.%s;"
    return [(name.partition("(")[0], text % name, traits) for name in names]


WRITES = forms([
    ("=", "$x = $value;", "plain", 3),
    ("= under a condition", "if (Stage.any() >= 0) $x = $value; else Stage.use(1);", "plain"),
    ("= in a finally", "try { Stage.use(1); } finally { $x = $value; }", "plain"),
    ("System.arraycopy", "System.arraycopy(new $type[1], 0, Stage.at($n), $i, 1);", "element", 2),
    ("set of an updater", "$b.V.set($x, 3);", "updater"), ("incrementAndGet of an updater", "$b.V.incrementAndGet($x);", "updater"),
    ("lazySet of an updater", "$b.V.lazySet($x, 3);", "updater"), ("getAndUpdate of an updater", "$b.V.getAndUpdate($x, q -> q + 1);", "updater"),
    ("compareAndSet of an updater", "if (!$b.V.compareAndSet($x, $old, 5)) throw new Error();", "updater"),
    ("= beside an updater", "$x.f = 4;", "updater"),
    ("set of an updater of references", "$b.V.set($x, Stage.text());", "reference-updater"), ("= beside an updater of references", "$x.f = Stage.text();",
        "reference-updater"),
    ("getAndSet of an updater of references", "$b.V.getAndSet($x, Stage.text());", "reference-updater"),
    ("compareAndSet of an updater of references", "if (!$b.V.compareAndSet($x, Stage.peekField($n), Stage.text())) throw new Error();", "reference-updater"),
    ("a method of a class of another loader", "$x.store(3);", "cell -own"), ("a method for its own field", "$x.storeOwn(3);", "cell own"),
    ("setState", "$x.state(3);", "state"), ("compareAndSetState", "if (!$x.swap(Stage.state($n), 4)) throw new Error();", "state"),
    ("set of a static handle", "$b.V.set(3);", "static-handle"), ("getAndAdd of a static handle", "Stage.use((int) $b.V.getAndAdd(1));", "static-handle"),
    ("compareAndSet of a static handle", 'if (!$b.V.compareAndSet(Stage.peek($n, "s"), 6)) throw new Error();', "static-handle"),
    ("= beside a static handle", "$b.s = 3;", "static-handle"),
    ("set of a view", "$b.V.set($x, 3);", "view"), ("setVolatile of a view", "$b.V.setVolatile($x, 3);", "view"),
    ("putInt", "$b.V.putInt($x, 3);", "unsafe"), ("putIntVolatile", "$b.V.putIntVolatile($x, 3);", "unsafe"), ("putOrderedInt",
        "$b.V.putOrderedInt($x, 3);", "unsafe"),
    ("getAndAddInt", "$b.V.getAndAddInt($x, 3);", "unsafe"), ("getAndSetInt", "$b.V.getAndSetInt($x, 3);", "unsafe"),
    ("compareAndSwapInt", "if (!$b.V.compareAndSwapInt($x, Stage.peekUnsafe($n), 5)) throw new Error();", "unsafe"),
    ("set of a handle", "$b.V.set($x, ($type) 3);", "handle"), ("setVolatile of a handle", "$b.V.setVolatile($x, ($type) 3);", "handle"),
    ("setRelease of a handle", "$b.V.setRelease($x, ($type) 3);", "handle"),
    ("getAndAdd of a handle", "Stage.use(($type) $b.V.getAndAdd($x, ($type) 1));", "handle"),
    ("getAndSet of a handle", "Stage.use(($type) $b.V.getAndSet($x, ($type) 1));", "handle"),
    ("compareAndSet of a handle", "if (!$b.V.compareAndSet($x, $old, ($type) 6)) throw new Error();", "handle"),
    ("compareAndExchange of a handle", "Stage.use(($type) $b.V.compareAndExchange($x, $old, ($type) 7));", "handle"),
    ("= beside a handle", "$x.f = 3;", "handle of-int"),
    ("compareAndSet", "if (!$x.compareAndSet($old, 5)) throw new Error();", "atomic-number"),
    ("compareAndExchange", "$x.compareAndExchange($old, 5);", "atomic-number"),
    ("compareAndSet of a reference", "if (!$x.compareAndSet(Stage.peekReference($n), Stage.text())) throw new Error();", "atomic-reference"),
    ("compareAndSet of a boolean", "{ boolean o = Stage.peekAtomic($n) != 0; if (!$x.compareAndSet(o, !o)) throw new Error(); }", "atomic-boolean"),
    ("compareAndExchange of a handle without its result", "$b.V.compareAndExchange($x, $old, ($type) 7);", "handle"),
    ("weakCompareAndSetPlain, until it is made", "while (!$x.weakCompareAndSetPlain($old, 5));", "atomic-number"),
    ("compareAndSet of an array", "if (!$x.compareAndSet(2, (int) Stage.peekAtomic($n), 5)) throw new Error();", "atomic-array"),
    ("compareAndSet of references", "if (!$x.compareAndSet(2, Stage.peekReference($n), Stage.text())) throw new Error();", "atomic-references"),
    ("compareAndSet with a stamp", "if (!$x.compareAndSet(Stage.peekReference($n), Stage.text(), Stage.peekStamp($n), 2)) throw new Error();", "atomic-stamped"),
    ("attemptStamp", "if (!$x.attemptStamp(Stage.peekReference($n), 5)) throw new Error();", "atomic-stamped"),
    ("compareAndSet with a mark", "if (!$x.compareAndSet(Stage.peekReference($n), Stage.text(), Stage.peekMark($n), true)) throw new Error();", "atomic-marked"),
    ("attemptMark", "if (!$x.attemptMark(Stage.peekReference($n), true)) throw new Error();", "atomic-marked"),
    ] + calls("atomic-number", NUMBER_CALLS) + calls("atomic-boolean", ["set(true)", "lazySet(false)", "getAndSet(true)"])
    + calls("atomic-reference", ["set(Stage.text())", "lazySet(Stage.text())", "getAndSet(Stage.text())", "updateAndGet(q -> Stage.text())"])
    + calls("atomic-array", ["set(2, 4)", "getAndIncrement(2)", "lazySet(2, 1)", "accumulateAndGet(2, 3, (q, s) -> q + s)"])
    + calls("atomic-references", ["set(2, Stage.text())", "getAndSet(2, Stage.text())", "updateAndGet(2, q -> Stage.text())"])
    + calls("atomic-stamped", ["set(Stage.text(), 1)"]) + calls("atomic-marked", ["set(Stage.text(), true)"]))

READS = forms([
    ("x", "Stage.use($x);", "plain", 3), ("a local", "{ $type l = $x; Stage.use(l); }", "plain"),
    ("x in a conditional", "Stage.use(Stage.any() >= 0 ? $x : $value);", "plain -boxed"), ("if (x)", "if ($x == 77) Stage.use(1);", "plain number"),
    ("switch (x)", "switch ((int) $x) { case 1: Stage.use(1); break; default: Stage.use(2); }", "plain number"),
    ("System.arraycopy out", "System.arraycopy(Stage.at($n), $i, new $type[1], 0, 1);", "element", 2),
    ("get of an updater", "Stage.use($b.V.get($x));", "updater"), ("x beside an updater", "Stage.use($x.f);", "updater|reference-updater"),
    ("get of an updater of references", "Stage.use($b.V.get($x));", "reference-updater"),
    ("compareAndSet of an updater of references, failed", "if ($b.V.compareAndSet($x, new Object(), 5)) throw new Error();", "reference-updater"),
    ("a method of a class of another loader", "Stage.use($x.load());", "cell -own"), ("a method for its own field", "Stage.use($x.loadOwn());", "cell own"),
    ("getState", "Stage.use($x.state());", "state"), ("compareAndSetState, failed", "if ($x.swap(Stage.state($n) + 1, 4)) throw new Error();", "state"),
    ("get of a static handle", "Stage.use((int) $b.V.get());", "static-handle"), ("x beside a static handle", "Stage.use($b.s);", "static-handle"),
    ("compareAndSet of a static handle, failed", 'if ($b.V.compareAndSet(Stage.peek($n, "s") + 1, 6)) throw new Error();', "static-handle"),
    ("get of a view", "Stage.use((int) $b.V.get($x));", "view"), ("getVolatile of a view", "Stage.use((int) $b.V.getVolatile($x));", "view"),
    ("getInt", "Stage.use($b.V.getInt($x));", "unsafe"), ("getIntVolatile", "Stage.use($b.V.getIntVolatile($x));", "unsafe"),
    ("compareAndSwapInt, failed", "if ($b.V.compareAndSwapInt($x, Stage.peekUnsafe($n) + 1, 5)) throw new Error();", "unsafe"),
    ("compareAndSet of an updater, failed", "if ($b.V.compareAndSet($x, $other, 5)) throw new Error();", "updater"),
    ("get of a handle", "Stage.use(($type) $b.V.get($x));", "handle"), ("getAcquire of a handle", "Stage.use(($type) $b.V.getAcquire($x));", "handle"),
    ("getVolatile of a handle", "Stage.use(($type) $b.V.getVolatile($x));", "handle"),
    ("compareAndSet of a handle, failed", "if ($b.V.compareAndSet($x, $other, ($type) 6)) throw new Error();", "handle"),
    ("compareAndExchange of a handle, failed", "Stage.use(($type) $b.V.compareAndExchange($x, $other, ($type) 7));", "handle"),
    ("x beside a handle", "Stage.use($x.f);", "handle of-int"),
    ("compareAndSet, failed", "if ($x.compareAndSet($other, 5)) throw new Error();", "atomic-number"),
    ("compareAndExchange, failed", "$x.compareAndExchange($other, 5);", "atomic-number"),
    ("weakCompareAndSetPlain, failed", "if ($x.weakCompareAndSetPlain($other, 5)) throw new Error();", "atomic-number"),
    ("compareAndSet of a reference, failed", "if ($x.compareAndSet(new Object(), Stage.text())) throw new Error();", "atomic-reference"),
    ("compareAndSet of a boolean, failed", "{ boolean o = Stage.peekAtomic($n) != 0; if ($x.compareAndSet(!o, o)) throw new Error(); }", "atomic-boolean"),
    ("compareAndSet of an array, failed", "if ($x.compareAndSet(2, (int) Stage.peekAtomic($n) + 1, 5)) throw new Error();", "atomic-array"),
    ("compareAndSet of references, failed", "if ($x.compareAndSet(2, new Object(), 5)) throw new Error();", "atomic-references"),
    ("compareAndSet with a stamp, failed", "if ($x.compareAndSet(new Object(), 4, 5, 2)) throw new Error();", "atomic-stamped"),
    ("compareAndSet with a mark, failed", "if ($x.compareAndSet(new Object(), 4, true, false)) throw new Error();", "atomic-marked"),
    ("get with a stamp", "Stage.use($x.get(new int[1]));", "atomic-stamped"), ("get with a mark", "Stage.use($x.get(new boolean[1]));", "atomic-marked"),
    ] + calls("atomic-number", NUMBER_LOOKS, True) + calls("atomic-reference", ["get()", "getAcquire()", "getPlain()"], True)
    + calls("atomic-boolean", ["get()", "getAcquire()"], True) + calls("atomic-array|atomic-references", ["get(2)", "getAcquire(2)"], True)
    + calls("atomic-stamped", ["getReference()", "getStamp()"], True) + calls("atomic-marked", ["getReference()", "isMarked()"], True))

CHANGES = forms([("x++", "$x++;", "plain changed"), ("x += 3", "$x += 3;", "plain changed"), ("--x", "--$x;", "plain changed"),
                 ("x = x + 1", "$x = ($type) ($x + 1);", "plain changed"), ("x += text", '$x += "a";', "plain text -element"),
                 ("iterator and remove", "Stage.with($n, 3); { var i = $x.iterator(); i.next(); i.remove(); }", "iterated"),
                 ("listIterator and set", "Stage.with($n, 3); { var i = $x.listIterator(); i.next(); i.set(4); }", "listed"),
                 ("listIterator and add", "Stage.with($n, 3); { var i = $x.listIterator(); i.next(); i.add(5); }", "listed")])

MAP_WRITES = ['put("a", 1)', 'remove("a")', "clear()", 'putAll(Map.of("c", 2))', 'putIfAbsent("a", 1)', 'merge("a", 1, Integer::sum)',
              'compute("a", (q, s) -> 3)', "replaceAll((q, s) -> 4)"]
MAP_READS = ['get("a")', 'containsKey("b")', "size()", "isEmpty()", 'getOrDefault("a", 3)', "containsValue(4)", "keySet()", "entrySet()"]
LIST_WRITES = ["add(1)", "set(0, 4)", "add(0, 3)"]
LIST_READS = ["get(0)", "size()", "contains(3)"]
#: Behind what makes sure that it changes something, or doesn't, and has no event.
PUT, DROP = 'Stage.with($n, %s); $x.%s;', 'Stage.without($n, %s); $x.%s;'


def behind(before, key, calls_of_key):
    return [(call + (" behind a put" if before == PUT else " behind a remove"), before % (key, call), "collection") for call in calls_of_key]


KEY_WRITES = ['put("a", 1)', 'merge("a", 1, Integer::sum)', 'compute("a", (q, s) -> s == null ? 3 : s + 1)'] + behind(
    PUT, '"a"', ['remove("a")', 'replace("a", 3)', 'remove("a", 0)', 'replace("a", 0, 4)'])
KEY_READS = ['get("a")', 'containsKey("a")', 'getOrDefault("a", 2)'] + behind(DROP, '"a"', ['remove("a")', 'replace("a", 3)', 'remove("a", 0)']) + behind(
    PUT, '"a"', ['remove("a", 9)', 'replace("a", 9, 4)'])
SET_WRITES, SET_READS = ["add(7)", "remove(8)", "clear()"], ["contains(3)", "size()", "isEmpty()"]
#: Of sets for several threads, which know what changes them.
OWN_WRITES, OWN_READS = behind(DROP, 7, ["add(7)"]) + behind(PUT, 8, ["remove(8)"]), behind(PUT, 7, ["add(7)"]) + behind(DROP, 8, ["remove(8)"])
#: Collections: the type, its elements at first or what makes it, the calls that write and that read it, and its traits.
COLLECTIONS = [
    ("HashMap<String, Integer>", "", MAP_WRITES, MAP_READS, ""), ("TreeMap<String, Integer>", "", MAP_WRITES, MAP_READS, ""),
    ("LinkedHashMap<String, Integer>", "", MAP_WRITES, MAP_READS, ""), ("Hashtable<String, Integer>", "", MAP_WRITES, MAP_READS + ["keys()", "elements()"], ""),
    ("WeakHashMap<String, Integer>", "", MAP_WRITES, MAP_READS, ""), ("IdentityHashMap<String, Integer>", "", MAP_WRITES, MAP_READS, ""),
    ("Properties", "", ['setProperty("a", "b")', 'put("a", "c")', "clear()"], ['getProperty("a")', "size()", 'get("a")'], ""),
    ("ConcurrentHashMap<String, Integer>", "", KEY_WRITES, KEY_READS, "keys"), ("ConcurrentSkipListMap<String, Integer>", "", KEY_WRITES, KEY_READS, "keys"),
    ("ConcurrentSkipListSet<Object>", "", behind(PUT, '"a"', ['remove("a")']), ['contains("a")'] + behind(DROP, '"a"', ['remove("a")']), "keys"),
    ("ArrayList<Object>", "List.of(1, 2)", LIST_WRITES + ["addAll(List.of(1, 2))", "removeIf(q -> false)"],
     LIST_READS + ["indexOf(4)", "isEmpty()", "iterator()", "toArray()"], "iterated listed"),
    ("LinkedList<Object>", "List.of(1, 2)", LIST_WRITES + ["addFirst(4)", "add(5)", "push(6)"], LIST_READS + ["getFirst()", "isEmpty()"], "iterated listed"),
    ("ArrayDeque<Object>", "List.of(1, 2)", ["add(1)", "push(2)", "addFirst(2)", "addLast(3)", "offer(4)"],
     ["peek()", "peekFirst()", "size()", "contains(3)", "isEmpty()"], "iterated"),
    ("PriorityQueue<Object>", "List.of(1, 2)", ["add(1)", "offer(3)"], ["peek()", "size()", "isEmpty()"], "iterated"),
    ("HashSet<Object>", "List.of(1, 2)", SET_WRITES, SET_READS, "iterated"), ("TreeSet<Object>", "List.of(1, 2)", SET_WRITES, SET_READS + ["floor(3)"],
        "iterated"),
    ("LinkedHashSet<Object>", "List.of(1, 2)", SET_WRITES, SET_READS, "iterated"), ("CopyOnWriteArraySet<Object>", "List.of(1, 2)", OWN_WRITES + ["clear()"],
        SET_READS + OWN_READS, ""),
    ("CopyOnWriteArrayList<Object>", "List.of(1, 2)", LIST_WRITES + behind(DROP, 77, ["addIfAbsent(77)"]), LIST_READS + behind(PUT, 78, ["addIfAbsent(78)"]), ""),
    ("Vector<Object>", "List.of(1, 2)", LIST_WRITES + ["addElement(3)", "insertElementAt(3, 0)"], LIST_READS + ["elementAt(0)", "isEmpty()"], "iterated listed"),
    ("BitSet", "", ["set(3)", "flip(4)", "clear()"], ["get(3)", "cardinality()", "isEmpty()"], ""),
    ("List<Object>", "Collections.synchronizedList(new ArrayList<Object>(List.of(1, 2)))", LIST_WRITES, LIST_READS, ""),
    ("Map<String, Integer>", "Collections.synchronizedMap(new HashMap<String, Integer>())", MAP_WRITES, MAP_READS, ""),
    ("Set<Object>", "Collections.synchronizedSet(new HashSet<Object>())", ["add(7)", "remove(8)"], ["contains(3)", "size()"], ""),
]


def collection(program, it):
    """Makes the variable a collection."""
    kind, first, writes, reads, traits = program.random.choice(COLLECTIONS)
    name = kind.partition("<")[0]
    new = first if first.startswith("Collections.") else "new %s(%s)" % (kind, first)
    pattern = name + r"@\d+\.key.*" if "keys" in traits else r".*%s@\d+" % name
    it.place = Place("a " + name, "((%s) Stage.at($n))" % kind, pattern, "collection " + traits, start="Stage.put($n, %s);" % new)
    it.writes, it.reads = (forms(calls("collection", [one for one in all_of if isinstance(one, str)], read) + [one for one in all_of if not isinstance(one, str)])
                           for all_of, read in ((writes, False), (reads, True)))


def make_variable(program, number, name):
    """Returns a variable, and adds its declaration to the program."""
    it, random = Thing(number, name), program.random
    it.writes, it.reads, it.log_name = WRITES, READS, None
    it.type, it.value, traits = random.choice(TYPES)
    if program.chance(0.3):
        collection(program, it)
    else:
        it.place = random.choice([one for one in PLACES if fits(one.needs, traits.split())])
    it.traits = set(it.place.traits.split()) | (set(traits.split()) if "plain" in it.place.traits else set())
    at = random.randrange(3)
    if "handle" in it.traits:
        it.type = "long" if "of-long" in it.traits else "int"
    of = '"1"' if "of-long" in it.traits else '"f"'
    typed = "long" if "AtomicLong" in it.place.name else "int"
    old = "(%s) Stage.peekAtomic(%d)" % (typed, number) if "atomic-number" in it.traits else "Stage.peek(%d, %s)" % (number, of)
    it.words = {"n": number, "p": program.name, "b": "B%d" % number, "type": it.type, "value": it.value, "i": at, "old": old, "other": old + " + 1",
                "index": random.choice([str(at), "(int) Stage.same(%d)" % at])}
    for texts, text in ((program.fields, it.place.field), (program.beside, it.place.beside), (program.start, it.place.start)):
        if text:
            texts.append(string.Template(text).substitute(it.words))
    it.words["x"] = string.Template(it.place.x).substitute(it.words)
    escaped = {key: re.escape(str(value)) for key, value in it.words.items()}
    it.pattern = re.compile(string.Template(it.place.pattern).substitute(escaped))
    return it


def write(program, it):
    return program.choose(it.writes, it.traits, it.words)


def read(program, it):
    return program.choose(it.reads, it.traits, it.words)


def change(program, it):
    """Returns a form that reads and writes the variable, or None."""
    try:
        return program.choose(CHANGES, it.traits, it.words)
    except LookupError:
        return None
