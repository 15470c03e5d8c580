"""The ways to write and to read a variable in C and C++.

In a text, $x is the variable, $p its address (of its own type or void), $v that address as a void pointer, $type its type and $t
the type without its name of the program, $size its bytes, $part a byte of it, $count the elements of its array, $kind the name of
its structure, $value a number of its type, $bit 0 or 1, $source the address of other bytes, $load, $store and $both orders of atomic
operations, $old the value that is in it, read by the scheduler, $other another value.
"""
from collections import namedtuple

from c.variables import OF_LIBRARY, OF_LOADED
from program import forms

CHANGES = ["fetch_add", "fetch_sub", "fetch_and", "fetch_or", "fetch_xor", "fetch_nand", "add_fetch", "nand_fetch"]
OLD_CHANGES = ["fetch_and_add", "sub_and_fetch", "fetch_and_or", "fetch_and_xor", "and_and_fetch"]

WRITES = forms([
    ("x = value", "$x = $value;", "scalar", 4),
    ("x = constant", "$x = ($type)$bit;", "scalar -vector"),
    ("volatile x = value", "$x = $value;", "volatile"),
    ("volatile x = constant", "$x = ($type)3;", "volatile"),
    ("a cast to volatile = value", "*(volatile $type *)$p = $value;", "scalar aligned"),
    ("x = value under a condition", "if (stage_same(1)) $x = $value; else stage_use(2);", "scalar"),
    ("*p = value", "{ $type *p = ($type *)$p; *p = $value; }", "scalar aligned"),
    ("*p = value by a thread-local p", "near = $v; *($type *)near = $value;", "scalar aligned"),
    ("bit-field = constant", "$x.a = 3;", "bits"),
    ("bit-field = value", "$x.a = (unsigned)stage_any();", "bits"),
    ("two bit-fields = constants", "$x.a = 1; $x.b = 2;", "bits"),
    ("__atomic_store_n", "__atomic_store_n(($type *)$p, 1, $store);", "number aligned scalar"),
    ("__atomic_store", "{ $type l = 1; __atomic_store(($type *)$p, &l, $store); }", "number aligned scalar"),
    ("__atomic_exchange_n", "stage_use((long)__atomic_exchange_n(($type *)$p, 1, $both));", "number aligned scalar"),
    ("__atomic_exchange", "{ $type l = 1, m; __atomic_exchange(($type *)$p, &l, &m, $both); stage_see(&m); }", "number aligned scalar")]
    + [("__atomic_" + one, "__atomic_%s(($type *)$p, 1, $both);" % one, "number aligned scalar", 0.3) for one in CHANGES]
    + [("__sync_" + one, "__sync_%s(($type *)$p, 1);" % one, "number aligned scalar", 0.3) for one in OLD_CHANGES] + [
    ("__sync_lock_test_and_set", "stage_use((long)__sync_lock_test_and_set(($type *)$p, 1));", "number aligned scalar"),
    ("__sync_lock_release", "__sync_lock_release(($type *)$p);", "number aligned scalar"),
    ("__sync_val_compare_and_swap, done", "__sync_val_compare_and_swap(($type *)$p, $old, 1);", "number aligned scalar"),
    ("__sync_bool_compare_and_swap, done", "stage_use(__sync_bool_compare_and_swap(($type *)$p, $old, 1));", "number aligned scalar"),
    ("__atomic_compare_exchange_n, done",
     "{ $type e = $old; __atomic_compare_exchange_n(($type *)$p, &e, 1, $bit, $both, __ATOMIC_RELAXED); }", "number aligned scalar"),
    ("atomic_ref store", "std::atomic_ref<$type>(*($type *)$p).store(1);", "c++20 number aligned scalar"),
    ("atomic_ref fetch_add", "std::atomic_ref<$type>(*($type *)$p).fetch_add(1);", "c++20 number aligned scalar"),
    ("__atomic_test_and_set", "stage_use(__atomic_test_and_set($v, __ATOMIC_SEQ_CST));", "boolean aligned"),
    ("__atomic_clear", "__atomic_clear(($type *)$p, __ATOMIC_RELEASE);", "boolean aligned"),
    ("_mm_store_si128", "_mm_store_si128((__m128i *)$v, _mm_set1_epi32(2));", "v16 aligned"),
    ("_mm_storeu_si128", "_mm_storeu_si128((__m128i *)$v, _mm_set1_epi32(2));", "v16 aligned"),
    ("non-temporal store", "_mm_stream_si128((__m128i *)$v, _mm_set1_epi32(2));", "v16 aligned"),
    ("structure = *p", "$x = *($type *)stage_source();", "structure", 2),
    ("structure = local", "{ $type l; stage_see(&l); $x = l; }", "structure"),
    ("structure = {0}", "$x = ($type){0};", "structure c"),
    ("structure = {}", "$x = $type();", "structure c++"),
    ("structure = {1}", "$x = $type{1};", "structure c++"),
    ("structure = {1} in C", "$x = ($type){1};", "structure c"),
    ("structure = call", "$x = aside_make_$kind();", "structure", 2),
    ("structure = call, unlogged", "$x = stage_make_$kind();", "structure small"),
    ("structure = *call", "$x = *aside_point_$kind();", "structure"),
    ("loop of a constant", "for (int i = 0; i < $count; i++) $x.b[i] = $bit;", "array"),
    ("loop of values", "for (int i = 0; i < $count; i++) $x.b[i] = i * 3;", "array"),
    ("loop that copies", "{ $type *q = ($type *)stage_source(); for (int i = 0; i < $count; i++) $x.b[i] = q->b[i]; }", "array"),
    ("std::fill", "std::fill($x.b, $x.b + $count, $bit);", "array c++"),
    ("std::fill_n", "std::fill_n($x.b, $count, 0);", "array c++"),
    ("std::copy", "{ $type *q = ($type *)stage_source(); std::copy(q->b, q->b + $count, $x.b); }", "array c++"),
    ("std::copy_n", "std::copy_n((($type *)stage_source())->b, $count, $x.b);", "array c++"),
    ("each field = constant", "$x.a = 1; $x.c = 2; $x.d = 3; $x.b[0] = 4; $x.b[1] = 5; $x.b[2] = 6;", "mixed"),
    ("a byte of it = constant", "((unsigned char *)$p)[$part] = 3;", "scalar|structure"),
    ("a byte of it = value", "((unsigned char *)$p)[$part] = (unsigned char)stage_any();", "scalar|structure"),
    ("memcpy", "memcpy($v, $source, $size);", "scalar|structure"),
    ("memcpy of any size", "memcpy($v, $source, stage_same($size));", "scalar|structure"),
    ("memmove", "memmove($v, $source, $size);", "scalar|structure"),
    ("memmove of any size", "memmove($v, $source, stage_same($size));", "scalar|structure"),
    ("memset of 0", "memset($v, 0, $size);", "scalar|structure"),
    ("memset", "memset($v, 1, $size);", "scalar|structure"),
    ("memset of any size", "memset($v, 1, stage_same($size));", "scalar|structure"),
    ("__builtin_memcpy", "__builtin_memcpy($v, $source, $size);", "scalar|structure"),
    ("__builtin_memset", "__builtin_memset($v, 0, $size);", "scalar|structure"),
    ("memcpy from a local", "{ char l[$size]; stage_see(l); memcpy($v, l, $size); }", "scalar|structure"),
    ("bzero", "bzero($v, $size);", "scalar|structure"),
    ("bzero of any size", "bzero($v, stage_same($size));", "scalar|structure"),
    ("mempcpy", "mempcpy($v, $source, $size);", "scalar|structure"),
    ("mempcpy of any size", "mempcpy($v, $source, stage_same($size));", "scalar|structure"),
    ("bcopy", "bcopy($source, $v, $size);", "scalar|structure"),
    ("strncpy", "strncpy((char *)$v, (char *)$source, $size);", "of-bytes"),
    ("asm output", 'asm volatile("" : "=m"(*(struct bytes$size *)$p));', "sized aligned"),
    ("placement new", "new ($v) $type();", "scalar|structure c++ aligned -v32"),
    ("_Atomic = constant", "$x = 1;", "atomic c"), ("_Atomic ++", "$x++;", "atomic c"), ("_Atomic +=", "$x += 2;", "atomic c"),
    ("_Atomic |=", "$x |= 2;", "atomic c"), ("atomic_store", "atomic_store(&$x, 2);", "atomic c"), ("atomic_init", "atomic_init(&$x, 2);", "atomic c"),
    ("atomic_store_explicit", "atomic_store_explicit(&$x, 2, memory_order_release);", "atomic c"),
    ("atomic_exchange", "stage_use(atomic_exchange(&$x, 2));", "atomic c"),
    ("atomic_fetch_add", "stage_use(atomic_fetch_add(&$x, 2));", "atomic c"),
    ("atomic_fetch_sub", "stage_use(atomic_fetch_sub_explicit(&$x, 2, memory_order_relaxed));", "atomic c"),
    ("atomic_compare_exchange_strong, done", "{ $t e = $old; stage_use(atomic_compare_exchange_strong(&$x, &e, 5)); }", "atomic c"),
    ("atomic_compare_exchange_weak, done", "{ $t e = $old; stage_use(atomic_compare_exchange_weak(&$x, &e, 5)); }", "atomic c"),
    ("store", "$x.store(1);", "atomic c++"), ("store, relaxed", "$x.store(1, std::memory_order_relaxed);", "atomic c++"),
    ("store, release", "$x.store(1, std::memory_order_release);", "atomic c++"), ("atomic =", "$x = 2;", "atomic c++"),
    ("exchange", "stage_use($x.exchange(3));", "atomic c++"), ("exchange, acq_rel", "stage_use($x.exchange(3, std::memory_order_acq_rel));", "atomic c++"),
    ("fetch_add", "$x.fetch_add(1);", "atomic c++"), ("fetch_sub, relaxed", "$x.fetch_sub(1, std::memory_order_relaxed);", "atomic c++"),
    ("fetch_and", "stage_use($x.fetch_and(7));", "atomic c++"), ("fetch_or", "stage_use($x.fetch_or(7));", "atomic c++"),
    ("atomic ++", "$x++;", "atomic c++"), ("++ atomic", "++$x;", "atomic c++"), ("atomic |=", "$x |= 1;", "atomic c++"),
    ("compare_exchange_strong, done", "{ $t e = $old; stage_use($x.compare_exchange_strong(e, 5)); }", "atomic c++"),
    ("compare_exchange_weak, done",
     "{ $t e = $old; stage_use($x.compare_exchange_weak(e, 5, std::memory_order_acq_rel, std::memory_order_relaxed)); }", "atomic c++"),
    ("std::atomic_store", "std::atomic_store(&$x, ($t)1);", "atomic c++"),
    ("std::atomic_fetch_add", "std::atomic_fetch_add(&$x, ($t)1);", "atomic c++"),
])

READS = forms([
    ("x", "$use($real$x);", "scalar -vector", 4),
    ("volatile x", "$use($real$x);", "volatile"),
    ("volatile x, unused", "(void)$x;", "volatile c"),
    ("if (x)", "if ($x) stage_use(2);", "scalar -vector"),
    ("x == value", "stage_use($x == ($type)stage_any());", "scalar -vector"),
    ("x in a conditional", "$use($real(stage_same(1) ? $x : ($type)0));", "scalar -vector"),
    ("a cast to volatile", "$use($real*(volatile $type *)$p);", "scalar aligned -vector"),
    ("*p", "{ const $type *p = ($type *)$p; $use($real*p); }", "scalar aligned -vector"),
    ("*p by a thread-local p", "near = $v; $use($real*($type *)near);", "scalar aligned -vector"),
    ("vector", "{ $type l = $x; stage_see(&l); }", "vector"),
    ("elements of a vector", "stage_use($x[0]); stage_use($x[1]); stage_use($x[2]); stage_use($x[3]);", "v16"),
    ("_mm_loadu_si128", "{ __m128i l = _mm_loadu_si128((__m128i *)$v); stage_see(&l); }", "v16"),
    ("bit-field", "stage_use($x.a);", "bits"),
    ("if (bit-field)", "if ($x.b) stage_use(1);", "bits"),
    ("switch (x)", "switch ((int)$x) { case 1: stage_use(1); break; case 2: stage_use(5); break; case 9: stage_use(7); break; default: stage_use(3); }",
     "scalar integer aligned"),
    ("__atomic_load_n", "stage_use((long)__atomic_load_n(($type *)$p, $load));", "number aligned scalar"),
    ("__atomic_load", "{ $type l; __atomic_load(($type *)$p, &l, $load); stage_see(&l); }", "number aligned scalar"),
    ("__sync_bool_compare_and_swap, failed", "stage_use(__sync_bool_compare_and_swap(($type *)$p, $other, 1));", "number aligned scalar"),
    ("__sync_val_compare_and_swap, failed", "stage_use((long)__sync_val_compare_and_swap(($type *)$p, $other, 1));", "number aligned scalar"),
    ("__atomic_compare_exchange_n, failed",
     "{ $type e = $other; stage_use(__atomic_compare_exchange_n(($type *)$p, &e, 1, 0, __ATOMIC_SEQ_CST, __ATOMIC_RELAXED)); }", "number aligned scalar"),
    ("atomic_ref load", "stage_use((long)std::atomic_ref<$type>(*($type *)$p).load());", "c++20 number aligned scalar"),
    ("local = structure", "{ $type l = $x; stage_see(&l); }", "structure"),
    ("local = structure, declared before", "{ $type l; l = $x; stage_see(&l); }", "structure"),
    ("structure passed by value", "stage_take_$kind($x);", "structure", 2),
    ("structure passed by value to a logged function", "aside_take_$kind($x);", "structure"),
    ("structure returned", "{ $type l = aside_give_$kind(($type *)$v); stage_see(&l); }", "structure aligned"),
    ("loop that sums", "{ long s = 0; for (int i = 0; i < $count; i++) s += $x.b[i]; stage_use(s); }", "array"),
    ("loop that copies out", "{ $type *q = ($type *)stage_scratch(); for (int i = 0; i < $count; i++) q->b[i] = $x.b[i]; }", "array"),
    ("std::copy out", "{ $type *q = ($type *)stage_scratch(); std::copy($x.b, $x.b + $count, q->b); }", "array c++"),
    ("std::accumulate", "stage_use((long)std::accumulate($x.b, $x.b + $count, 0));", "array c++"),
    ("each field", "stage_use($x.a + $x.c + $x.b[0] + $x.b[1] + $x.b[2]); stage_use_real($x.d);", "mixed"),
    ("a byte of it", "stage_use(((unsigned char *)$p)[$part]);", "scalar|structure", 2),
    ("memcpy out", "memcpy(stage_scratch(), $v, $size);", "scalar|structure"),
    ("memcpy out, of any size", "memcpy(stage_scratch(), $v, stage_same($size));", "scalar|structure"),
    ("memmove out", "memmove(stage_scratch(), $v, $size);", "scalar|structure"),
    ("memmove out, of any size", "memmove(stage_scratch(), $v, stage_same($size));", "scalar|structure"),
    ("mempcpy out", "mempcpy(stage_scratch(), $v, $size);", "scalar|structure"),
    ("memcpy to a local", "{ char l[$size]; memcpy(l, $v, $size); stage_see(l); }", "scalar|structure"),
    ("__builtin_memcpy out", "__builtin_memcpy(stage_scratch(), $v, $size);", "scalar|structure"),
    ("asm input", 'asm volatile("" : : "m"(*(struct bytes$size *)$p));', "sized aligned"),
    ("memcmp", "stage_use(memcmp(stage_source(), $v, $size));", "scalar|structure"),
    ("memcmp, of any size", "stage_use(memcmp(stage_source(), $v, stage_same($size)));", "scalar|structure"),
    ("_Atomic", "stage_use($x);", "atomic c"), ("atomic_load", "stage_use(atomic_load(&$x));", "atomic c"),
    ("atomic_load_explicit", "stage_use(atomic_load_explicit(&$x, memory_order_acquire));", "atomic c"),
    ("atomic_compare_exchange_strong, failed", "{ $t e = $other; stage_use(atomic_compare_exchange_strong(&$x, &e, 5)); }", "atomic c"),
    ("atomic_compare_exchange_weak, failed", "{ $t e = $other; stage_use(atomic_compare_exchange_weak(&$x, &e, 5)); }", "atomic c"),
    ("load", "stage_use($x.load());", "atomic c++"), ("load, relaxed", "stage_use($x.load(std::memory_order_relaxed));", "atomic c++"),
    ("load, acquire", "stage_use($x.load(std::memory_order_acquire));", "atomic c++"),
    ("load, consume", "stage_use($x.load(std::memory_order_consume));", "atomic c++"), ("atomic", "stage_use($x);", "atomic c++"),
    ("std::atomic_load", "stage_use(std::atomic_load(&$x));", "atomic c++"),
    ("compare_exchange_strong, failed", "{ $t e = $other; stage_use($x.compare_exchange_strong(e, 5)); }", "atomic c++"),
    ("compare_exchange_weak, failed",
     "{ $t e = $other; stage_use($x.compare_exchange_weak(e, 5, std::memory_order_release, std::memory_order_relaxed)); }", "atomic c++"),
])

#: A read and then a write of one variable.
CHANGES_OF_ONE = forms([
    ("volatile x = x + 1", "$x = $x + 1;", "volatile"),
    ("bit-field ++", "$x.a++;", "bits"),
    ("x++", "$x++;", "scalar -vector -pointer -boolean -enum"),
    ("x += value", "$x += ($type)stage_any();", "scalar -vector -pointer -boolean -enum"),
    ("x = x + 1", "$x = $x + 1;", "scalar -vector -pointer -boolean -enum"),
    ("x ^= 3", "$x ^= 3;", "scalar integer -enum"),
    ("x <<= 1", "$x <<= 1;", "scalar integer -enum"),
])

#: A read of one variable, $y with the address $q, and then a write of another one of its type.
COPIES = forms([
    ("x = y", "$x = $y;", "", 3),
    ("memcpy of x and y", "memcpy($v, $q, $size);"),
    ("memmove of x and y", "memmove($v, $q, $size);"),
    ("memcpy of x and y, of any size", "memcpy($v, $q, stage_same($size));"),
    ("__builtin_memcpy of x and y", "__builtin_memcpy($v, $q, $size);"),
])

#: The functions in which an access may be, as $f.
AROUND = forms([("a function", "$f();", "", 4), ("a signal handler", "stage_in_signal($f);"), ("a callback of qsort", "stage_in_sort($f);")])

#: A class of std: its bytes, and what writes and reads objects of it. All forms of one class touch the same fields.
Object = namedtuple("Object", "type size writes reads")


def written(*texts):
    return forms([(text.replace("$x", "x"), text) for text in texts])


OBJECTS = [
    Object("std::string", 32,
           written('$x = "abc";', '$x.assign("a text that is too long for itself");', "$x += 'c';", "$x.push_back('c');", "$x.clear();",
                   "$x.append(3, 'x');", "$x.resize(5);"),
           written("stage_use($x.size());", "stage_use($x.empty());", "{ std::string l($x); stage_see(&l); }", 'stage_use($x == "abc");',
                   "stage_use($x.length() > 2);")),
    Object("std::vector<int>", 24,
           written("$x.push_back(3);", "$x.assign($x.size() + 1, 5);", "$x.emplace_back(6);", "$x.resize($x.size() + 1);",
                   "$x = std::vector<int>($x.size() + 2, 2);"),
           written("stage_use($x.size());", "stage_use($x.empty());", "{ std::vector<int> l($x); stage_see(&l); }")),
    Object("std::deque<int>", 80, written("$x.push_back(3);", "$x.emplace_back(6);"), written("stage_use($x.size());", "stage_use($x.empty());")),
    Object("std::unordered_map<int, int>", 56, written("$x.clear(); $x[1] = 3;", "$x.clear(); $x.emplace(2, 3);"),
           written("stage_use($x.size());", "stage_use($x.empty());")),
    Object("std::shared_ptr<int>", 16, written("$x = std::make_shared<int>(3);", "$x.reset(new int(4));"),
           written("stage_use($x != nullptr);", "{ std::shared_ptr<int> l($x); stage_see(&l); }", "stage_use($x.get() != 0);")),
    Object("std::pair<int, int>", 8, written("$x = std::make_pair(1, 2);", "$x = {3, 4};"),
           written("stage_use($x.first + $x.second);", "{ std::pair<int, int> l = $x; stage_see(&l); }")),
    Object("std::tuple<int, long>", 16, written("$x = std::make_tuple(1, 2L);", "std::get<0>($x) = 3; std::get<1>($x) = 4;"),
           written("stage_use(std::get<0>($x) + std::get<1>($x));")),
    Object("std::bitset<64>", 8, written("$x.set(3);", "$x.flip();", "$x.reset();"),
           written("stage_use($x.count());", "stage_use($x.any());", "stage_use($x.test(3));")),
    Object("std::complex<double>", 16, written("$x = std::complex<double>(1, 2);", "$x += 3;"),
           written("stage_use_real($x.real() + $x.imag());", "{ std::complex<double> l = $x; stage_see(&l); }")),
    Object("std::function<int()>", 32, written("$x = [] { return 3; };", "$x = [] { return 4; };"), written("stage_use($x != nullptr);")),
    # What links their nodes is code of the C++ library.
    Object("std::map<int, int>", 48, written("$x.clear(); $x[(int)stage_any()] = 3;", "$x.clear(); $x.emplace(99, 3);", "$x.clear();"),
           written("stage_use($x.size());", "{ std::map<int, int> l($x); stage_see(&l); }")),
    Object("std::list<int>", 24, written("$x.push_back(3);", "$x.emplace_back(6);", "$x.push_front(7);"), written("stage_use($x.size());")),
]

LOADS = ["__ATOMIC_RELAXED", "__ATOMIC_ACQUIRE", "__ATOMIC_CONSUME", "__ATOMIC_SEQ_CST"]
STORES = ["__ATOMIC_RELAXED", "__ATOMIC_RELEASE", "__ATOMIC_SEQ_CST"]
BOTH = ["__ATOMIC_RELAXED", "__ATOMIC_ACQUIRE", "__ATOMIC_RELEASE", "__ATOMIC_ACQ_REL", "__ATOMIC_SEQ_CST"]
VALUES = {"vector16": "(vector16){1, 2, 3, (int)stage_any()}", "vector32": "(vector32){1, 2, 3, (int)stage_any(), 5, 6, 7, 8}",
          "void *": "(void *)stage_any()"}


def variable_at(program, it, in_library=False):
    """Returns an expression for the variable: its name, or by its address."""
    if it.place.name == "a packed field":
        return "((struct P%d *)stage_at(%d))->f" % (it.number, it.number) if in_library or program.chance(0.5) else it.direct
    if not it.direct or (in_library and it.place.name not in (OF_LIBRARY, OF_LOADED)) or program.chance(0.3):
        return "(*(%s *)stage_at(%d))" % (it.typedef, it.number)
    return it.direct


def address_of(program, it, in_library=False):
    """Returns an expression for the address of the variable."""
    if it.place.name == "a packed field" or program.chance(0.4):
        return "stage_at(%d)" % it.number
    return "&" + variable_at(program, it, in_library)


def words_for(program, it, in_library=False):
    """Returns the words of a form for the variable."""
    random, address = program.random, address_of(program, it, in_library)
    x = variable_at(program, it, in_library)
    t, kind = it.type.name, it.type.name.split()[-1]
    of = "&" + x if it.family == "atomic" else "(void *)" + address
    old = "(%s)stage_peek(%s, %d)" % (t, of, it.type.size)
    is_real = "real" in it.traits
    return {"x": x, "p": address, "v": "(void *)" + address, "type": it.typedef, "t": t, "kind": kind, "size": it.type.size, "part": it.part,
            "count": it.type.size // 4 if "of-ints" in it.traits else it.type.size, "bit": random.choice("01"),
            "value": VALUES.get(t, "(%s)stage_any()" % it.typedef), "source": random.choice(["stage_source()", "stage_scratch()"]),
            "load": random.choice(LOADS), "store": random.choice(STORES), "both": random.choice(BOTH), "old": old,
            "other": "(%s)(stage_peek(%s, %d) ^ 1)" % (t, of, it.type.size), "use": "stage_use_real" if is_real else "stage_use",
            "real": "(double)" if is_real else "(long)"}


def write(program, it, in_library=False):
    return program.choose(it.object.writes if it.object else WRITES, it.traits, words_for(program, it, in_library))


def read(program, it, in_library=False):
    return program.choose(it.object.reads if it.object else READS, it.traits, words_for(program, it, in_library))


def change(program, it, in_library=False):
    """Returns a form that reads and writes the variable, or None."""
    try:
        return program.choose(CHANGES_OF_ONE, it.traits, words_for(program, it, in_library))
    except LookupError:
        return None


def copy(program, to, source, in_library=False):
    """Returns a form that reads one variable and writes the other, or None."""
    if to.type != source.type or to.family != source.family or to.family not in ("scalar", "structure"):
        return None
    words = words_for(program, to, in_library)
    words.update(y=variable_at(program, source, in_library), q="(void *)" + address_of(program, source, in_library))
    return program.choose(COPIES, to.traits, words)
