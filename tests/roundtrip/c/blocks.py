"""The functions of programs in C and C++ that are blocks."""
import string
from collections import namedtuple

from c.threads import AT_ONCE
from program import fits

#: A kind of function: its declaration, its definition with $whole (or $body) and the text that calls it, its label, what it needs,
#: and its weight. $f is the function and $k a class of its own. A kind without a label has one that the pattern describes.
Kind = namedtuple("Kind", "name declared defined call label needs weight")


def plain(name, head, needs="", call="($f())", weight=1):
    """Returns a kind whose declaration is the head of its definition."""
    return Kind(name, head + ";", head + " $whole", call, "$f", needs, weight)


def with_attribute(attribute, needs=""):
    return plain("a function with " + attribute, "static __attribute__((%s)) long $f(void)" % attribute, needs, weight=0.2)


def of_class(name, head, definition, needs="c++", call="($k().$f(1))"):
    return Kind(name, "struct $k { %s; };" % head, "%s $whole" % definition, call, "$k::$f", needs, 1)


OF_LIBRARY, OF_LOADED = "a function of a library", "a function of a library that dlopen loads"
METHOD = "long $k::$f(int)"
LAMBDA = r"re:(?!const::).*(lambda|\$_\d).*"
KINDS = [
    plain("a static function", "static long $f(void)", weight=2), plain("a function", "long $f(void)"),
    plain("an inline function", "static inline long $f(void)"), plain("a weak function", "__attribute__((weak)) long $f(void)"),
    plain("a function by a pointer", "static long $f(void)", call="(((long (*)(void))stage_pass((void *)$f))())"),
    plain("a noexcept function", "static long $f() noexcept", "c++ return|tail"),
    with_attribute("noinline"), with_attribute("hot"), with_attribute("cold"), with_attribute("unused"), with_attribute("flatten", "gcc"),
    with_attribute("noclone", "gcc"), with_attribute('optimize("O3")', "gcc"), with_attribute('optimize("O0")', "gcc"),
    plain("an always_inline function", "static inline __attribute__((always_inline)) long $f(void)", "return only-events"),
    Kind("a function with arguments", "static long $f(int a, struct bytes33 b, double c, long *d, int e, int f, int g, struct bytes3 h);",
         "static long $f(int a, struct bytes33 b, double c, long *d, int e, int f, int g, struct bytes3 h) "
         "{ stage_use(a + b.b[0] + (d != 0) + e + f + g + h.b[1]); stage_use_real(c);\n$whole }",
         "($f(1, some_bytes33, 2.5, 0, 4, 5, 6, some_bytes3))", "$f", "", 1),
    Kind("a variadic function", "static long $f(int a, ...);",
         "static long $f(int a, ...) { va_list v; va_start(v, a); stage_use(va_arg(v, int)); stage_use_real(va_arg(v, double)); va_end(v);\n$whole }",
         "($f(1, 2, 3.5))", "$f", "", 1),
    Kind(OF_LIBRARY, "$extern long $f(void);", "$extern long $f(void) $whole", "($f())", "$f", "return library only-accesses", 8),
    Kind(OF_LOADED, "static long (*$f)(void);", "$extern long $f(void) $whole", "($f())", "$f",
         "return dlopen only-accesses", 8),
    of_class("a method", "long $f(int)", METHOD), of_class("a const method", "long $f(int) const", METHOD + " const"),
    of_class("a static method", "static long $f(int)", METHOD),
    Kind("a virtual method", "struct B$k { virtual long $f(int) = 0; virtual ~B$k() = default; }; struct $k : B$k { virtual long $f(int); }; "
         "static $k o$k; static B$k *p$k = &o$k;", METHOD + " $whole", "(p$k->$f(1))", "$k::$f", "c++", 1),
    Kind("a template of a method", "struct $k { template<class A> long $f(A); };", "template<class A> long $k::$f(A) $whole", "($k().$f(1))",
         "$k::$f<int>", "c++", 1),
    Kind("a template", "template<int N, class A> long $f(A);", "template<int N, class A> long $f(A) $whole", "($f<5>('a'))", "$f<5, char>", "c++", 1),
    Kind("a function with default arguments", "static long $f(int a = 3, int = 4);", "static long $f(int a, int) $whole", "($f())", "$f", "c++", 1),
    Kind("a function of an unnamed namespace", "namespace { namespace n$f { long $f(int); } }", "namespace { namespace n$f { long $f(int) $whole } }",
         "(n$f::$f(1))", "(anonymous namespace)::n$f::$f", "c++", 1),
    Kind("an object that is called", "struct $k { int m; long operator()(int) const; };", "long $k::operator()(int) const $whole", "($k{1}(2))",
         "$k::operator()", "c++", 1),
    Kind("a function with a large result", "static struct bytes100 $f(void);", "static struct bytes100 $f(void) { struct bytes100 it = {}; $body return it; }",
         "$f()", "$f", "c++ -tail", 1),
    Kind("a constructor", "struct $k { int m; $k(); };", "$k::$k() { $body }", "{ $k o; stage_see(&o); }", "$k::$k", "c++ return", 1),
    Kind("a destructor", "struct $k { int m; ~$k(); };", "$k::~$k() { $body }", "{ $k o{}; stage_see(&o); }", "$k::~$k", "c++ return", 1),
    Kind("a lambda", "", "", "([&](int) -> long $whole(3))", LAMBDA, "c++", 1),
    Kind("a generic lambda", "", "", "([&](auto) -> long $whole(3))", LAMBDA, "c++14 return", 1),
    Kind("a std::function", "", "", "{ std::function<long(int)> f = [&](int) -> long $whole; f(2); }", LAMBDA, "c++ return", 1),
]
#: Functions that several blocks have in common: each call has the number of its begin.
COMMON = [
    Kind("a common static function", "static long $f(int at);", "static long $f(int at) $whole", "($f($n))", "$f", "", 1),
    Kind("a common function", "long $f(int at);", "long $f(int at) $whole", "($f($n))", "$f", "", 1),
    Kind("a common inline function", "static inline long $f(int at);", "static inline long $f(int at) $whole", "($f($n))", "$f", "c", 1),
    Kind("a common method", "struct K$f { long $f(int at); };", "long K$f::$f(int at) $whole", "(K$f().$f($n))", "K$f::$f", "c++", 1),
    Kind("a common template", "template<int N> long $f(int at);", "template<int N> long $f(int at) $whole", "($f<7>($n))", "$f<7>", "c++", 1),
]


def choose_kind(program, begin):
    """Returns the kind of function that the block is."""
    if begin.target in program.common:
        return program.common[begin.target]
    traits = set(program.traits) | ({program.leaving[begin.partner.number][0]} if begin.partner else set())
    inside = [step for step in program.steps_of(begin.thread) if begin.number < step.number < begin.partner.number]
    if all(step.operation in ("r", "w", "acq", "rel") and not step.meeting for step in inside):
        traits.add("only-events")
    if not all(step.operation in ("r", "w") for step in inside):
        traits -= {"library", "dlopen"}
    else:
        traits.add("only-accesses")
    possible = [one for one in KINDS if fits(one.needs, traits) and not program.left_out(one.name)]
    return program.random.choices(possible, [one.weight for one in possible])[0]


def choose_common(program):
    """Returns for some labels the function that all their blocks are."""
    possible = [one for one in COMMON if fits(one.needs, program.traits)]
    return {label: program.random.choice(possible) for label in program.trace.labels if program.chance(0.3)}


def define(program, begin, kind, lines):
    """Adds the block's function to the program, and returns its call."""
    name, body = "%s_%d" % (begin.target, begin.number), "\n    ".join(one for one in lines if one)
    if kind in COMMON:
        name = begin.target
        program.common_bodies.setdefault(name, []).append((begin.number, body))
    words = {"f": name, "k": "K" + name, "n": begin.number, "body": body, "whole": "{\n    %s\n    return 0;\n}" % body,
             "extern": 'extern "C"' if "c++" in program.traits else ""}
    program.labels[begin.number] = string.Template(kind.label).safe_substitute(words)
    if kind not in COMMON:
        program.prototypes.append(string.Template(kind.declared).substitute(words))
        if kind.name == OF_LOADED:
            program.start.append('%s = (long (*)(void))dlsym(loaded, "%s"); if (!%s) abort();' % (name, name, name))
        (program.library if kind.name in (OF_LIBRARY, OF_LOADED) else program.bodies).append(string.Template(kind.defined).substitute(words))
    return string.Template(kind.call).substitute(words)


def define_common(program):
    """Returns the definitions of the functions that several blocks have in common, and adds their declarations."""
    texts = []
    for name, bodies in sorted(program.common_bodies.items()):
        kind = program.common[name]
        # (clang makes a loop of a function that calls itself at its very end)
        cases = "\n".join("case %d: {\n    %s\n    %s\n    return 0; }" % (*one, AT_ONCE) for one in bodies)
        words = {"f": name, "whole": "{\nswitch (at) {\n%s\n}\nreturn 0;\n}" % cases}
        program.prototypes.append(string.Template(kind.declared).substitute(words))
        texts.append(string.Template(kind.defined).substitute(words))
    return texts
