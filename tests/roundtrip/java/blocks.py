"""The methods of programs in Java that are blocks."""
import re
import string
from collections import namedtuple

#: A kind of method: what is added to the program's class, what beside it, the call and the label. $f is the method, $k a class of its
#: own, $p the program's class, $whole the body.
Kind = namedtuple("Kind", "name inside beside call label")


def inside(name, head, call):
    return Kind(name, head + " throws Exception $whole", "", call, r"$p\.$f")


def nested(name, head, call):
    return Kind(name, head, "", call, r"$p\$$$k\.$f")


def beside(name, text, call):
    return Kind(name, "", text, call, r"$k\.$f")


ONE = "(($p) Stage.at(3999))"
KINDS = [
    inside("a static method", "static long $f()", "$p.$f()"), inside("a protected static method", "protected static long $f(int a)", "$p.$f(3)"),
    inside("a method with any number of arguments", "static long $f(Object... a)", "$p.$f(1, 2)"),
    inside("a generic method", "static <A extends Comparable<A>> long $f(A a)", '$p.$f("a")'),
    inside("a method with long arguments", "static long $f(long a, double b, String c, int[] d)", "$p.$f(1, 2, null, null)"),
    inside("a final method", "public static final long $f(byte a)", "$p.$f((byte) 1)"),
    inside("a method of an object", "long $f(int a)", ONE + ".$f(1)"), inside("a final method of an object", "final long $f(int a)", ONE + ".$f(1)"),
    nested("a method of a nested class", "static class $k { long $f() throws Exception $whole }", "new $p.$k().$f()"),
    nested("a method of an inner class", "class $k { long $f() throws Exception $whole }", ONE + ".new $k().$f()"),
    nested("a method of a generic class", "static class $k<A> { A a; <B> long $f(A a, B b) throws Exception $whole }", 'new $p.$k<String>().$f("a", 1)'),
    beside("a default method", "interface $k { default long $f() throws Exception $whole }", "new $k() { }.$f()"),
    beside("a static method of an interface", "interface $k { static long $f() throws Exception $whole }", "$k.$f()"),
    beside("a method of an enum", "enum $k { ONE; long $f() throws Exception $whole }", "$k.ONE.$f()"),
    beside("a method of a record", "record $k(int a) { long $f() throws Exception $whole }", "new $k(3).$f()"),
    beside("a method that overrides another", "abstract class A$k { abstract long $f() throws Exception; } "
           "class $k extends A$k { @Override long $f() throws Exception $whole }", "((A$k) new $k()).$f()"),
    beside("a method with a narrower result", "abstract class A$k { abstract Number $f() throws Exception; } "
           "class $k extends A$k { @Override Long $f() throws Exception $long }", "((A$k) new $k()).$f().longValue()"),
    Kind("a method of an unnamed class", "", "", "new Object() { long $f() throws Exception $whole }.$f()", r".*\$$\d+\.$f"),
]
COMMON = Kind("a common method", "", "", "$p.$f($n)", r"$p\.$f")


def choose_kind(program, begin):
    return COMMON if begin.target in program.common else program.random.choice(KINDS)


def define(program, begin, kind, lines):
    """Adds the block's method to the program, and returns its call."""
    name, body = "%s_%d" % (begin.target, begin.number), "\n    ".join(lines)
    if kind is COMMON:
        name = begin.target
        program.common_bodies.setdefault(name, []).append((begin.number, body))
    words = {"f": name, "k": "K" + name, "p": program.name, "n": begin.number, "whole": "{\n    %s\n    return 0;\n}" % body,
             "long": "{\n    %s\n    return 0L;\n}" % body}
    program.labels[begin.number] = "re:^%s$" % string.Template(kind.label).substitute(words)
    for texts, text in ((program.methods, kind.inside), (program.beside, kind.beside)):
        if text:
            texts.append(string.Template(text).substitute(words))
    return string.Template(kind.call).substitute(words)


def define_common(program):
    """Returns the methods that several blocks have in common."""
    texts = []
    for name, bodies in sorted(program.common_bodies.items()):
        cases = "\n".join("case %d: {\n    if (true) {\n    %s\n    }\n    return 0; }" % one for one in bodies)
        texts.append("static long %s(int at) throws Exception {\nswitch (at) {\n%s\n}\nreturn 0;\n}" % (name, cases))
    return texts
