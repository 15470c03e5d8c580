"""The functions of programs in Go that are blocks."""
import string
from collections import namedtuple

#: A kind of function: its definition with $whole, its call, its label as a pattern, and whether a panic may leave it.
Kind = namedtuple("Kind", "name defined call label")

METHOD = "type $k struct { a int }\nfunc (it *$k) $f() $whole"
BY_POINTER = r"main\.\(\*$k\)\.$f"
KINDS = [
    Kind("a function", "func $f() $whole", "$f()", r"main\.$f"), Kind("a function with arguments", "func $f(a int, b string, c big) $whole", '$f(1, "a", big{})', r"main\.$f"),
    Kind("a variadic function", "func $f(a ...int) $whole", "$f(1, 2)", r"main\.$f"),
    Kind("a function with results", "func $f() (a int, b error) $results", "$f()", r"main\.$f"),
    Kind("a function value", "func $f() $whole", "{ f := $f; f() }", r"main\.$f"),
    Kind("a deferred function", "func $f() $whole\nfunc ${f}_defers() { defer $f() }", "${f}_defers()", r"main\.$f"),
    Kind("a generic function", "func $f[A any](a A) $whole", '$f("a")', r"main\.$f\[.*\]"),
    Kind("a value of a generic function", "func $f[A any](a A) $whole", '{ f := $f[string]; f("a") }', r"main\.$f\[.*\]"),
    Kind("a method value of a generic type", "type $k[A any] struct { a A }\nfunc (it *$k[A]) $f() $whole", "{ f := (&$k[int]{}).$f; f() }", r"main\.\(\*$k\[.*\]\)\.$f"),
    Kind("a method", METHOD, "(&$k{}).$f()", BY_POINTER), Kind("a method of a value", "type $k struct { a int }\nfunc (it $k) $f() $whole", "$k{}.$f()", r"main\.$k\.$f"),
    Kind("a method of an interface", METHOD + "\ntype i$k interface { $f() }", "i$k(&$k{}).$f()", BY_POINTER),
    Kind("a method value", METHOD, "{ f := (&$k{}).$f; f() }", BY_POINTER),
    Kind("a method of an embedded type", METHOD + "\ntype e$k struct { $k; b int }", "(&e$k{}).$f()", BY_POINTER),
    Kind("a literal", "", "func(a int) $whole(3)", r"main\..*func\d.*"),
]


def choose_kind(program, begin):
    mode = program.leaving[begin.partner.number][0]
    possible = [one for one in KINDS if not program.left_out(one.name) and not (one.name == "a literal" and mode == "panic")]
    return program.random.choice(possible)


def define(program, begin, kind, lines):
    """Adds the block's function to the program, and returns its call."""
    name, body = "%s_%s_%d" % (program.prefix, begin.target, begin.number), "\n".join(lines)
    words = {"f": name, "k": "k" + name, "whole": "{\n%s\n}" % body, "results": "{\n%s\nreturn\n}" % body}
    program.labels[begin.number] = "re:^%s$" % string.Template(kind.label).substitute(words)
    if kind.defined:
        program.functions.append(string.Template(kind.defined).substitute(words))
    return string.Template(kind.call).substitute(words)
