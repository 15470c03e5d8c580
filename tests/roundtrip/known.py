"""The differences that are known: ways of doing an event that a logger doesn't see. They are left out, except with --limits."""
import re
from collections import namedtuple

#: `traits` are words of the program (compiler, language), of which all have to hold. `names` matches the realisations.
Known = namedtuple("Known", "language traits names")

KNOWN = [
    # docs/logging-events.md, What is missing: "accesses in code that another compiler made, as in the C++ library (streams), in
    # assembly code, and inside the C library (strcmp, memcmp, sprintf, read, qsort)".
    Known("c", "", r"memcmp|asm |non-temporal"),
    # The same: "the read of a structure that is passed by value right from memory, as in `f(*p)`, with gcc", and "with gcc, the write of
    # a structure that is returned by value right into memory, as in `*p = f()`".
    Known("c", "gcc", r"structure passed by value|structure = call"),
    # The same: "the calls of functions with the attribute `always_inline`, which are no blocks".
    Known("c", "", r"an always_inline function"),
    # The same: "and with clang if it has more than 16 bytes or 3, 5, 6 or 7".
    Known("c", "clang", r"structure passed by value|structure = call|structure returned"),
    # The same: "with clang, accesses to a `long double`, to vectors of 32 bytes and more, and by a function to fields and elements of its
    # local variables".
    Known("c", "clang", r"type (long double|vector32)$|an element of a local variable"),
    # The same: "in std::map, std::set and std::list, the writes of the links between elements".
    Known("c", "", r"type std::(map|list)<"),
    # docs/java-events.md, Permits: "Releases that were read are used up: a later acquire doesn't read them again, except for permits
    # that were left". The traces' rule has no such moments.
    Known("java", "", r"releases before a semaphore had no permit"),
]


def is_known(language, traits, name):
    """Returns whether a realisation is one of those that a logger doesn't see."""
    return any(one.language == language and set(one.traits.split()) <= traits and re.match(one.names, name) for one in KNOWN)
