"""How threads of programs in C and C++ are started and joined, and how their functions are left."""
import string
from collections import namedtuple

from program import fits, forms

#: A way to start a thread: what declares it, the text that starts it, its function with $body, and its traits. $t is its number.
Start = namedtuple("Start", "name declared text function traits needs weight")

POSIX = ("static pthread_t thread$t; static void *run$t(void *);", "static void *run$t(void *with) {\n    (void)with;\n    $body\n    return 0;\n}")
ATTRIBUTES = "{ pthread_attr_t a; pthread_attr_init(&a); %s pthread_create(&thread$t, &a, run$t, 0); }"
CLASS = ("static void run$t(%s); static %s thread$t;", "static void run$t(%s) {\n    $body\n}")


def of_class(name, text, kind="std::thread", parameter="", needs="c++ -exits"):
    return Start(name, CLASS[0] % (parameter, kind), text, CLASS[1] % parameter, kind, needs, 1)


STARTS = [
    Start("pthread_create", POSIX[0], "pthread_create(&thread$t, 0, run$t, 0);", POSIX[1], "posix", "", 2),
    Start("pthread_create with a stack of its own", POSIX[0], ATTRIBUTES % "pthread_attr_setstack(&a, stage_stack($t), 1 << 17);", POSIX[1], "posix", "", 1),
    Start("pthread_create with a size of the stack", POSIX[0], ATTRIBUTES % "pthread_attr_setstacksize(&a, 1 << 18);", POSIX[1], "posix", "", 1),
    Start("thrd_create", "static thrd_t thread$t; static int run$t(void *);", "thrd_create(&thread$t, run$t, 0);",
          POSIX[1].replace("void *run", "int run"), "c11", "", 1),
    of_class("std::thread", "thread$t = std::thread(run$t);"),
    of_class("std::thread with an argument", "thread$t = std::thread(run$t, 3);", parameter="int"),
    Start("std::thread of a lambda", "static void beside_run$t(); static std::thread thread$t;", "thread$t = std::thread([] { beside_run$t(); });",
          "static void beside_run$t() {\n    $body\n}", "std::thread", "c++ -exits", 1),
    of_class("std::jthread", "thread$t = std::jthread(run$t);", "std::jthread", needs="c++20 -exits"),
    of_class("std::async", "thread$t = std::async(std::launch::async, run$t);", "std::future<void>"),
]
JOINS = forms([
    ("pthread_join", "pthread_join(thread$t, 0);", "posix", 2),
    ("pthread_tryjoin_np", "while (pthread_tryjoin_np(thread$t, 0)) sched_yield();", "posix"),
    ("pthread_timedjoin_np", "{ struct timespec t; clock_gettime(CLOCK_REALTIME, &t); t.tv_sec += 99; pthread_timedjoin_np(thread$t, 0, &t); }", "posix"),
    ("pthread_clockjoin_np",
     "{ struct timespec t; clock_gettime(CLOCK_MONOTONIC, &t); t.tv_sec += 99; pthread_clockjoin_np(thread$t, 0, CLOCK_MONOTONIC, &t); }", "posix"),
    ("thrd_join", "thrd_join(thread$t, 0);", "c11"),
    ("join", "thread$t.join();", "std::thread|std::jthread"),
    ("the end of a jthread", "thread$t = std::jthread();", "std::jthread"),
    ("get of a future", "thread$t.get();", "std::future<void>"),
    ("wait for a future", "thread$t.wait();", "std::future<void>"),
])
#: How a thread ends within its blocks.
LEAVES = forms([
    ("pthread_exit", "pthread_exit(0);", "", 3), ("thrd_exit", "thrd_exit(0);", "c11", 2),
    ("pthread_cancel", "pthread_cancel(pthread_self()); pthread_testcancel();"),
    ("pthread_cancel at a wait", "pthread_cancel(pthread_self()); { sem_t s; sem_init(&s, 0, 0); sem_wait(&s); }"),
    ("pthread_cancel at any time", "pthread_setcanceltype(PTHREAD_CANCEL_ASYNCHRONOUS, 0); pthread_cancel(pthread_self()); for (;;) aside_leaf(3);"),
    ("pthread_cancel at any time, at an access",
     "pthread_setcanceltype(PTHREAD_CANCEL_ASYNCHRONOUS, 0); pthread_cancel(pthread_self()); for (;;) stage_use(*(volatile char *)stage_source());"),
])
#: How main ends the program within its blocks.
EXITS = forms([("exit", "exit(0);", "", 2), ("_exit", "_exit(0);"), ("_Exit", "_Exit(0);"), ("quick_exit", "quick_exit(0);"),
               ("exit_group", "syscall(SYS_exit_group, 0);"), ("pthread_exit of main", "pthread_exit(0);")])
#: Acts without an event.
NOTHING = forms([
    ("malloc and free", "free(malloc((size_t)stage_any()));"), ("sched_yield", "sched_yield();"), ("fence", "__atomic_thread_fence(__ATOMIC_SEQ_CST);"),
    ("a function that is no block", "aside_leaf(3);"), ("setjmp and longjmp", "{ jmp_buf j; if (!setjmp(j)) longjmp(j, 1); }"),
    ("an array of any length", "{ char l[stage_same(9)]; stage_see(l); }"),
    ("throw and catch", "try { stage_use(1); if (stage_same(1)) throw 3; } catch (int) {}", "c++"),
    ("a string of its own", '{ std::string s("a longer text than fits"); stage_see(s.c_str()); }', "c++"),
    ("AnnotateIgnoreReadsBegin", "AnnotateIgnoreReadsBegin(__FILE__, __LINE__); AnnotateIgnoreReadsEnd(__FILE__, __LINE__);"),
    ("AnnotateBenignRaceSized", 'AnnotateBenignRaceSized(__FILE__, __LINE__, stage_source(), 8, "");'),
    ("throw through a function", "try { aside_throws(1); } catch (int) {}", "c++"), ("std::this_thread::yield", "std::this_thread::yield();", "c++"),
])
AT_ONCE = "stage_use(*(volatile char *)stage_source());"
ENDS = [("return", 4), ("longjmp", 1), ("tail", 3)]
ENDS_IN_CXX = ENDS + [("throw", 2)]


def choose_start(program, thread):
    exits = {"exits"} if any(step.at_exit for step in program.steps_of(thread)) else set()
    possible = [one for one in STARTS if fits(one.needs, program.traits | exits)]
    return program.random.choices(possible, [one.weight for one in possible])[0]


def fork(program, step):
    start = program.starts[step.target]
    program.prototypes.append(string.Template(start.declared).substitute(t=step.target))
    return start.name, string.Template(start.text).substitute(t=step.target)


def join(program, step):
    start = program.starts[step.target]
    how, text = program.choose(JOINS, start.traits.split(), {"t": step.target})
    return "%s of %s" % (how, start.name), text


def leave(program, thread):
    """Returns the text by which a thread, or main with the program, ends within its blocks."""
    if thread == 1:
        return "stage_finish(%d); %s" % (len(program.trace.steps), program.choose(EXITS, ())[1])
    return program.choose(LEAVES, program.starts[thread].traits.split())[1]


def beside(program):
    """Returns the functions that threads call at their start. (In a function whose name begins with aside_, a lambda would be no block.)"""
    return ["beside_run%d" % thread for thread, start in program.starts.items() if "beside_run" in start.function]


def function_of(start, thread, body):
    """Returns a thread's function. Its first and its last event wait for no turn: they come between the fork and the join by themselves."""
    return string.Template(start.function).substitute(t=thread, body="%s\n    %s\n    %s" % (AT_ONCE, body, AT_ONCE))
