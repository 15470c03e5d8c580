"""How threads of programs in Java are started and joined."""
import string
from collections import namedtuple

from program import forms

#: A way to start thread $t with the method $p.thread$t: a declaration, and the text, which puts the thread or the future at $at, and a
#: pool at $pool. A task has a result, and is given to a pool if `is_given`.
Start = namedtuple("Start", "name beside text is_task is_given")


def thread(name, new, beside=""):
    return Start(name, beside, "{ Thread t = %s; Stage.put($at, t); t.start(); }" % new, False, False)


def task(name, pool, start):
    return Start(name, "", "{ var pool = %s; Stage.put($pool, pool); Stage.put($at, %s); }" % (pool, start), True, True)


FUTURE = "{ var task = new FutureTask<Object>(%s); Stage.put($at, task); %s }"
STARTS = [
    thread("a Thread of a lambda", "new Thread(() -> $p.thread$t())"), thread("a Thread of a method reference", "new Thread($p::thread$t)"),
    thread("a class that extends Thread", "new Thread() { public void run() { $p.thread$t(); } }"),
    thread("a Runnable", "new Thread(new Run$t())", "class Run$t implements Runnable { public void run() { $p.thread$t(); } }"),
    thread("an unnamed Runnable", "new Thread(new Runnable() { @Override public void run() { $p.thread$t(); } })"),
    thread("a ThreadFactory", "Executors.defaultThreadFactory().newThread($p::thread$t)"),
    thread("a Thread with a name", 'new Thread(null, $p::thread$t, "worker", 1 << 20)'), thread("a daemon", "Stage.daemon($p::thread$t)"),
    task("submit to an executor", "Executors.newSingleThreadExecutor()", "pool.submit((Runnable) $p::thread$t)"),
    task("submit of a Callable", "Executors.newFixedThreadPool(1)", "pool.submit(Executors.callable((Runnable) $p::thread$t, 3))"),
    task("schedule", "Executors.newScheduledThreadPool(1)", "pool.schedule((Runnable) $p::thread$t, 1, TimeUnit.MILLISECONDS)"),
    task("CompletableFuture.runAsync", "Executors.newSingleThreadExecutor()", "CompletableFuture.runAsync($p::thread$t, pool)"),
    task("CompletableFuture.supplyAsync", "Executors.newCachedThreadPool()", "CompletableFuture.supplyAsync(() -> { $p.thread$t(); return 1; }, pool)"),
    task("thenRunAsync", "Executors.newSingleThreadExecutor()", "CompletableFuture.completedFuture(1).thenRunAsync($p::thread$t, pool)"),
    task("submit to a ForkJoinPool", "new ForkJoinPool(1)", "pool.submit((Runnable) $p::thread$t)"),
    Start("execute of a FutureTask", "", FUTURE % ("$p::thread$t, 3",
                                                   "var pool = Executors.newSingleThreadExecutor(); Stage.put($pool, pool); pool.execute(task);"), True, True),
    Start("a Thread of a FutureTask", "", FUTURE % ("() -> { $p.thread$t(); return 3; }", "Stage.put($pool, Stage.NO_POOL); new Thread(task).start();"),
          True, False),
]
JOINS = forms([
    ("join", "((Thread) Stage.at($at)).join();", "thread", 2), ("join with a time", "((Thread) Stage.at($at)).join(99000);", "thread"),
    ("join with a time in nanoseconds", "((Thread) Stage.at($at)).join(99000, 10);", "thread"),
    ("get of a future", "((Future<?>) Stage.at($at)).get(); ((ExecutorService) Stage.at($pool)).shutdown();", "task"),
    ("get of a future with a time", "((Future<?>) Stage.at($at)).get(99, TimeUnit.SECONDS); ((ExecutorService) Stage.at($pool)).shutdown();", "task"),
])
NOTHING = forms([("work of its own", "{ int[] l = null; Stage.use(l); }"), ("yield", "Thread.yield();"), ("sleep", "Thread.sleep(1);"),
                 ("throw and catch", "try { Stage.fail(); } catch (IllegalStateException e) { Stage.use(e); }"),
                 ("an index that isn't there",
                  "try { int[] l = new int[2]; l[(int) Stage.same(2)] = 3; throw new Error(); } catch (ArrayIndexOutOfBoundsException e) { }"),
                 ("a field of null", "try { (($p) null).thrown = 3; throw new Error(); } catch (NullPointerException e) { }"),
                 ("an object that an array refuses", "try { ((Object[]) new String[2])[1] = 3; throw new Error(); } catch (ArrayStoreException e) { }"),
                 ("a copy that fails",
                  "try { System.arraycopy(new int[2], 1, new int[3], 0, 2); throw new Error(); } catch (ArrayIndexOutOfBoundsException e) { }"),
                 ("join with a time that runs out", "((Thread) Stage.at($at)).join(1);", "alive", 4),
                 ("join that is interrupted",
                  "Stage.interrupt(); try { ((Thread) Stage.at($at)).join(); throw new Error(); } catch (InterruptedException e) { }", "alive", 4),
                 ("start of a thread that runs", "try { ((Thread) Stage.at($at)).start(); throw new Error(); } catch (IllegalThreadStateException e) { }",
                  "alive", 4),
                 ("a full stack", "try { Deep.lower(1); throw new IllegalStateException(); } catch (StackOverflowError e) { Stage.full(e); }"),
                 ("interrupt of oneself", "Stage.interrupt(); Stage.use(Thread.interrupted());")])


def choose_start(program, thread):
    """Returns how a thread is started. If a worker of a ForkJoinPool waits, the pool starts another one, which no trace has."""
    waits = any(step.meeting or step.number in program.waits or step.operation == "miss" for step in program.steps_of(thread))
    return program.random.choice([one for one in STARTS if not waits or "ForkJoinPool" not in one.name])


def nothing(program, step):
    """Returns something without an event: maybe with another thread, which runs still, as it does something later."""
    forks = {one.target: one for one in program.trace.steps[:step.number] if one.operation == "fork" and not program.starts[one.target].is_task}
    alive = [thread for thread in forks if thread != step.thread and program.steps_of(thread)[-1].number > step.number]
    words = {"p": program.name, "at": 2000 + program.random.choice(alive) if alive else 0}
    return program.choose(NOTHING, ["alive"] if alive else [], words)


def words_of(program, step):
    return {"p": program.name, "t": step.target, "at": 2000 + step.target, "pool": 2100 + step.target}


def fork(program, step):
    start = program.starts[step.target]
    if start.beside:
        program.beside.append(string.Template(start.beside).substitute(words_of(program, step)))
    return start.name, string.Template(start.text).substitute(words_of(program, step))


def join(program, step):
    start = program.starts[step.target]
    how, text = program.choose(JOINS, ["task" if start.is_task else "thread"], words_of(program, step))
    return "%s of %s" % (how, start.name), text
