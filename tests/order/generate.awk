# Writes small random traces, well-formed ones, each into a file of the folder `at`, which are called 0001 and so on.
#
#   awk -v seed=1 -v count=1000 -v at=FOLDER -f generate.awk
#
# The same seed gives the same traces. A trace has 2 to 5 threads, some of them forked and joined by others, up to 4
# variables, 2 locks, blocks in blocks, some with a label, events outside of blocks, a few blank lines and 5 to some 40
# events. In about one of ten, blocks are left open. With -v more_threads=N, more_variables=N or more_events=N it has so
# many more of these.

# A number from 0 on, below n.
function below(n) {
    state = (state * 16807) % 2147483647
    return int(state / 65536) % n
}

# Whether a thing of this many in a hundred comes about.
function often(percent) {
    return below(100) < percent
}

function event(thread, operation) {
    if (below(40) == 0)
        print "" > file
    print "T" thread "|" operation > file
    events++
}

# Whether the thread can act.
function can_act(thread) {
    return is_started[thread] && !is_joined[thread]
}

function lock_or_unlock(thread,    lock) {
    lock = below(2)
    if (held[lock] > 0 && holder[lock] != thread)
        return
    # A lock that is held is given back mostly, and seldom taken once more.
    if (held[lock] > 0 && often(90)) {
        held[lock]--
        event(thread, "rel(l" lock ")")
    } else {
        held[lock]++
        holder[lock] = thread
        event(thread, "acq(l" lock ")")
    }
}

function fork_one(thread,    other) {
    for (other = 1; other <= threads; other++)
        if (!is_started[other]) {
            is_started[other] = 1
            event(thread, "fork(T" other ")")
            return
        }
}

# Joins another thread, if that has ended its blocks and holds no lock.
function join_one(thread,    other) {
    other = 1 + below(threads)
    if (other == thread || !is_started[other] || is_joined[other] || depth[other] > 0)
        return
    if (held[0] > 0 && holder[0] == other || held[1] > 0 && holder[1] == other)
        return
    is_joined[other] = 1
    event(thread, "join(T" other ")")
}

function begin(thread) {
    depth[thread]++
    event(thread, often(15) ? "begin(a)" : often(15) ? "begin(b)" : "begin")
}

function end(thread) {
    depth[thread]--
    event(thread, "end")
}

# The next events of a thread, if it can act: one, or a few in a row.
function act(thread,    some) {
    for (some = 1 + below(burst); some > 0; some--) {
        if (!can_act(thread))
            return
        if (often(begins) && depth[thread] < 3)
            begin(thread)
        else if (depth[thread] > 0 && often(ends))
            end(thread)
        else if (often(locks))
            lock_or_unlock(thread)
        else if (often(4))
            fork_one(thread)
        else if (often(2))
            join_one(thread)
        else
            event(thread, (often(writes) ? "w" : "r") "(x" below(variables) ")")
    }
}

function make(    thread, lock, wanted) {
    events = 0
    threads = 2 + more_threads + below(4)
    variables = 1 + more_variables + below(4)
    burst = 1 + below(5)
    begins = 5 + below(25)
    ends = 10 + below(40)
    locks = below(2) * below(30)
    writes = 10 + below(60)
    wanted = 5 + more_events + below(31)
    for (thread = 1; thread <= threads; thread++) {
        is_started[thread] = thread < 3 || often(60)
        is_joined[thread] = depth[thread] = 0
    }
    held[0] = held[1] = 0
    while (events < wanted)
        act(1 + below(threads))
    if (often(10))
        return
    for (lock = 0; lock < 2; lock++)
        for (; held[lock] > 0; held[lock]--)
            event(holder[lock], "rel(l" lock ")")
    for (thread = 1; thread <= threads; thread++)
        while (depth[thread] > 0)
            end(thread)
}

BEGIN {
    state = 48271 + seed
    for (warm = 0; warm < 20; warm++)
        below(2)
    for (number = 1; number <= count; number++) {
        file = at "/" sprintf("%04d", number)
        make()
        close(file)
    }
}
