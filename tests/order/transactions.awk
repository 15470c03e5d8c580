# What the checks of reports have in common: reads a report, and then the traces that it is about, and makes the transactions
# of each anew. A check adds `judge`, which is called behind each trace, and an END that calls it behind the last.
#
# The traces have to be well-formed and without a malformed line, and `except` is the one label of --except, if there is one.
# The first things that are wrong are told, a line each.

function wrong(text) {
    if (++wrongs <= 20)
        print name ": " text
}

# The report: the line of each source, and its steps behind it.
FNR == NR {
    if (substr($0, 1, 2) == "  ")
        steps[reported, ++step_count[reported]] = substr($0, 3)
    else {
        said[++reported] = $0
        step_count[reported] = 0
    }
    next
}

FNR == 1 {
    if (traces > 0)
        judge()
    start()
}

/[^ \t]/ {
    split($0, parts, "|")
    read_event(parts[1], parts[2])
}

# A new trace.
function start() {
    name = FILENAME
    traces++
    events = transactions = blocks = 0
    split("", depth)
    split("", inside)
    split("", block_of)
    split("", is_exempt)
    split("", end_of)
    split("", place_on)
}

# The event on this line: who, what and on what, and to which transaction it belongs. Of each transaction the line with
# which it has ended, if it has.
function read_event(thread, operation,    at, is_block, exempt) {
    place_on[FNR] = ++events
    at = index(operation, "(")
    line_of[events] = FNR
    who[events] = thread
    what[events] = at ? substr(operation, 1, at - 1) : operation
    target[events] = at ? substr(operation, at + 1, length(operation) - at - 1) : ""
    # `inside` counts the blocks that are open and count, `depth` all that are open.
    is_block = inside[thread] > 0
    if (what[events] == "begin") {
        exempt = except != "" && target[events] == except
        is_exempt[thread, ++depth[thread]] = exempt
        if (!exempt && inside[thread]++ == 0) {
            blocks++
            block_of[thread] = ++transactions
            first_line[transactions] = FNR
            first_thread[transactions] = thread
            is_block = 1
        }
    }
    if (what[events] == "end" && !is_exempt[thread, depth[thread]--] && --inside[thread] == 0)
        end_of[block_of[thread]] = FNR
    if (!is_block) {
        first_line[++transactions] = end_of[transactions] = FNR
        first_thread[transactions] = thread
    }
    transaction[events] = is_block ? block_of[thread] : transactions
}

# Whether event i conflicts with the later event j.
function conflict(i, j) {
    if (who[i] == who[j])
        return 1
    if (what[i] == "fork" && target[i] == who[j] || what[j] == "join" && target[j] == who[i])
        return 1
    if (what[i] == "rel" && what[j] == "acq")
        return target[i] == target[j]
    if ((what[i] == "w" && (what[j] == "w" || what[j] == "r")) || (what[i] == "r" && what[j] == "w"))
        return target[i] == target[j]
    return 0
}
