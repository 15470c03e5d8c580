# Checks a report that was made with --order against the traces that it is about, by the definitions alone.
#
#   awk -v except=LABEL -f transactions.awk -f check.awk REPORT TRACE..
#
# It makes all edges between the transactions of each trace anew, pair of events by pair, and the order from these. The last
# line counts what is wrong. Fails also where too few of the traces are serializable, or too few of these have an order other
# than that of their first events.

END {
    if (traces > 0)
        judge()
    name = "summary"
    if (said[traces + 1] != "traces " traces ": serializable " serializable + 0 ", open " open + 0 ", violations " violations + 0 ", faults 0")
        wrong("differs")
    if (reported != traces + 1 || step_count[traces + 1] > 0)
        wrong("the report has other lines")
    if (serializable < 300 || other_orders < 50 || violations < 100 || open < 20)
        wrong("the traces show too little")
    print traces " traces: " serializable + 0 " serializable, " other_orders + 0 " of them in another order than that of first events, " open + 0 " open, " violations + 0 " violations; " wrongs + 0 " wrong"
    exit (wrongs > 0)
}

# The transactions in order: each time, of those before which nothing is left that must come first, the one with the
# earliest first event, which has the least number. Answers how many have a place; the others stand on a cycle or behind one.
function put_in_order(    i, j, x, y, placed) {
    split("", edge)
    for (i = 1; i <= events; i++)
        for (j = i + 1; j <= events; j++)
            if (transaction[i] != transaction[j] && conflict(i, j))
                edge[transaction[i], transaction[j]] = 1
    split("", stands)
    for (placed = 0; placed < transactions; placed++) {
        for (x = 1; x <= transactions; x++) {
            if (x in stands)
                continue
            for (y = 1; y <= transactions; y++)
                if ((y, x) in edge && !(y in stands))
                    break
            if (y > transactions)
                break
        }
        if (x > transactions)
            break
        stands[x] = 1
        order[placed + 1] = x
    }
    return placed
}

# What the report says of the trace that was read.
function judge(    placed, thread, unended, is_other, sizes, k, x) {
    placed = put_in_order()
    unended = 0
    for (thread in inside)
        unended += inside[thread] > 0
    sizes = "(" events " events, " blocks " blocks)"
    if (unended == 0 && placed == transactions) {
        serializable++
        if (said[traces] != name ": serializable " sizes)
            wrong("is serializable " sizes ", and the report says: " said[traces])
        if (step_count[traces] != transactions)
            wrong(transactions " transactions, " step_count[traces] " steps")
        for (k = 1; k <= transactions; k++) {
            x = order[k]
            is_other = is_other || x != k
            if (steps[traces, k] != first_line[x] " " first_thread[x])
                wrong("step " k " is " first_line[x] " " first_thread[x] ", and the report says: " steps[traces, k])
        }
        other_orders += is_other
        return
    }
    if (step_count[traces] != 0)
        wrong("has steps")
    # A cycle is told once a block on it has ended, so a trace with open blocks can have one that isn't told.
    if (index(said[traces], name ": violation at line ") == 1) {
        violations++
        if (placed == transactions)
            wrong("has no cycle, and the report says: " said[traces])
    } else {
        open++
        if (unended == 0 || said[traces] != name ": no violation, " unended " blocks open " sizes)
            wrong(unended " blocks open, and the report says: " said[traces])
    }
}
