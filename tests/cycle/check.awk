# Checks a report that was made with --explain against the traces that it is about, by the definitions alone.
#
#   awk -v except=LABEL -v least=VIOLATIONS -f ../order/transactions.awk -f check.awk REPORT TRACE..
#
# It walks each printed cycle: whether it is a telling cycle of the events up to the violation's line that begins in the
# block that the report names, by its label too, and whether its lines say what stands there. And it looks, step by step, for one from that
# block through fewer transactions. The last line counts what is wrong. Fails also where fewer violations are reported than
# `least`, or where the cycles show too little.

END {
    if (traces > 0)
        judge()
    name = "summary"
    summary = said[traces + 1]
    if (index(summary, "traces " traces ": ") != 1 || summary !~ (", violations " violations + 0 ", faults 0$"))
        wrong("differs")
    if (reported != traces + 1 || step_count[traces + 1] > 0)
        wrong("the report has other lines")
    if (violations < least || longer < least / 20 || backwards < least / 50 || behind_an_end < least / 200)
        wrong("the traces show too little")
    print traces " traces: " violations + 0 " violations, " longer + 0 " of them through three transactions or more, " \
        backwards + 0 " backwards through a block that has ended, " behind_an_end + 0 " told once a block has ended; " \
        wrongs + 0 " wrong"
    exit (wrongs > 0)
}

# What the report says of the trace that was read.
function judge(    words, last, block, said_so, visits, fewest) {
    if (split(substr(said[traces], length(name) + 1), words, " ") != 11 || words[2] != "violation") {
        if (step_count[traces] > 0)
            wrong("has no violation, but steps")
        return
    }
    violations++
    last = place_on[words[5] + 0]
    block = block_from(words[8], words[11])
    said_so = name ": violation at line " line_of[last] ": block of " words[8] " from line " words[11]
    if (!last || !block || said[traces] != said_so) {
        wrong("there is no such block or event: " said[traces])
        return
    }
    if (what[last] == "end")
        behind_an_end++
    take_label(target[place_on[words[11] + 0]])
    visits = visits_of(block, last)
    if (!visits)
        return
    longer += visits > 2
    fewest = fewest_visits(block, last)
    if (visits != fewest)
        wrong("passes " visits " transactions, and a shortest cycle " fewest)
}

# The transaction whose first event is this thread's outermost begin on this line, or none.
function block_from(thread, line,    place) {
    place = place_on[line + 0]
    if (place && what[place] == "begin" && first_line[transaction[place]] == line_of[place] && who[place] == thread)
        return transaction[place]
    return 0
}

# The label of the named block stands ahead of its cycle, if it has one.
function take_label(label,    k) {
    if (label == "")
        return
    if (steps[traces, 1] != "label " label)
        wrong("the block has the label " label ", and the report says: " steps[traces, 1])
    step_count[traces]--
    for (k = 1; k <= step_count[traces]; k++)
        steps[traces, k] = steps[traces, k + 1]
}

# How a line of a trace that has this event is written.
function text_of(place) {
    return who[place] "|" what[place] (target[place] != "" && what[place] != "end" ? "(" target[place] ")" : "")
}

# The place of the event of a printed line, if it is one up to the last place and is written as it should be.
function place_of(step, last,    place) {
    place = place_on[step + 0]
    if (!place || place > last)
        wrong("no event up to the violation: " step)
    else if (step != line_of[place] " " first_line[transaction[place]] " " text_of(place))
        wrong("is another event, or not the first line of its transaction: " step)
    else
        return place
    return 0
}

# How many visits the printed cycle has, if it is a telling cycle from the block of the events up to the last place, and
# 0 where it isn't, which is told.
function visits_of(block, last,    count, k, from, to, visits, stays, turns) {
    count = step_count[traces]
    if (count < 3) {
        wrong("a cycle of " count " lines")
        return 0
    }
    from = place_of(steps[traces, 1], last)
    if (!from || transaction[from] != block) {
        wrong("doesn't begin in the named block")
        return 0
    }
    visits = stays = 1
    for (k = 2; k <= count; k++) {
        to = place_of(steps[traces, k], last)
        if (!to)
            return 0
        if (transaction[from] == transaction[to]) {
            # The second line of a visit. The first visit has one line in front, and its other one is the last.
            if (stays++ || from == to || k == count) {
                wrong("a visit of too many lines: " steps[traces, k])
                return 0
            }
            if (to < from) {
                if (!has_ended(transaction[to], last)) {
                    wrong("goes backwards in an open block: " steps[traces, k])
                    return 0
                }
                turns = 1
            }
        } else {
            if (to < from || !conflict(from, to)) {
                wrong("no conflict: " steps[traces, k - 1] ", " steps[traces, k])
                return 0
            }
            visits++
            stays = 0
        }
        from = to
    }
    if (transaction[from] != block) {
        wrong("doesn't end in the named block")
        return 0
    }
    backwards += turns
    return visits - 1
}

# Whether the transaction has ended with the event at the last place.
function has_ended(x, last) {
    return x in end_of && end_of[x] <= line_of[last]
}

# The fewest visits of a telling cycle from the block, of the events up to the last place, and 0 where there is none. From
# each place at which a visit may go out, those with the fewest visits first, it follows each conflict, and from where that
# comes in, each way out.
function fewest_visits(block, last,    i, j, k, near, next_near, at, visits) {
    split("", out)
    near = 0
    for (i = 1; i <= last; i++)
        if (transaction[i] == block) {
            out[i] = 1
            level[++near] = i
        }
    for (visits = 1; near > 0; visits++) {
        next_near = 0
        for (at = 1; at <= near; at++) {
            i = level[at]
            for (j = i + 1; j <= last; j++) {
                if (transaction[i] == transaction[j] || !conflict(i, j))
                    continue
                if (transaction[j] == block)
                    return visits
                for (k = has_ended(transaction[j], last) ? 1 : j; k <= last; k++)
                    if (transaction[k] == transaction[j] && !(k in out)) {
                        out[k] = 1
                        next_level[++next_near] = k
                    }
            }
        }
        near = next_near
        for (at = 1; at <= near; at++)
            level[at] = next_level[at]
    }
    return 0
}
