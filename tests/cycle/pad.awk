# Puts many blocks that conflict with nothing into traces, each time at one place, from which on all else stands as many lines
# further down: into TRACE, which goes into the folder `at`, or into a report on such traces, which is printed.
#
#   awk -v seed=1 -v blocks=3000 -v at=FOLDER -f pad.awk TRACE..
#   awk -v seed=1 -v blocks=3000 -v report=REPORT -f pad.awk TRACE..
#
# A block has three lines. The same seed gives the same places.

BEGIN {
    srand(seed)
}

FNR == 1 && NR > 1 {
    note()
}

{
    line[FNR] = $0
    lines = FNR
    name = FILENAME
}

END {
    note()
    if (report != "")
        shift()
}

# Chooses the place of the trace that was read: behind so many lines.
function note() {
    place[name] = int(rand() * (lines + 1))
    if (report == "")
        pad(at "/" name)
}

function pad(file,    k, block) {
    for (k = 0; k <= lines; k++) {
        if (k > 0)
            print line[k] > file
        for (block = 1; k == place[name] && block <= blocks; block++)
            print "far|begin\nfar|w(far)\nfar|end" > file
    }
    close(file)
}

# The number of a line in the trace with the blocks.
function down(number) {
    return number + (number + 0 > place[of] ? 3 * blocks : 0)
}

# The lines of the report, with their numbers of lines further down.
function shift(    words, found) {
    while ((getline < report) > 0) {
        if ($1 == "label" || $1 == "traces")
            print
        else if (/^  /)
            print "  " down($1) " " down($2) " " $3
        else {
            of = substr($1, 1, length($1) - 1)
            print $1 " violation at line " down(substr($5, 1, length($5) - 1)) ": block of " $8 " from line " down($11)
        }
    }
}
