#!/bin/sh
# Writes a schedule of four workers to standard output: so many moves on so many rows, loads and lowerings by a fixed
# rule, the same at each run.
# moves.sh MOVES ROWS
[ $# -eq 2 ] || { echo 'usage: moves.sh MOVES ROWS' >&2; exit 2; }
awk -v moves="$1" -v rows="$2" '
function drawn(below) {
    seed = (seed * 16807) % 2147483647
    return int(seed / 2147483647 * below)
}
BEGIN {
    seed = 2026
    print "SCH 1 4 {"
    for (m = 0; m < moves; m++)
        printf "%s %d %d\n", drawn(2) ? "load" : "lower", drawn(4), drawn(rows)
    print "}"
}'
