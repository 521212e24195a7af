#!/bin/sh
# Writes a dynamic game into a folder: states.dyn and a stage game for each state, payoffs from -20 to 20 and
# successors by a fixed rule, the same at each run.
# states.sh FOLDER STATES STRATEGIES
[ $# -eq 3 ] || { echo 'usage: states.sh FOLDER STATES STRATEGIES' >&2; exit 2; }
awk -v folder="$1" -v states="$2" -v strategies="$3" '
function drawn(below) {
    seed = (seed * 16807) % 2147483647
    return int(seed / 2147483647 * below)
}
BEGIN {
    seed = 2026
    game = folder "/states.dyn"
    print "DYN 1 \"states\" {" > game
    for (s = 0; s < states; s++) {
        printf "{ \"%d\" \"%d.nfg\" {", s, s > game
        stage = folder "/" s ".nfg"
        printf "NFG 1 R \"%d\" { \"1\" \"2\" } { %d %d }", s, strategies, strategies > stage
        for (a = 0; a < strategies * strategies; a++) {
            printf " %d", drawn(states) > game
            printf " %d %d", drawn(41) - 20, drawn(41) - 20 > stage
        }
        print " } }" > game
        print "" > stage
        close(stage)
    }
    print "}" > game
}'
