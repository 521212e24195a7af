#!/bin/sh
# Writes into a folder a dynamic game of 64 states, 16 by 16 strategies each, and a self-generating set of 1000 entries a state: each
# player gets the other's strategy, all entries of a profile follow one another, and who deviates gets 0 from then on.
dir=$1
awk 'BEGIN {
    printf "NFG 1 R \"\" { \"1\" \"2\" } { 16 16 }"
    for (b = 0; b < 16; b++) for (a = 0; a < 16; a++) printf " %d %d", b, a
    print ""
}' >"$dir/stage.nfg"
awk -v stage="$dir/stage.nfg" 'BEGIN {
    print "DYN 1 \"\" {"
    for (s = 0; s < 64; s++) {
        printf "{ \"\" \"%s\" {", stage
        for (k = 0; k < 256; k++) printf " %d", (s + k) % 64
        print " } }"
    }
    print "}"
}' >"$dir/game.dyn"
awk 'BEGIN {
    print "SGC 1 {"
    for (s = 0; s < 64; s++) {
        print "{"
        for (j = 0; j < 1000; j++) {
            a = j % 16; b = int(j / 16) % 16; k = j % 256
            printf "{ { %d %d } { %d %d } { %d 1 %d 2 %d 3", b, a, a, b, k, k + 256, k + 512
            if (k + 768 < 1000) printf " %d 4", k + 768
            printf " } {"
            for (d = 0; d < 30; d++) printf " 0"
            print " } }"
        }
        print "}"
    }
    print "}"
}' >"$dir/set.sgc"
