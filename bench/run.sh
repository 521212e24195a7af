#!/bin/sh
# Times the built program over the example games, repeated and dynamic, in 4 and in 16 directions, by 1, 2 and 4 workers, the check of
# a large set, which bench/set.sh writes, games of 8 and 64 states that are drawn from a number, and replays of 100,000 moves, which bench/moves.sh writes, a line each. It is no test.
top=$(CDPATH='' cd -- "$(dirname -- "$0")/.." && pwd) || exit 1
program=$top/crates/payoff_cli/out/payoff_cli
cd "$top" || exit 1
[ -x "$program" ] || "$top/payoff" solve >/dev/null 2>&1 # a missing word: builds, and is refused
[ -x "$program" ] || { echo 'bench: build the program first: ./payoff solve examples/pd.nfg' >&2; exit 1; }

# The time of one run with these words, under this name.
measure() {
    name=$1
    words=$2
    if command -v hyperfine >/dev/null 2>&1; then
        # shellcheck disable=SC2086
        hyperfine --style none --shell=none --ignore-failure --warmup 3 --export-csv /tmp/payoff-bench.$$ "$program $words" >/dev/null 2>&1
        printf '%s %s s\n' "$name" "$(tail -n 1 /tmp/payoff-bench.$$ | cut -d, -f2)"
        rm -f /tmp/payoff-bench.$$
    else
        start=$(date +%s%N)
        runs=0
        while [ $runs -lt 20 ]; do
            # shellcheck disable=SC2086
            "$program" $words >/dev/null 2>&1
            runs=$((runs + 1))
        done
        end=$(date +%s%N)
        printf '%s %s us\n' "$name" $(((end - start) / 20000))
    fi
}

for game in examples/*.nfg examples/*.dyn; do
    for directions in 4 16; do
        for workers in 1 2 4; do
            words="discount=1/2 directions=$directions workers=$workers"
            measure "$(basename "$game") $words" "solve $game $words"
        done
    done
done

for states in 8 64; do
    for workers in 1 2 4; do
        words="seed=1 states=$states workers=$workers"
        measure "make $words" "make $words"
    done
done

for strategies in 4 16; do
    dir=$(mktemp -d)
    sh bench/states.sh "$dir" 64 $strategies
    for directions in 16 32; do
        for workers in 1 2 4; do
            words="discount=9/10 directions=$directions grid=16 workers=$workers"
            measure "64 states of $strategies by $strategies $words" "solve $dir/states.dyn $words"
        done
    done
    rm -rf "$dir"
done

dir=$(mktemp -d)
sh bench/set.sh "$dir"
"$program" check "$dir/game.dyn" "$dir/set.sgc" discount=1/2 || echo 'bench: the set was to hold' >&2
measure 'check of 64 states with 1000 entries each' "check $dir/game.dyn $dir/set.sgc discount=1/2"
rm -rf "$dir"

dir=$(mktemp -d)
sh bench/states.sh "$dir" 64 16
sh bench/moves.sh 100000 16 >"$dir/one.sch"
sh bench/moves.sh 100000 1024 >"$dir/many.sch"
measure '100000 moves on the dilemma' "replay examples/pd.nfg $dir/one.sch discount=9/10"
measure '100000 moves on 64 states of 16 by 16' "replay $dir/states.dyn $dir/many.sch discount=9/10"
rm -rf "$dir"
