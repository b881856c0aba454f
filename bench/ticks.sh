#!/usr/bin/env bash
# bench/ticks.sh [RUNS [TICKS]]: how long a tick of a full pipeline takes, with the text of its calls and without.
#
# Runs the program replay, built by `./run replay`, on three files, RUNS times each (3), after one run that is not counted.
#
#   full   starts the sampling transaction, of five stages, fills its six places, and then has TICKS times (1,000,000) a take,
#          a tick and a feed, so that in each tick five packets move, every stage works and the atom runs
#   idle   has the same calls on a transaction of two fields that does nothing, of one stage
#   text   has as many lines, and each is malformed, so that no call is made
#
# For each file it prints the best and the median wall time of a run, in milliseconds, and that time divided by TICKS, in
# nanoseconds.
. "$(dirname "$0")/timing.sh"
program replay
runs=${1:-3}
ticks=${2:-1000000}

# The three lines given, TICKS times.
rounds() {
    awk -v ticks="$ticks" -v lines="$1" 'BEGIN { for (i = 0; i < ticks; i++) print lines }'
}

full() {
    echo "start $(cat examples/sampling.hex) 30 10 8"
    for ((i = 0; i < 5; i++)); do
        printf 'feed 7 7\ntick\n'
    done
    echo 'feed 7 7'
    rounds 'take\ntick\nfeed 7 7'
}

idle() {
    echo 'start 01020000 30 10 8'
    printf 'feed 7 7\ntick\nfeed 7 7\n'
    rounds 'take\ntick\nfeed 7 7'
}

text() {
    rounds 'bake\ntuck\nfood 7 7'
}

measure() {
    local name=$1 sorted best median
    "$name" > "$work/input"
    mapfile -t sorted < <(times "$work/input")
    best=${sorted[0]}
    median=${sorted[runs / 2]}
    printf '%-6s %9d %11d %13d %15d\n' "$name" $((best / 1000)) $((median / 1000)) $((best * 1000 / ticks)) \
        $((median * 1000 / ticks))
}

echo "$runs runs of $ticks ticks"
printf '%-6s %9s %11s %13s %15s\n' file 'best ms' 'median ms' 'best ns/tick' 'median ns/tick'
for name in full idle text; do
    measure "$name"
done
