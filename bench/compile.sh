#!/usr/bin/env bash
# bench/compile.sh [RUNS [COPIES]]: how long an image takes to compile, with the reading of its line and the writing of the answer.
#
# Runs the program verdicts, built by `./run verdicts`, on files of COPIES equal lines (400), RUNS times each (15), after one
# run that is not counted. For each image it prints the answer, and the best and the median time in microseconds for one line:
# that of the whole run, less the median time of a run on no input, divided by COPIES.
. "$(dirname "$0")/timing.sh"
program verdicts
runs=${1:-15}
copies=${2:-400}

# Numbers below 128, each as a byte in hexadecimal.
bytes() {
    printf '%02x' "$@"
}

# The largest images: 48 statements, 16 fields and 8 states. Places: 0 to 15 are fields, 16 to 23 states, 24 a constant.
header() {
    bytes 1 16 8 48
}

# if CONDITION of three ifs one inside the other, around what is on standard input.
nested() {
    printf '%s' "$1"
    cat
    bytes 8 8 8
}

# Three ifs, 42 assignments of fields to the states in turn, 184 lines; one condition is a constant, so two choices suffice.
sets() {
    header
    for ((i = 0; i < 42; i++)); do
        bytes 0 $((16 + i % 8)) $((i % 16))
    done | nested "$(bytes 6 24 1 6 0 6 1)"
}

# The same with 34 assignments to states, and then each state's new word in a field: nearly all inner lines have echoes.
echoes() {
    header
    for ((i = 0; i < 34; i++)); do
        bytes 0 $((16 + i % 8)) $((i % 16))
    done | nested "$(bytes 6 24 1 6 0 6 1)"
    for ((i = 0; i < 8; i++)); do
        bytes 0 $((8 + i)) $((16 + i))
    done
}

# Three ifs on states, and one chain of 42 sums under them, 184 lines: far more stages than there are.
chain() {
    header
    for ((i = 0; i < 42; i++)); do
        bytes 1 0 0 $((16 + i % 8))
    done | nested "$(bytes 6 16 6 17 6 18)"
}

# Three ifs, and one state with 42 sums: the largest codelet, outside every class.
codelet() {
    header
    for ((i = 0; i < 42; i++)); do
        bytes 1 16 16 $((i % 16))
    done | nested "$(bytes 6 0 6 1 6 2)"
}

# Eight states, each updated from the new word of the one before, 48 assignments without a branch.
relay() {
    header
    for ((i = 0; i < 8; i++)); do
        bytes 1 $((16 + i)) $((16 + i)) $((i > 0 ? 15 + i : 0))
    done
    for ((i = 0; i < 40; i++)); do
        bytes 3 $((i % 16)) $((i % 16)) $((16 + i % 8))
    done
}

# A time in thousandths of a microsecond, as microseconds with one digit behind the point.
shown() {
    local t=$(($1 > 0 ? $1 : 0))
    printf '%d.%d' $((t / 1000)) $((t % 1000 / 100))
}

measure() {
    local name=$1 image=$2 copy sorted
    for ((copy = 0; copy < copies; copy++)); do
        echo "$image 30 10 8"
    done > "$work/input"
    mapfile -t sorted < <(times "$work/input")
    printf '%-16s %6d  %-14s %10s %10s\n' "$name" $((${#image} / 2)) "$(head -n 1 "$work/input" | "$program")" \
        "$(shown $(((sorted[0] - idle) * 1000 / copies)))" "$(shown $(((sorted[runs / 2] - idle) * 1000 / copies)))"
}

: > "$work/none"
mapfile -t sorted < <(times "$work/none")
idle=${sorted[runs / 2]}
echo "$runs runs of $copies lines; a run on no input takes $idle us"
printf '%-16s %6s  %-14s %10s %10s\n' image bytes answer 'best us' 'median us'
for name in sets echoes chain codelet relay; do
    measure "$name" "$($name)"
done
for file in examples/*.hex; do
    measure "$(basename "$file" .hex)" "$(tr -d ' \n' < "$file")"
done
