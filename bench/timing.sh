# What the measures share; sourced by them. `program NAME` chooses the program, $runs says how often it is run, and $work is a
# folder that goes when the script ends.
cd "$(dirname "${BASH_SOURCE[0]}")/.." || exit 1
work=$(mktemp -d) || exit 1
trap 'rm -rf "$work"' EXIT

program() {
    program=crates/$1/out/$1
    if [ ! -x "$program" ]; then
        echo "bench: no $program: run ./run $1 </dev/null first" >&2
        exit 1
    fi
}

# The times of the runs on a file, in microseconds, the least first; one run before them is not counted.
times() {
    local run before after
    "$program" < "$1" > /dev/null
    for ((run = 0; run < runs; run++)); do
        before=$EPOCHREALTIME
        "$program" < "$1" > /dev/null
        after=$EPOCHREALTIME
        echo $((${after/./} - ${before/./}))
    done | sort -n
}
