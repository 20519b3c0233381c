#!/bin/sh
# Runs pipelines by `./streams run FILE` with none, one, two and four workers, beside the same stages written for Node's own Web
# Streams, whose source reads 4,096 bytes at once, in one thread, and in worker threads to which streams are transferred. The
# first one has chunks that are dear and few: blocks of 65,536 bytes through four masks with keys of 64 bytes. The others have a
# chunk for each line of text, and a quarter of the input. All take turns, five times each; Node with threads takes part in the
# first turn alone, where its chunks are lines. Prints each one's median and best, its processor time and its rate by the median,
# its peak memory; and how many times the rate without workers each has, and how many times Node's. Each output is compared with
# the others.
# Words: the input's MiB, how many turns, and another `streams` in place of that which is built.
set -eu
root=$(CDPATH='' cd -- "$(dirname -- "$0")/.." && pwd)
work=$(mktemp -d)
trap 'rm -rf "$work"' EXIT
mebibytes=${1:-64}
turns=${2:-5}
. "$root/bench/measure.sh"
program=${3:-$(built)}
text_lines "$mebibytes" >"$work/in"
if command -v node >/dev/null 2>&1; then has_node=yes; else has_node=; fi

show() {
    middle=$(median "$work/$1.ms")
    printf '  %-17s %7s s  (best %7s)  %8s processor s  %8s MiB/s  %8s KiB\n' "$2" "$(seconds "$middle")" \
        "$(seconds "$(least "$work/$1.ms")")" "$(seconds "$(median "$work/$1.cpu")")" \
        "$(ratio "$middle" "$((size * 1000 / 1048576))")" "$(sort -n "$work/$1.kib" | tail -1)"
}

# One turn of a pipeline: this turn's number, how often Node with threads takes part, the numbers of workers, the stages.
turn() {
    number=$1
    often=$2
    counts=$3
    shift 3
    for workers in $counts; do
        plan "$workers" "$@" >"$work/plan.toml"
        once "on$workers" "$program" run "$work/plan.toml"
        cmp "$work/on$workers" "$work/on${counts%% *}" || { echo 'the outputs differ' >&2; exit 1; }
        if [ -z "$has_node" ]; then continue; fi
        if [ "$workers" -eq 0 ]; then
            once node0 node "$root/bench/plans.mjs" "$@"
        elif [ "$number" -le "$often" ]; then
            once "node$workers" node "$root/bench/workers.mjs" "$workers" "$@"
        else
            continue
        fi
        cmp "$work/node$workers" "$work/on$workers" || { echo "node's output differs" >&2; exit 1; }
    done
}

# How many times the rate of one name another has, by the medians and by the best.
beside() {
    echo "  $3: $(ratio "$(median "$work/$1.ms")" "$(median "$work/$2.ms")") times," \
        "best by best $(ratio "$(least "$work/$1.ms")" "$(least "$work/$2.ms")")"
}

# How many workers, in words.
told() {
    case $1 in
    0) echo 'no workers' ;;
    1) echo '1 worker' ;;
    *) echo "$1 workers" ;;
    esac
}

# What a pipeline is called, how often Node with threads takes part, the numbers of workers, of which the first is 0, the stages.
run() {
    title=$1
    often=$2
    counts=$3
    shift 3
    size=$(wc -c <"$work/in")
    echo "$title, $((size / 1048576)) MiB"
    forget
    for number in $(seq "$turns"); do turn "$number" "$often" "$counts" "$@"; done
    for workers in $counts; do show "on$workers" "$(told "$workers")"; done
    if [ -n "$has_node" ]; then
        for workers in $counts; do show "node$workers" "node, $(told "$workers")"; done
    fi
    for workers in ${counts#* }; do beside "on$workers" on0 "$(told "$workers") beside none"; done
    if [ -n "$has_node" ]; then
        for workers in $counts; do beside "on$workers" "node$workers" "$(told "$workers") beside node with as many"; done
    fi
}

key=$(seq 1 64 | awk '{ printf "%02x", $1 }')
echo "$(nproc) processors"
run 'blocks of 65,536 bytes, four masks' "$turns" '0 1 2 4' \
    fixed:n=65536 mask:key="$key" mask:key="$key" mask:key="$key" mask:key="$key"
mv "$work/in" "$work/whole"
head -c "$((mebibytes * 262144))" "$work/whole" >"$work/in"
run 'lines, number' 1 '0 2' lines number
run 'lines, number, mask, hex' 1 '0 1 2 4' lines number mask:key=5a17 hex
