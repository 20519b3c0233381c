#!/bin/sh
# Runs four pipelines over text in lines of about 80 bytes by `./streams run FILE`, beside the usual tool where there is one and,
# where node is there, beside the same stages written for Node's own Web Streams, whose source reads 4,096 bytes at once, in one
# run: `lines` and `number`, `hex`, `mask`, and four transform streams in a row. They take turns, five times each, and three times
# as often where a run is short. Prints each one's median and best, its rate and the chunks that pass its stages in a second by the
# median, its peak memory, and how many times Node's rate `./streams run` has: by the medians, by the best, and by the medians of
# the processor time. Each output is compared with Node's.
# Words: the input's MiB, and how many turns.
set -eu
root=$(CDPATH='' cd -- "$(dirname -- "$0")/.." && pwd)
work=$(mktemp -d)
trap 'rm -rf "$work"' EXIT
mebibytes=${1:-64}
turns=${2:-5}
. "$root/bench/measure.sh"
text_lines "$mebibytes" >"$work/in"
lines=$(wc -l <"$work/in")
program=$(built)
if command -v node >/dev/null 2>&1; then has_node=yes; else has_node=; fi

show() {
    middle=$(median "$work/$1.ms")
    printf '  %-9s %7s s  (best %7s)  %8s MiB/s  %9s chunks/s  %8s KiB\n' "$1" "$(seconds "$middle")" \
        "$(seconds "$(least "$work/$1.ms")")" "$(ratio "$middle" "$((mebibytes * 1000))")" "$((chunks * 1000 / middle))" \
        "$(sort -n "$work/$1.kib" | tail -1)"
}

# How many turns, the chunks that pass the stages of a pipeline, the stages, and the usual tool's words behind `--`.
run() {
    left=$1
    chunks=$2
    shift 2
    stages=
    while [ $# -gt 0 ] && [ "$1" != -- ]; do
        stages="$stages $1"
        shift
    done
    [ $# -eq 0 ] || shift
    # a tool that isn't there has no row
    if [ $# -gt 0 ] && ! command -v "$1" >/dev/null 2>&1; then shift $#; fi
    # each stage is a word
    # shellcheck disable=SC2086
    plan 0 $stages >"$work/plan.toml"
    echo "$stages"
    forget
    while [ "$left" -gt 0 ]; do
        once streams "$program" run "$work/plan.toml"
        if [ $# -gt 0 ]; then once "$1" "$@"; fi
        if [ -n "$has_node" ]; then
            # shellcheck disable=SC2086
            once node node "$root/bench/plans.mjs" $stages
            cmp "$work/streams" "$work/node" || { echo 'the outputs differ' >&2; exit 1; }
        fi
        left=$((left - 1))
    done
    show streams
    if [ $# -gt 0 ]; then show "$1"; fi
    if [ -n "$has_node" ]; then
        show node
        echo "  streams has $(ratio "$(median "$work/streams.ms")" "$(median "$work/node.ms")") times node's rate," \
            "best by best $(ratio "$(least "$work/streams.ms")" "$(least "$work/node.ms")")," \
            "by processor time $(ratio "$(median "$work/streams.cpu")" "$(median "$work/node.cpu")")"
    fi
}

pieces=$((mebibytes * 256))
echo "$(nproc) processors, $mebibytes MiB, $lines lines"
run "$turns" "$((pieces + 2 * lines))" lines number -- cat -n
run "$((3 * turns))" "$((2 * pieces))" hex -- xxd -p
run "$((3 * turns))" "$((2 * pieces))" mask:key=5a17
run "$turns" "$((pieces + 4 * lines))" lines number mask:key=5a17 hex
