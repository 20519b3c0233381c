#!/bin/sh
# Copies a 256 MiB file by `./streams run`, by `dd` with blocks of 4,096 bytes, by `cat` and, where node is there, through
# Node's own Web Streams, in one run; they take turns, five times each. Prints each one's median and best, its rate by the median, its
# peak memory, and how many times Node's rate `./streams run` has. Words: the file's MiB, and another `streams` to be measured beside
# this one.
set -eu
root=$(CDPATH='' cd -- "$(dirname -- "$0")/.." && pwd)
work=$(mktemp -d)
trap 'rm -rf "$work"' EXIT
. "$root/bench/measure.sh"
mebibytes=${1:-256}
head -c "$((mebibytes * 1048576))" /dev/urandom >"$work/in"
program=$(built)
if command -v node >/dev/null 2>&1; then has_node=yes; else has_node=; fi

copy() {
    once "$@"
    cmp -s "$work/in" "$work/$1" || { echo "$1: the copy differs" >&2; exit 1; }
}

show() {
    middle=$(median "$work/$1.ms")
    printf '%-8s %7s s  (best %7s)  %8s MiB/s  %8s KiB\n' "$1" "$(seconds "$middle")" "$(seconds "$(least "$work/$1.ms")")" \
        "$(ratio "$middle" "$((mebibytes * 1000))")" "$(sort -n "$work/$1.kib" | tail -1)"
}

echo "$(nproc) processors, $mebibytes MiB"
for _ in 1 2 3 4 5; do
    copy streams "$program" run
    if [ $# -ge 2 ]; then copy other "$2" run; fi
    copy dd dd bs=4096 status=none
    copy cat cat
    if [ -n "$has_node" ]; then copy node node "$root/bench/copy.mjs"; fi
done
show streams
if [ $# -ge 2 ]; then show other; fi
show dd
show cat
streams=$(median "$work/streams.ms")
if [ -n "$has_node" ]; then
    show node
    echo "streams has $(ratio "$streams" "$(median "$work/node.ms")") times node's rate"
fi
echo "streams takes $(ratio "$(median "$work/dd.ms")" "$streams") times dd's time, and $(ratio "$(median "$work/cat.ms")" "$streams") times cat's"
