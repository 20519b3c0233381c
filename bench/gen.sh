#!/bin/sh
# Runs `./streams gen N 1 FILE` over a file without stages, and beside it a plain copy of as many bytes of memory, by blocks of 64 MiB
# (Python's, which is the C library's memcpy). They take turns. Prints each one's median and best, and its rate by the median.
# Words: how many bytes, and how many turns.
set -eu
root=$(CDPATH='' cd -- "$(dirname -- "$0")/.." && pwd)
work=$(mktemp -d)
trap 'rm -rf "$work"' EXIT
bytes=${1:-4000000000}
turns=${2:-3}
. "$root/bench/measure.sh"
: >"$work/in"
program=$(built)
plan 0 >"$work/plan.toml"
cat >"$work/copy.py" <<'PROGRAM'
import sys
left = int(sys.argv[1])
block, to = bytearray(b'x' * 67108864), bytearray(67108864)
while left > 0:
    to[:] = block
    left -= len(block)
PROGRAM

while [ "$turns" -gt 0 ]; do
    once gen "$program" gen "$bytes" 1 "$work/plan.toml"
    once copy python3 "$work/copy.py" "$bytes"
    turns=$((turns - 1))
done
cat "$work/gen"
for name in gen copy; do
    middle=$(median "$work/$name.ms")
    printf '%-5s %7s s  (best %7s)  %7s MB/s  %8s KiB\n' "$name" "$(seconds "$middle")" "$(seconds "$(least "$work/$name.ms")")" \
        "$((bytes / 1000 / middle))" "$(sort -n "$work/$name.kib" | tail -1)"
done
