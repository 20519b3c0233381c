#!/bin/sh
# How fast the kernels of `ws_lanes` go over 1 GiB, beside plain loops and beside a pass that only reads: by a block of 16 KiB, which
# lies in the processor's cache, and by one of 64 MiB. Prints for each the median and the best of the runs in MiB a second.
# The program, `bench/lanes.rt.txt`, is no crate of the gate, which takes no other .rt file: it is proved and built here, in a folder of
# its own. Word: how many runs.
set -eu
root=$(CDPATH='' cd -- "$(dirname -- "$0")/.." && pwd)
work=$(mktemp -d)
trap 'rm -rf "$work"' EXIT
runs=${1:-5}
. "$root/bench/measure.sh"

program=$(built_alone lanes ws_lanes)

while [ "$runs" -gt 0 ]; do
    "$program" measured | while read -r bytes kernel nanoseconds; do echo "$((nanoseconds / 1000))" >>"$work/$kernel.$bytes"; done
    runs=$((runs - 1))
done
for bytes in 16384 67108864; do
    for kernel in read count_byte count_plainly mask mask_plainly put_hex put_hex_plainly; do
        measured=$work/$kernel.$bytes
        printf '%-9s %-15s %7s MiB/s  (best %7s)\n' "$bytes" "$kernel" "$((1024 * 1000000 / $(median "$measured")))" "$((1024 * 1000000 / $(least "$measured")))"
    done
done
