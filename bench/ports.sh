#!/bin/sh
# Sends 3,000,000 messages through one row, over a table (`ws_port`) and over a ruled queue (`ws_first_port`): between two threads, and
# posted and taken in turn by one thread. Prints for each the median and the best of five runs, and the messages a second by the median.
# The program, `bench/ports.rt.txt`, is no crate of the gate, which takes no other .rt file: it is proved and built here, with the three
# crates that it stands on, in a folder of its own. Word: how many runs.
set -eu
root=$(CDPATH='' cd -- "$(dirname -- "$0")/.." && pwd)
work=$(mktemp -d)
trap 'rm -rf "$work"' EXIT
runs=${1:-5}
. "$root/bench/measure.sh"

program=$(built_alone ports ws_value ws_port ws_first_port)

while [ "$runs" -gt 0 ]; do
    "$program" measured | while read -r row threads milliseconds; do echo "$milliseconds" >>"$work/$row.$threads"; done
    runs=$((runs - 1))
done
echo "$(nproc) processors"
for measured in table.two queue.two table.one queue.one; do
    middle=$(median "$work/$measured")
    printf '%-10s %6s ms  (best %6s)  %10s messages a second\n' "$measured" "$middle" "$(least "$work/$measured")" "$((3000000 * 1000 / middle))"
done
