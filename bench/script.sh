#!/bin/sh
# Performs scripts of 20,000, 40,000 and 80,000 lines by `./streams script` and, where node is there, by the same calls on
# Node's own Web Streams: of `enqueue` and `read` lines on one stream, of `write` and `read` lines on the halves of one identity
# transform stream, and, half as long, of `enqueue` and `readinto` lines on one byte stream and of pipes through each of which 65
# chunks go. Prints each one's best of five times side by side, and how many times Node's rate `./streams script` has.
set -eu
root=$(CDPATH='' cd -- "$(dirname -- "$0")/.." && pwd)
work=$(mktemp -d)
trap 'rm -rf "$work"' EXIT
. "$root/bench/measure.sh"
program=$(built)

# A script of so many lines: reads of one stream.
reads() {
    awk -v lines="$1" 'BEGIN {
        print "readable 0 count now"; print "reader s0"
        for (line = 2; line < lines; line += 2) { print "enqueue s0 n" line; print "read l0" }
    }'
}

# A script of so many lines: buffered reads of one byte stream, of which one finds bytes and the next waits.
rooms() {
    awk -v lines="$1" 'BEGIN {
        print "bytes 0 0 now"; print "byob s0"
        for (line = 2; line < lines; line += 4) {
            print "enqueue s0 x00010203"; print "readinto l0 4 4"; print "readinto l0 4 4"; print "enqueue s0 x04050607"
        }
    }'
}

# A script of so many lines: writes to an identity transform stream, and reads from it.
transforms() {
    awk -v lines="$1" 'BEGIN {
        print "transform identity 1 0 now"; print "writer s0"; print "reader s1"
        for (line = 3; line < lines; line += 2) { print "write l0 n" line; print "read l1" }
    }'
}

# A script of so many lines: pipes one after another. Each calls the host's algorithms 132 times: a pull and a write for each
# chunk, a last pull, and a close.
pipes() {
    awk -v lines="$1" 'BEGIN {
        for (pipe = 0; 200 * pipe < lines; pipe += 1) {
            source = "s" 2 * pipe; dest = "s" 2 * pipe + 1; host = 132 * pipe
            print "readable 0 count now"; print "writable 1 count now"; print "pipe " source " " dest
            for (chunk = 0; chunk < 65; chunk += 1) {
                print "enqueue " source " n" chunk
                print "settle h" host + 2 * chunk " ok"; print "settle h" host + 2 * chunk + 1 " ok"
            }
            print "finish " source; print "settle h" host + 131 " ok"
        }
    }'
}

# Best of five, in milliseconds by the wall clock, which is bash's own: of a short run `date` would take a tenth.
best() {
    rm -f "$work/microseconds"
    for _ in 1 2 3 4 5; do
        # shellcheck disable=SC2016
        bash -c 'begun=${EPOCHREALTIME/[.,]/}; "$@" || exit; echo "$((${EPOCHREALTIME/[.,]/} - begun))" >>"$0"' "$work/microseconds" \
            "$@" <"$work/in" >"$work/out"
    done
    echo "scale=2; $(least "$work/microseconds") / 1000" | bc
}

echo "$(nproc) processors"
# A script has at most 1,048,576 bytes.
for kind in reads transforms rooms pipes; do
    case $kind in rooms | pipes) sizes='10000 20000 40000' ;; *) sizes='20000 40000 80000' ;; esac
    for lines in $sizes; do
        "$kind" "$lines" >"$work/in"
        streams=$(best "$program" script)
        cp "$work/out" "$work/printed"
        printf '%s of %6s lines  streams %7s ms' "$kind" "$lines" "$streams"
        if command -v node >/dev/null 2>&1; then
            node=$(best node "$root/bench/script.mjs")
            cmp -s "$work/out" "$work/printed" || { echo; echo 'the texts differ' >&2; exit 1; }
            printf '  node %7s ms  %5s times' "$node" "$(echo "scale=1; $node / $streams" | bc)"
        fi
        echo
    done
done
