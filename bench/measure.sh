# For the benches that read `$work/in`. What is compared takes turns, since a machine may be slower for a while: `once` measures one
# run, and `show` tells what a name had in all of them.

# Words are numbers, or the path of a program. Of any other one the bench says what it does, and does nothing.
for word in "$@"; do
    case $word in
    -*)
        sed -n '2,/^set /s/^# \{0,1\}//p' "$0" >&2
        exit 2
        ;;
    esac
done

# Runs the words behind the name, with the output in `$work/NAME`, and notes the milliseconds by the wall clock, those of processor
# time, and the peak memory. Of both times `/usr/bin/time` tells hundredths, too few for a short run, and bash thousandths.
once() {
    name=$1
    shift
    rm -f "$work/$name"
    # shellcheck disable=SC2016
    bash -c 'TIMEFORMAT="%3R %3U %3S"; { time "$@" 2>&3; } 3>&2 2>"$0"' "$work/times" \
        /usr/bin/time -f %M -o "$work/memory" "$@" <"$work/in" >"$work/$name"
    # seconds with three digits behind a point, or a comma by some locales: without it they are milliseconds
    awk '{ gsub("[.,]", ""); print $1 + 0 }' "$work/times" >>"$work/$name.ms"
    awk '{ gsub("[.,]", ""); print $2 + $3 }' "$work/times" >>"$work/$name.cpu"
    cat "$work/memory" >>"$work/$name.kib"
}

# So many MiB of text in lines of about 80 bytes.
text_lines() {
    awk -v bytes="$(($1 * 1048576))" 'BEGIN {
        srand(7)
        for (line = 1; done < bytes; line += 1) {
            text = sprintf("2026-11-28T09:%02d:%02dZ host-%d GET /item/%d 200", line / 60 % 60, line % 60, line % 16, line)
            for (pad = 30 + int(rand() * 20); length(text) < 45 + pad; ) text = text " ."
            print text; done += length(text) + 1
        }
    }' | head -c "$(($1 * 1048576))"
}

# The plan of stages on so many workers, on each as many as on the others or one more. A stage is a word, KIND or KIND:KEY=VALUE.
plan() {
    count=$1
    shift
    printf 'version = 1\nworkers = %d\n' "$count"
    place=0
    for stage in "$@"; do
        printf '[[stage]]\nkind = "%s"\n' "${stage%%:*}"
        case $stage in
        *:n=*) echo "n = ${stage#*=}" ;;
        *:*) echo "${stage#*:}" | sed 's/=\(.*\)/ = "\1"/' ;;
        esac
        if [ "$count" -gt 0 ]; then echo "worker = $((place * count / $# + 1))"; fi
        place=$((place + 1))
    done
}

# The program, built and proved where that is due.
built() {
    printf 'x' | STREAMS_PROVED=1 "$root/streams" run >/dev/null
    echo "$root/crates/streams/out/streams"
}

# A program that is no crate of the gate, proved and built in `$work` over copies of the crates that it stands on: the name of its
# source, `bench/NAME.rt.txt`, and the crates.
built_alone() {
    name=$1
    shift
    mkdir -p "$work/crates/bench_$name/src"
    cp "$root/HANDLES" "$work"
    cp "$root/bench/$name.rt.txt" "$work/crates/bench_$name/src/main.rt"
    for crate in "$@"; do
        mkdir "$work/crates/$crate"
        for part in src specs proofs; do cp -R "$root/crates/$crate/$part" "$work/crates/$crate"; done
        grep "^$crate[ :]" "$root/crates.txt" >>"$work/crates.txt"
    done
    echo "bench_$name: $*" >>"$work/crates.txt"
    (cd "$work/crates/bench_$name" && rt run) >"$work/built" 2>&1 || { cat "$work/built" >&2; return 1; }
    echo "$work/crates/bench_$name/out/bench_$name"
}

# The middle one of the numbers noted in this file.
median() {
    sort -n "$1" | sed -n "$((($(wc -l <"$1") + 1) / 2))p"
}

# The least one.
least() {
    sort -n "$1" | head -1
}

# Forgets what was noted.
forget() {
    rm -f "$work"/*.ms "$work"/*.cpu "$work"/*.kib
}

# The seconds of these milliseconds.
seconds() {
    echo "$1" | awk '{ printf "%.3f", $1 / 1000 }'
}

# How many times the second number has the first one.
ratio() {
    awk -v a="$1" -v b="$2" 'BEGIN { printf "%.2f", b / a }'
}
