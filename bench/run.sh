#!/bin/sh
# Times the crates: builds the programs of bench/ over a copy of the repository, each proved and compiled as `rt run`
# does, and prints the least time of each row. Arguments: the programs to run; none: all.
# RUNS is how often each program runs (3), and each takes the best of several turns itself.
set -eu
here=$(cd "$(dirname "$0")" && pwd)
top=$(dirname "$here")
runs=${RUNS:-3}
work=$(mktemp -d)
trap 'rm -rf "$work"' EXIT
programs=${*:-$(sed -n 's/^\([a-z_]*\):.*/\1/p' "$here/programs.txt")}

# The lines of both lists, and the crates below the given ones.
cat "$top/crates.txt" "$here/programs.txt" >"$work/all.txt"
below() {
    awk -v start="$*" '
        /^[a-z_]+[ :]/ { name = $1; sub(/:.*/, "", name); sub(/^[^:]*:/, ""); uses[name] = $0 }
        END {
            count = split(start, queue, " ")
            for (i = 1; i <= count; i++) {
                if (queue[i] in seen || !(queue[i] in uses)) continue
                seen[queue[i]] = 1
                print queue[i]
                more = split(uses[queue[i]], next_names, " ")
                for (j = 1; j <= more; j++) queue[++count] = next_names[j]
            }
        }' "$work/all.txt"
}

# A program stands in bench/ with `.in` behind its files' names, so that the gate does not take them for a crate's.
place() {
    if [ -d "$top/crates/$1" ]; then
        cp -r "$top/crates/$1" "$work/crates/$1"
        return
    fi
    mkdir -p "$work/crates/$1/src"
    cp "$here/$1/main.rt.in" "$work/crates/$1/src/main.rt"
    cp "$here/timing.rt.in" "$work/crates/$1/src/timing.rt"
    (cd "$here/$1" && find . -name '*.antt.in') | while read -r file; do
        mkdir -p "$work/crates/$1/$(dirname "$file")"
        cp "$here/$1/$file" "$work/crates/$1/${file%.in}"
    done
}

# `cp` of a file of 64 MiB, as a row.
time_cp() {
    head -c 67108864 /dev/zero >"$work/sound"
    for turn in 1 2 3 4 5 6 7; do
        rm -f "$work/copy"
        start=$(date +%s%N)
        cp "$work/sound" "$work/copy"
        printf 'cp of a file of 64 MiB\t%d\t1\t67108864\n' $(($(date +%s%N) - start))
    done
}

# The least time of each row. A row that names another shows how many millions of its calls are made a second, and how many times
# as many these are as that one's.
print_table() {
    awk -F '\t' '
        function times(first, time) { return sprintf("%.2f times", best[first] / calls[first] / time) }
        /^#/ { if (!($0 in notes)) { notes[$0] = 1; note[++noted] = $0 } next }
        !($1 in best) { row[++rows] = $1; best[$1] = $2 }
        $2 < best[$1] { best[$1] = $2 }
        { calls[$1] = $3; bytes[$1] = $4; beside[$1] = $5 }
        END {
            for (i = 1; i <= rows; i++) {
                name = row[i]
                time = best[name] / calls[name]
                shown = time < 1000000 ? sprintf("%.1f ns", time) : sprintf("%.2f ms", time / 1000000)
                speed = bytes[name] ? sprintf("%.0f MB/s", bytes[name] * 1000 / time) : ""
                if (beside[name]) speed = sprintf("%.2f M/s", 1000 / time) " " times(beside[name], time)
                printf "%-52s %14s %14s\n", name, shown, speed
            }
            for (i = 1; i <= noted; i++) print note[i]
        }'
}

mkdir "$work/crates" "$work/run"
git init -q "$work"
: >"$work/crates.txt"
for name in $(below $programs); do
    place "$name"
    grep "^$name[ :]" "$work/all.txt" >>"$work/crates.txt"
done
for name in $programs; do
    cd "$work/crates/$name"
    if ! rt run --jobs 1 >"$work/log" 2>&1; then
        cat "$work/log" >&2
        exit 1
    fi
done
uptime
cd "$work/run"
for name in $programs; do
    echo "== $name"
    {
        for run in $(seq "$runs"); do "$work/crates/$name/out/$name"; done
        if [ "$name" = bench_wav ]; then time_cp; fi
    } | print_table
done
uptime
