# shellcheck shell=sh disable=SC2154
# What bench/run and .ci/speed have in common; they read it in. They set `root`
# (the repository) and `library` (the port's static library).

# shellcheck source-path=SCRIPTDIR
. "$root/oracle/common/sources.sh"

# Makes $out/bench, with rustc's own optimisation for a release. What comes
# after goes to the compiler.
build() {
    name_device
    rustc --edition 2021 -C opt-level=3 "$@" \
        -C "link-arg=$library" -o "$out/bench" "$root/bench/bench.rs"
}

# The same with live calls in it: the crate of host/rust, optimised alike, and
# host/live.c with the usual optimisation of C.
build_live() {
    mkdir -p -- "$out"
    cc -std=c11 -O2 -fPIC -c -o "$out/live.o" "$root/host/live.c"
    rustc --edition 2021 -C opt-level=3 --crate-name tg18 --crate-type rlib \
        -o "$out/libtg18.rlib" "$root/host/rust/src/lib.rs"
    build --cfg live --extern "tg18=$out/libtg18.rlib" -C "link-arg=$out/live.o"
}

# Instructions from the call of one side to its end, for one run. What comes
# third says of what: nothing of a script, live_ of live calls.
instructions() {
    valgrind --tool=callgrind --callgrind-out-file=/dev/null \
        "--toggle-collect=measured_$3$2" "$out/bench" "$3count" "$1" "$2" 2>&1 |
        sed -n 's/^.*Collected : \([0-9]*\).*$/\1/p'
}

# Of each family with this in its name a line: its steps, the Rust's
# instructions, the port's (0 if there are none to read), and its name. Both
# sides are counted at once: a count does not depend on what else runs.
counts() {
    of=${2:-}
    "$out/bench" "${of}families" | grep -F -- "$1" | while read -r number steps name; do
        instructions "$number" rust "$of" >"$out/rust_count" &
        port=$(instructions "$number" port "$of")
        wait
        rust=$(cat "$out/rust_count")
        printf '%s %s %s %s\n' "$steps" "${rust:-0}" "${port:-0}" "$name"
    done
}

# The same lines as a table; what comes first says of what if not of steps.
# shellcheck disable=SC2120
table() {
    printf '%-30s%14s%14s%8s\n' "instructions a ${1:-step}" Rust port ratio
    while read -r steps rust port name; do
        awk -v steps="$steps" -v rust="$rust" -v port="$port" -v name="$name" 'BEGIN {
            ratio = rust ? port / rust : 0
            printf "%-30s%14.1f%14.1f%8.2f\n", name, rust / steps, port / steps, ratio
        }'
    done
}

# Instructions of saving and of resuming a session, beside those of copying the
# memories to a buffer and back.
session_counts() {
    printf '\n%-14s%12s%12s%8s%12s%12s%8s\n' instructions copy save ratio back resume ratio
    "$out/bench" session_families | while read -r number name; do
        for side in out save in resume; do instructions "$number" "$side" session_; done |
            awk -v name="$name" '{ n[NR] = $1 } END {
                printf "%-14s%12d%12d%8.2f%12d%12d%8.2f\n",
                    name, n[1], n[2], n[2] / n[1], n[3], n[4], n[4] / n[3]
            }'
    done
}
