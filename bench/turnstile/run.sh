#!/usr/bin/env bash
# Turns per second of `turnstile_bench` beside a `Mutex` of Rust, for 1, 2 and 4 threads. For information: no test reads it.
# Run it anywhere; it wants rt and rustc. TURNS and RUNS may be set. Each figure is the median of RUNS runs.
set -eu
cd "$(dirname "$0")/../.."
turns=${TURNS:-200000}
runs=${RUNS:-5}
work=$(mktemp -d)
trap 'rm -rf "$work"' EXIT
(cd crates/turnstile_bench && rt run) >"$work/log" 2>&1 || { cat "$work/log"; exit 1; }
rustc -O -o "$work/mutex" bench/turnstile/mutex.rs

# The median of turns per second of the command, at so many turns in all.
median() {
    local all=$1
    shift
    for _ in $(seq "$runs"); do
        "$@" | awk -v all="$all" '$1 != all { exit 1 } { printf "%d\n", all * 1e9 / $2 }'
    done | sort -n | sed -n "$(((runs + 1) / 2))p"
}

printf '%8s %16s %16s\n' threads turnstile/s mutex/s
for threads in 1 2 4; do
    all=$((threads * turns))
    printf '%8s %16s %16s\n' "$threads" \
        "$(median "$all" crates/turnstile_bench/out/turnstile_bench "$threads" "$turns")" \
        "$(median "$all" "$work/mutex" "$threads" "$turns")"
done
