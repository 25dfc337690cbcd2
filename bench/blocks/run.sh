#!/usr/bin/env bash
# Blocks a second that `iq_block_store` writes and reads in a file, beside plain `pwrite` and `pread` of the same bytes, and the
# ratio of the times. For information: no test reads it. Run it anywhere; it wants rt and rustc. BLOCKS and RUNS may be set.
# Each figure is the median of RUNS runs, which take turns with the yardstick's, so that a busy machine slows both.
set -eu
cd "$(dirname "$0")/../.."
blocks=${BLOCKS:-65536}
runs=${RUNS:-9}
rounds=5
work=$(mktemp -d)
trap 'rm -rf "$work"' EXIT
(cd crates/block_bench && rt run) >"$work/log" 2>&1 || { cat "$work/log"; exit 1; }
rustc --edition 2024 -O -o "$work/plain" bench/blocks/yardstick.rs

for _ in $(seq "$runs"); do
    crates/block_bench/out/block_bench "$work/ours.iq" "$blocks" >>"$work/ours.txt"
    "$work/plain" "$work/plain.iq" "$blocks" >>"$work/plain.txt"
done
cmp "$work/ours.iq" "$work/plain.iq"

# The median of a call's times in a file, in nanoseconds.
median() {
    awk -v call="$2" '$1 == call { print $2 }' "$work/$1.txt" | sort -n | sed -n "$(((runs + 1) / 2))p"
}

printf '%-6s %16s %16s %7s\n' call 'blocks/s' 'plain blocks/s' ratio
for call in write read; do
    awk -v call="$call" -v all="$((blocks * rounds))" -v ours="$(median ours "$call")" -v plain="$(median plain "$call")" \
        'BEGIN { printf "%-6s %16d %16d %7.2f\n", call, all * 1e9 / ours, all * 1e9 / plain, ours / plain }'
done
