#!/usr/bin/env bash
# The time in which a store of 100,000 reached blocks opens, beside plain C that reads each of them once by pread, and the ratio; and
# the memory that opening takes for it, beside that for a store of 5,000. For information: no test reads it. Run it anywhere; it
# wants rt and cc. SLOTS, ROUNDS and RUNS may be set. Each figure is the median of RUNS runs, which take turns with the yardstick's,
# so that a busy machine slows both.
set -eu
cd "$(dirname "$0")/../.."
slots=${SLOTS:-1980000}
rounds=${ROUNDS:-5}
runs=${RUNS:-5}
work=$(mktemp -d)
trap 'rm -rf "$work"' EXIT
(cd crates/opening_bench && rt run) >"$work/log" 2>&1 || { cat "$work/log"; exit 1; }
cc -O2 -o "$work/store" bench/opening/store.c
blocks=$("$work/store" make "$work/large.iq" "$slots")
few=$("$work/store" make "$work/small.iq" 1)
ours=crates/opening_bench/out/opening_bench

for _ in $(seq "$runs"); do
    "$ours" "$work/large.iq" "$rounds" >>"$work/times"
    "$work/store" read "$work/large.iq" "$rounds" >>"$work/times"
    "$work/store" peak "$ours" "$work/large.iq" 1 >>"$work/large"
    "$work/store" peak "$ours" "$work/small.iq" 1 >>"$work/small"
done
grep -q "($blocks)" "$work/times" || { echo "not all of $blocks blocks are reached"; exit 1; }

middle=$(((runs + 1) / 2))
median() { sort -n | sed -n "${middle}p"; }
open=$(awk '$1 == "open" { print $2 }' "$work/times" | median)
read=$(awk '$1 == "read" { print $2 }' "$work/times" | median)
awk -v blocks="$blocks" -v all="$((blocks * rounds))" -v open="$open" -v read="$read" \
    'BEGIN { printf "%d blocks: open %.3f us a block, pread %.3f, ratio %.2f\n", blocks, open / all / 1e3, read / all / 1e3, open / read }'
awk -v blocks="$blocks" -v few="$few" -v large="$(median <"$work/large")" -v small="$(median <"$work/small")" \
    'BEGIN { printf "memory: %d KiB, %d for %d blocks; 4 bytes and a bit for each block more are %d\n", large, small, few, (blocks - few) * 33 / 8 / 1024 }'
