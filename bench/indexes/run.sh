#!/usr/bin/env bash
# Nanoseconds of appends of 200,000 rows of numbers to indexes over pages in memory, and of the rows found by them, beside plain C++ that
# does the same work, and their ratio. For information: no test reads it. Run it anywhere; it wants rt and g++. RUNS may be set. The runs
# take turns with the yardstick's, so that a busy machine slows both; the figures are medians. A call that both print under one name gets
# a line.
set -eu
cd "$(dirname "$0")/../.."
runs=${RUNS:-5}
work=$(mktemp -d)
trap 'rm -rf "$work"' EXIT
(cd crates/index_bench && rt run) >"$work/log" 2>&1 || { cat "$work/log"; exit 1; }
g++ -std=c++17 -O2 -o "$work/plain" bench/indexes/yardstick.cpp
ours=crates/index_bench/out/index_bench

for _ in $(seq "$runs"); do
    "$ours" run >>"$work/ours.txt"
    "$work/plain" >>"$work/plain.txt"
done

# What each call gave must be the same in both.
awk '{ print $1, $3 }' "$work/ours.txt" | sort -u >"$work/ours.gave"
awk '{ print $1, $3 }' "$work/plain.txt" | sort -u >"$work/plain.gave"
diff "$work/ours.gave" "$work/plain.gave"

# The median of the times of a call in a file.
timed() {
    awk -v call="$2" '$1 == call { print $2 }' "$work/$1.txt" | sort -n | sed -n "$(((runs + 1) / 2))p"
}

printf '%-14s %12s %12s %7s\n' median ours 'g++ -O2' ratio
for call in $(awk '!told[$1]++ { print $1 }' "$work/plain.txt"); do
    a=$(timed ours "$call")
    b=$(timed plain "$call")
    printf '%-14s %12s %12s %7s\n' "$call" "$a" "$b" "$(awk "BEGIN { printf \"%.2f\", $a / $b }")"
done
