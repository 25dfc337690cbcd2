#!/usr/bin/env bash
# Nanoseconds of the calls of `iq_bitmap` on 2,097,152 rows beside plain Rust, and their ratio. For information: no test reads it.
# Run it anywhere; it wants rt and rustc. RUNS may be set. The runs take turns with the yardstick's, so that a busy machine slows
# both. The least of all runs is what the code takes, since other work on the machine only adds; the median stands below it. The
# second yardstick may use the processor as the kit's programs do.
set -eu
cd "$(dirname "$0")/../.."
runs=${RUNS:-15}
work=$(mktemp -d)
trap 'rm -rf "$work"' EXIT
(cd crates/bitmap_bench && rt run) >"$work/log" 2>&1 || { cat "$work/log"; exit 1; }
rustc --edition 2024 -O -o "$work/rust" bench/bitmap/yardstick.rs
rustc --edition 2024 -O -C target-cpu=x86-64-v2 -o "$work/rust_v2" bench/bitmap/yardstick.rs

for _ in $(seq "$runs"); do
    crates/bitmap_bench/out/bitmap_bench run >>"$work/ours.txt"
    "$work/rust" >>"$work/rust.txt"
    "$work/rust_v2" >>"$work/rust_v2.txt"
done

# The time of a call at a place among the sorted times of a file.
timed() {
    awk -v call="$2" '$1 == call { print $2 }' "$work/$1.txt" | sort -n | sed -n "$3p"
}

# The table of the times at a place among the sorted ones.
table() {
    printf '%-12s %10s %10s %7s %10s %7s\n' "$1" iq_bitmap 'rustc -O' ratio x86-64-v2 ratio
    for call in and_with count load_page store_page; do
        ours=$(timed ours "$call" "$2")
        rust=$(timed rust "$call" "$2")
        rust_v2=$(timed rust_v2 "$call" "$2")
        printf '%-12s %10s %10s %7s %10s %7s\n' "$call" "$ours" \
            "$rust" "$(awk "BEGIN { printf \"%.2f\", $ours / $rust }")" \
            "$rust_v2" "$(awk "BEGIN { printf \"%.2f\", $ours / $rust_v2 }")"
    done
    printf '%-12s %10s\n' walk "$(timed ours walk "$2")"
}

table least 1
echo
table median "$(((runs + 1) / 2))"
