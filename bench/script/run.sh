#!/usr/bin/env bash
# The time in which scripts of some 16 MiB are read, and the most memory that this takes, in bytes for each byte of the script: INSERTs of 79
# tuples, one INSERT of tuples of one digit, and comments. For information: no test reads it. Run it anywhere; it wants rt, awk and
# GNU time. Each time is the median of RUNS runs, the processor's and the system's part together.
set -eu
cd "$(dirname "$0")/../.."
runs=${RUNS:-5}
most=16777216
work=$(mktemp -d)
trap 'rm -rf "$work"' EXIT
(cd crates/script_bench && rt run) >"$work/log" 2>&1 || { cat "$work/log"; exit 1; }
ours=crates/script_bench/out/script_bench

awk -v most="$most" 'BEGIN {
    srand(1)
    while (1) {
        line = "INSERT INTO t VALUES "
        for (i = 0; i < 79; i++)
            line = line (i ? "," : "") sprintf("(%d,%d,\x27%s\x27)", rand() * 100000, rand() * 1000, substr("abcdef", 1, 1 + int(rand() * 6)))
        size += length(line) + 1
        if (size > most) exit
        print line
    }
}' >"$work/inserts"
awk -v most="$most" 'BEGIN {
    printf "INSERT INTO t VALUES (1)"
    for (size = 24; size + 5 <= most; size += 4) printf ",(1)"
    print ""
}' >"$work/ones"
yes -- "-- nothing" | head -c "$most" >"$work/comments"

for script in inserts ones comments; do
    bytes=$(wc -c <"$work/$script")
    for _ in $(seq "$runs"); do
        command time -f "peak %M" -o "$work/peak" "$ours" "$work/$script" >>"$work/times.$script"
        cat "$work/peak" >>"$work/times.$script"
    done
    awk '$1 == "read" { print $2 }' "$work/times.$script" | sort -n | sed -n "$(((runs + 1) / 2))p" >"$work/time"
    awk '$1 == "peak" { if ($2 > most) most = $2 } END { print most }' "$work/times.$script" >"$work/most"
    awk -v name="$script" -v bytes="$bytes" -v time="$(cat "$work/time")" -v peak="$(cat "$work/most")" \
        'BEGIN { printf "%s: %d bytes, %.2f seconds, %.0f MB at most, %.1f bytes a byte\n", name, bytes, time / 1e9, peak / 1024, peak * 1024 / bytes }'
done
