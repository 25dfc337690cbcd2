#!/usr/bin/env bash
# Nanoseconds of an append of 200,000 rows (INT, VARCHAR(8), INT, BIGINT) to a table over pages in memory, and of a scan of one test over
# them, beside plain C++ that does the same work, and their ratio; and the peak of memory of the append beside that of making the rows.
# For information: no test reads it. Run it anywhere; it wants rt, g++ and gcc. RUNS may be set. The runs take turns with the yardstick's, so
# that a busy machine slows both; the figures are medians.
set -eu
cd "$(dirname "$0")/../.."
runs=${RUNS:-5}
work=$(mktemp -d)
trap 'rm -rf "$work"' EXIT
(cd crates/column_bench && rt run) >"$work/log" 2>&1 || { cat "$work/log"; exit 1; }
g++ -std=c++17 -O2 -o "$work/plain" bench/columns/yardstick.cpp
ours=crates/column_bench/out/column_bench

for _ in $(seq "$runs"); do
    "$ours" run >>"$work/ours.txt"
    "$work/plain" >>"$work/plain.txt"
done

# The median of the times of a call in a file.
timed() {
    awk -v call="$2" '$1 == call { print $2 }' "$work/$1.txt" | sort -n | sed -n "$(((runs + 1) / 2))p"
}

printf '%-12s %12s %12s %7s\n' median ours 'g++ -O2' ratio
for call in append scan_many scan_few; do
    a=$(timed ours "$call")
    b=$(timed plain "$call")
    printf '%-12s %12s %12s %7s\n' "$call" "$a" "$b" "$(awk "BEGIN { printf \"%.2f\", $a / $b }")"
done

# The greatest size in memory of a run, in KiB: of the run alone, and not of a large program that starts it.
cat >"$work/peak.c" <<'PEAK'
#include <fcntl.h>
#include <stdio.h>
#include <sys/resource.h>
#include <sys/wait.h>
#include <unistd.h>

int main(int count, char **words) {
    int status;
    struct rusage used;
    if (count > 1 && fork() == 0) {
        dup2(open("/dev/null", O_WRONLY), 1);
        execv(words[1], words + 1);
        _exit(127);
    }
    wait(&status);
    getrusage(RUSAGE_CHILDREN, &used);
    printf("%ld\n", used.ru_maxrss);
    return status != 0;
}
PEAK
gcc -O2 -o "$work/peak" "$work/peak.c"

printf 'peak of the rows alone %s KiB, with the append and its pages %s KiB\n' "$("$work/peak" "$ours" rows alone)" "$("$work/peak" "$ours" run)"
