#!/usr/bin/env bash
# Times `local` on the example request over tables of 1,000, 10,000 and 100,000 persons. Time a byte must not grow
# with their number. It runs the proved program, which `make build` leaves; the gate doesn't run it.
set -euo pipefail
top=$(cd "$(dirname "$0")/.." && pwd)
program=$top/crates/gql_run/out/gql_run
data=$top/crates/gql_run/data
for tool in awk date; do
    command -v "$tool" > /dev/null || { echo "skipped: no $tool"; exit 0; }
done
[ -x "$program" ] || { echo "skipped: no program, make build leaves it"; exit 0; }
work=$(mktemp -d)
trap 'rm -rf "$work"' EXIT

# tables of $1 persons; the hero is the last of them
tables() {
    awk -v n="$1" 'BEGIN {
        printf "{\"Query\":[{\"@id\":\"q\",\"hero\":{\"ref\":\"%d\"}}],\"Person\":[", n
        for (i = 1; i <= n; i++)
            printf "%s\n{\"@id\":\"%d\",\"id\":\"%d\",\"name\":\"Person%d\",\"age\":%d,\"boom\":null}", (i > 1 ? "," : ""), i, i, i, i % 100
        print "]}"
    }'
}

echo "persons bytes milliseconds bytes/s nanoseconds/byte"
for n in 1000 10000 100000; do
    tables "$n" > "$work/tables.json"
    bytes=$(wc -c < "$work/tables.json")
    best=0
    for _ in 1 2 3; do
        start=$(date +%s%N)
        "$program" local "$data/schema.graphql" "$work/tables.json" "$data/document.graphql" - 0 7 > "$work/body"
        took=$(($(date +%s%N) - start))
        if [ "$best" = 0 ] || [ "$took" -lt "$best" ]; then best=$took; fi
    done
    grep -q "Person$n" "$work/body" || { echo "another answer than expected"; cat "$work/body"; exit 1; }
    awk -v n="$n" -v b="$bytes" -v t="$best" 'BEGIN { printf "%d %d %.1f %.0f %.1f\n", n, b, t / 1e6, b / t * 1e9, t / b }'
done
