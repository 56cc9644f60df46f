#!/usr/bin/env bash
# Times the parser on documents of 1 KB to 1 MB of four kinds: flat (one field behind another), deep (100 braces,
# again and again), fragments (many definitions) and strings (long arguments). The program gql_bench parses each
# document again and again in one process, so its start and the reading of the file are subtracted; cold is the first
# time in a process, less what a document of one field takes. Beside it stand a parser written by hand in Rust without
# proofs (rust_tree), graphql-core's, GraphQL.js's and that of Go's gqlparser on the same text, warm: the best of
# several in one process. Of GraphQL.js it is the better of node's own settings and a large young generation, of the
# program the better of the allocator's own settings and ones by which it keeps what was freed. Each of the others is
# skipped where it isn't installed. Memory is the most that the process holds while it parses the document, less that
# for a document of one field. The gate doesn't run it.
set -euo pipefail
top=$(cd "$(dirname "$0")/.." && pwd)
program=$top/crates/gql_bench/out/gql_bench
for tool in awk python3; do
    command -v "$tool" > /dev/null || { echo "skipped: no $tool"; exit 0; }
done
[ -x "$program" ] || { echo "skipped: no program, make test leaves it"; exit 0; }
work=$(mktemp -d)
trap 'rm -rf "$work"' EXIT

# a document of kind $1 and about $2 bytes
document() {
    awk -v kind="$1" -v size="$2" 'BEGIN {
        if (kind == "flat") { printf "{"; for (n = 1; n < size - 9; n += 9) printf " field%02d\n", n % 100; print "}" }
        if (kind == "deep") {
            printf "{"
            for (n = 1; n < size - 700; n += 700) { for (i = 0; i < 100; i++) printf "a%d {\n", i % 10; printf "b"; for (i = 0; i < 100; i++) printf "} "; printf "\n" }
            print "a }"
        }
        if (kind == "fragments") for (n = 0; n < size; n += 46) printf "fragment F%06d on Type @skip(if: $a) { name }\n", n
        if (kind == "strings") { printf "{"; for (n = 0; n < size - 220; n += 220) { printf " a(text: \""; for (i = 0; i < 20; i++) printf "characters"; printf "\")\n" } print " a }" }
    }'
}

# nanoseconds that the program takes for a document, warm and cold, the best of five each, and the bytes that it holds
# beyond those for $2
measure() {
    python3 - "$program" "$1" "$2" <<'PY'
import os, subprocess, sys, time
program, document, least = sys.argv[1:]

KEEPING = dict(os.environ, MALLOC_TRIM_THRESHOLD_='268435456', MALLOC_MMAP_THRESHOLD_='268435456', GLIBC_TUNABLES='glibc.malloc.tcache_count=1000')

def run(name, times, env=None):
    start = time.perf_counter()
    subprocess.run([program, 'document', name, str(times)], check=True, stdout=subprocess.DEVNULL, env=env)
    return time.perf_counter() - start

def best(name, times, env=None):
    return min(run(name, times, env) for _ in range(5))

# the most that the process held, looked at until it ends; what wait4 tells has what Python held before it became the program
def held(name):
    child = subprocess.Popen([program, 'document', name, '5'], stdout=subprocess.DEVNULL)
    most = 0
    while child.poll() is None:
        with open(f'/proc/{child.pid}/status') as status:
            most = max([most] + [int(line.split()[1]) for line in status if line.startswith('VmHWM')])
    assert child.returncode == 0
    return most * 1024

times = 1
while run(document, times + 1) < 0.3:
    times *= 2
warm = min(best(document, times + 1, env) - best(document, 1, env) for env in (None, KEEPING)) / times
cold = best(document, 1) - best(least, 1)
print('%.0f %.0f %d' % (warm * 1e9, cold * 1e9, held(document) - held(least)))
PY
}

core() {
    python3 - "$1" 2> /dev/null <<'PY' || echo -
import sys, time
from graphql import parse
text = open(sys.argv[1]).read()
best = None
for _ in range(3):
    start = time.perf_counter()
    parse(text)
    took = time.perf_counter() - start
    best = took if best is None else min(best, took)
print('%.2f' % (len(text.encode()) / best / 1e6))
PY
}

# GraphQL.js under the settings of node that follow the document's name
javascript() {
    command -v node > /dev/null || { echo 0; return; }
    NODE_PATH=/usr/share/nodejs node "${@:2}" - "$1" 2> /dev/null <<'JS' || echo 0
const { parse } = require('graphql');
const text = require('fs').readFileSync(process.argv[2], 'utf8');
let best = Infinity;
const until = Date.now() + 2000;
do {
  const start = process.hrtime.bigint();
  parse(text);
  best = Math.min(best, Number(process.hrtime.bigint() - start));
} while (Date.now() < until);
console.log((Buffer.byteLength(text) / best * 1e3).toFixed(2));
JS
}

# gqlparser, built of Debian's golang-github-vektah-gqlparser-dev
gqlparser() {
    [ -x "$work/gqlparser" ] || { echo -; return; }
    "$work/gqlparser" "$1" 2> /dev/null || echo -
}

# the parser by hand, built with rustc
rust_tree() {
    [ -x "$work/rust_tree" ] || { echo -; return; }
    "$work/rust_tree" "$1" 2> /dev/null || echo -
}

if command -v rustc > /dev/null; then
    rustc --edition 2021 -C opt-level=3 -o "$work/rust_tree" "$top/bench/rust_tree/main.rs" > /dev/null 2>&1 || true
fi
if command -v go > /dev/null; then
    (cd "$top/bench/gqlparser" && GOFLAGS=-mod=mod GOPROXY=off GOCACHE=$work/cache go build -o "$work/gqlparser" . > /dev/null 2>&1) || true
fi
printf '{a}' > "$work/least"
echo "kind bytes microseconds MB/s cold-MB/s memory/byte rust graphql-core gqlparser GraphQL.js times"
for kind in flat deep fragments strings; do
    for size in 1000 10000 100000 1000000; do
        document "$kind" "$size" > "$work/document"
        bytes=$(wc -c < "$work/document")
        awk -v k="$kind" -v b="$bytes" -v m="$(measure "$work/document" "$work/least")" -v t="$(rust_tree "$work/document")" -v c="$(core "$work/document")" -v g="$(gqlparser "$work/document")" \
            -v p="$(javascript "$work/document")" -v y="$(javascript "$work/document" --single-threaded --max-semi-space-size=256)" \
            'BEGIN { split(m, a, " "); j = (p + 0 > y + 0 ? p : y); r = b / a[1] * 1e3;
                printf "%s %d %.1f %.1f %s %s %s %s %s %s %s\n", k, b, a[1] / 1e3, r, (a[2] > 200000 ? sprintf("%.1f", b / a[2] * 1e3) : "-"),
                    (a[3] > 0 ? sprintf("%.1f", a[3] / b) : "-"), t, c, g, (j + 0 > 0 ? j : "-"), (j + 0 > 0 ? sprintf("%.1f", r / j) : "-") }'
    done
done
