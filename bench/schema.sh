#!/usr/bin/env bash
# Times the reader of schemas on schemas of 10, 100 and 1,000 types: objects with arguments and defaults that implement
# an interface, interfaces, input objects and enums. The program gql_bench reads each schema again
# and again in one process, so its start and the reading of the file are subtracted. Beside it stands GraphQL.js's
# buildSchema with validateSchema, warm, the better of node's own settings and a large young generation; it is skipped
# where it isn't installed. The gate doesn't run it.
set -euo pipefail
top=$(cd "$(dirname "$0")/.." && pwd)
program=$top/crates/gql_bench/out/gql_bench
for tool in awk python3; do
    command -v "$tool" > /dev/null || { echo "skipped: no $tool"; exit 0; }
done
[ -x "$program" ] || { echo "skipped: no program, make test leaves it"; exit 0; }
work=$(mktemp -d)
trap 'rm -rf "$work"' EXIT

# a schema of $1 types: of each ten six are objects, two input objects, one is an enum and one an interface
schema() {
    awk -v types="$1" 'BEGIN {
        groups = types / 10
        print "type Query {"
        for (g = 0; g < groups; g++) printf "  first%d(id: ID! = 7, some: Filter%d = {at: 3}): [Object%dx0!]!\n", g, g, g
        print "}"
        for (g = 0; g < groups; g++) {
            printf "interface Node%d { id: ID! name: String next: Node%d }\n", g, (g + 1) % groups
            printf "enum Kind%d { SMALL MIDDLE LARGE HUGE UNKNOWN }\n", g
            printf "input Filter%d { at: Int! kinds: [Kind%d!] = [SMALL, LARGE] text: String = \"text\" more: More%d }\n", g, g, g
            printf "input More%d { from: Int = 0 to: Int = 100 deep: Boolean = false filter: Filter%d }\n", g, (g + 1) % groups
            for (o = 0; o < (g == 0 ? 5 : 6); o++) {
                printf "\"an object\"\ntype Object%dx%d implements Node%d {\n  id: ID! name: String next: Node%d\n", g, o, g, (g + 1) % groups
                for (f = 0; f < 4; f++) printf "  field%d(first: Int = 10, after: String): [Object%dx%d!]\n", f, (g + f) % groups, f
                printf "  kind: Kind%d\n  found(by: Filter%d, upper: Boolean = true): Node%d\n  count: Int!\n}\n", g, g, g
            }
        }
    }'
}

# nanoseconds that the program takes for a schema, the best of five
measure() {
    python3 - "$program" "$1" <<'PY'
import os, subprocess, sys, time
program, schema = sys.argv[1:]

KEEPING = dict(os.environ, MALLOC_TRIM_THRESHOLD_='268435456', MALLOC_MMAP_THRESHOLD_='268435456', GLIBC_TUNABLES='glibc.malloc.tcache_count=1000')

def run(times, env=None):
    start = time.perf_counter()
    subprocess.run([program, 'schema', schema, str(times)], check=True, stdout=subprocess.DEVNULL, env=env)
    return time.perf_counter() - start

def best(times, env=None):
    return min(run(times, env) for _ in range(5))

times = 1
while run(times + 1) < 0.3:
    times *= 2
print('%.0f' % (min(best(times + 1, env) - best(1, env) for env in (None, KEEPING)) / times * 1e9))
PY
}

# buildSchema alone and with validateSchema under the settings of node that follow the schema's name, in nanoseconds
javascript() {
    command -v node > /dev/null || { echo 0 0; return; }
    NODE_PATH=/usr/share/nodejs node "${@:2}" - "$1" 2> /dev/null <<'JS' || echo 0 0
const { buildSchema, validateSchema } = require('graphql');
const text = require('fs').readFileSync(process.argv[2], 'utf8');
let built = Infinity;
let asked = Infinity;
const until = Date.now() + 2000;
do {
  const start = process.hrtime.bigint();
  const schema = buildSchema(text);
  built = Math.min(built, Number(process.hrtime.bigint() - start));
  const errors = validateSchema(schema);
  asked = Math.min(asked, Number(process.hrtime.bigint() - start));
  if (errors.length > 0) throw errors[0];
} while (Date.now() < until);
console.log(built, asked);
JS
}

echo "types bytes microseconds MB/s buildSchema-microseconds with-validateSchema times times"
for types in 10 100 1000; do
    schema "$types" > "$work/schema"
    awk -v n="$types" -v b="$(wc -c < "$work/schema")" -v a="$(measure "$work/schema")" -v p="$(javascript "$work/schema")" -v y="$(javascript "$work/schema" --single-threaded --max-semi-space-size=256)" \
        'function least(x, z) { return x + 0 > 0 && (z + 0 == 0 || x + 0 < z + 0) ? x : z }
        BEGIN { split(p, own, " "); split(y, large, " "); built = least(own[1], large[1]); asked = least(own[2], large[2])
            printf "%d %d %.1f %.1f", n, b, a / 1e3, b / a * 1e3
            if (built + 0 > 0) printf " %.1f %.1f %.1f %.1f\n", built / 1e3, asked / 1e3, built / a, asked / a
            else print " - - - -" }'
done
