#!/usr/bin/env bash
# Times `replay`, and beside it serde_json on the same texts alone, on bodies of about 1, 10 and 100 MB of three kinds:
#   big    one part; two at 100 MB, since a part may have 67,108,864 bytes at most
#   10KB   parts of about 10,000 bytes, which each add a text to one list
#   small  parts of about 66 bytes, which each add a number to one list
# It runs the proved program, which `make build` leaves, or the one that PROGRAM names; the gate doesn't run it. A run
# is stopped after LIMIT seconds, and `replay` isn't given the larger bodies of that kind. SIZES has other lengths.
set -euo pipefail
top=$(cd "$(dirname "$0")/.." && pwd)
program=${PROGRAM:-$top/crates/gql_run/out/gql_run}
limit=${LIMIT:-120}
sizes=${SIZES:-1000000 10000000 100000000}
registry=/usr/share/cargo/registry
for tool in awk date timeout; do
    command -v "$tool" > /dev/null || { echo "skipped: no $tool"; exit 0; }
done
[ -x "$program" ] || { echo "skipped: no program, make build leaves it"; exit 0; }
work=$(mktemp -d)
trap 'rm -rf "$work"' EXIT

# builds bench/serde_json with Debian's packaged crates, outside the repository
build_serde_json() {
    command -v cargo > /dev/null || { echo "serde_json skipped: no cargo"; return; }
    compgen -G "$registry/serde_json-*" > /dev/null || { echo "serde_json skipped: no package librust-serde-json-dev"; return; }
    cp -r "$top/bench/serde_json" "$work/serde_json"
    cargo build --quiet --offline --release --manifest-path "$work/serde_json/Cargo.toml" --target-dir "$work/target" \
        --config 'source.crates-io.replace-with="debian"' --config "source.debian.directory=\"$registry\"" \
        > "$work/log" 2>&1 || echo "serde_json skipped: it doesn't build here: $(head -n 1 "$work/log")"
}

# a body of about $1 bytes with big parts: the first has the data, and each other one adds a field to it
big() {
    awk -v n="$1" 'BEGIN {
        parts = int((n - 1) / 60000000) + 1
        for (k = 1; k <= parts; k++) {
            printf k == 1 ? "---\r\n\r\n{\"data\":{" : "\r\n---\r\n\r\n{\"incremental\":[{\"id\":\"0\",\"data\":{"
            printf "\"text%d\":\"", k
            for (i = 0; i < n / parts; i += 100) printf "%0100d", i
            printf k == 1 ? "\"}" : "\"}}]"
            if (k == 1 && parts > 1) printf ",\"pending\":[{\"id\":\"0\",\"path\":[]}]"
            if (k > 1 && k == parts) printf ",\"completed\":[{\"id\":\"0\"}]"
            printf ",\"hasNext\":%s}", k < parts ? "true" : "false"
        }
        printf "\r\n-----\r\n"
    }'
}

# a body of about $1 bytes: an empty list, parts that each add an item to it, and one that ends it; an item is a text
# of $2 characters, or a number where $2 is 0
many() {
    awk -v n="$1" -v width="$2" 'BEGIN {
        text = "0123456789"
        while (length(text) < width) text = text text
        text = "\"" substr(text, 1, width) "\""
        printf "---\r\n\r\n{\"data\":{\"list\":[]},\"hasNext\":true,\"pending\":[{\"id\":\"0\",\"path\":[\"list\"]}]}"
        for (sent = 0; sent < n; sent += length(part)) {
            part = "\r\n---\r\n\r\n{\"hasNext\":true,\"incremental\":[{\"id\":\"0\",\"items\":[" (width ? text : ++i) "]}]}"
            printf "%s", part
        }
        printf "\r\n---\r\n\r\n{\"completed\":[{\"id\":\"0\"}],\"hasNext\":false}\r\n-----\r\n"
    }'
}

# the nanoseconds of the best of three runs of `replay`, or of the first where it takes more than 10 s; past the limit
# nothing
time_replay() {
    local best=0 start took status
    for _ in 1 2 3; do
        status=0
        start=$(date +%s%N)
        timeout "$limit" "$program" replay - < "$work/body" > "$work/line" || status=$?
        took=$(($(date +%s%N) - start))
        [ "$status" != 124 ] || return 0
        if [ "$status" != 0 ] || ! grep -q '^merged {' "$work/line"; then
            echo "another answer than expected, with status $status:" "$(head -c 200 "$work/line")" >&2
            exit 1
        fi
        if [ "$best" = 0 ] || [ "$took" -lt "$best" ]; then best=$took; fi
        [ "$took" -lt 10000000000 ] || break
    done
    echo "$best"
}

# milliseconds and MB/s of $1 bytes in $2 nanoseconds
figures() {
    awk -v b="$1" -v t="$2" 'BEGIN { printf "%.1f %.3g\n", t / 1e6, b / t * 1e3 }'
}

build_serde_json
own_program=$work/target/release/serde_json_time
row='%-6s %8s %10s %12s %8s %15s %8s\n'
# shellcheck disable=SC2059
printf "$row" body parts bytes "replay: ms" MB/s "serde_json: ms" MB/s
for kind in big 10KB small; do
    over=
    for size in $sizes; do
        case $kind in
            big) big "$size" ;;
            10KB) many "$size" 10000 ;;
            small) many "$size" 0 ;;
        esac > "$work/body"
        bytes=$(wc -c < "$work/body")
        parts=$(($(grep -c '^---' "$work/body") - 1))
        ms=skipped rate=- own_ms=- own_rate=-
        if [ -z "$over" ]; then
            took=$(time_replay)
            if [ -n "$took" ]; then
                read -r ms rate < <(figures "$bytes" "$took")
            else
                over=yes
                read -r _ rate < <(figures "$bytes" "${limit}e9")
                ms="> $limit s" rate="< $rate"
            fi
        fi
        if [ -x "$own_program" ]; then
            read -r own_ms own_rate < <("$own_program" < "$work/body" | awk -v b="$bytes" '{ printf "%.1f %.0f\n", $1, b / $1 / 1e3 }')
        fi
        # shellcheck disable=SC2059
        printf "$row" "$kind" "$parts" "$bytes" "$ms" "$rate" "$own_ms" "$own_rate"
    done
done
