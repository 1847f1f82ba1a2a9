#!/usr/bin/env bash
# Time and greatest memory of a script of N isolated nodes, 20,000 where no N is given, against the empty script.
set -euo pipefail
top=$(cd "$(dirname "$0")/.." && pwd)
count=${1:-20000}
work=$(mktemp -d -p "${JOURNALS:-/dev/shm}")
trap 'rm -rf "$work"' EXIT
awk -v n="$count" 'BEGIN { for (i = 0; i < n; i++) printf "addisonode - %d %d\n", i % 200, int(i / 200) }' > "$work/nodes"
: > "$work/empty"

measure() {
    python3 "$top/bench/measure.py" "$top/crates/topo/out/topo" "$1"
}

"$top/topo" apply "$work/journal" < "$work/empty" > /dev/null
awk 'BEGIN { for (i = 0; i < 5000; i++) printf "addisonode - %d 0\n", i }' > "$work/few"
read -r few_time few_memory _ < <(measure "$work/few")
read -r time memory _ < <(measure "$work/nodes")
echo "5000 nodes: $few_time s, $few_memory KiB"
echo "$count nodes: $time s, $memory KiB, $(( (memory - few_memory) * 1024 / (count - 5000) )) bytes a node beyond the first 5000"
