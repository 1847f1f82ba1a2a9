#!/usr/bin/env bash
# Time and greatest memory of a script of N isolated edges of 8 vertices, 5,000 where no N is given, with their nodes.
set -euo pipefail
top=$(cd "$(dirname "$0")/.." && pwd)
count=${1:-5000}
work=$(mktemp -d -p "${JOURNALS:-/dev/shm}")
trap 'rm -rf "$work"' EXIT
awk -v n="$count" 'BEGIN {
    for (i = 0; i < n; i++) {
        x = i % 100 * 20; y = int(i / 100) * 20
        printf "addisonode - %d %d\naddisonode - %d %d\n", x, y, x + 14, y
        printf "addisoedge %d %d %d %d", 2 * i + 1, 2 * i + 2, x, y
        for (k = 1; k < 7; k++) printf " %d %d", x + 2 * k, y + k % 2 * 9 + 1
        printf " %d %d\n", x + 14, y
    }
}' > "$work/edges"
: > "$work/empty"
"$top/topo" apply "$work/journal" < "$work/empty" > /dev/null
read -r time memory done < <(python3 "$top/bench/measure.py" "$top/crates/topo/out/topo" "$work/edges")
echo "$count edges of 8 vertices: $done edits done, $time s, $memory KiB"
