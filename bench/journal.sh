#!/usr/bin/env bash
# A journal of N isolated nodes, 2,000 where no N is given: bytes an entry, edits a second on a file system in memory and
# in the folder DISK (that of this script, where none is given), and the time in which the journal is read back.
#   [DISK=FOLDER] journal.sh [N]
set -euo pipefail
top=$(cd "$(dirname "$0")/.." && pwd)
count=${1:-2000}
memory=$(mktemp -d -p /dev/shm)
disk=$(mktemp -d -p "${DISK:-$top/bench}")
trap 'rm -rf "$memory" "$disk"' EXIT
program="$top/crates/topo/out/topo"
awk -v n="$count" 'BEGIN { for (i = 0; i < n; i++) printf "addisonode - %d %d\n", i % 200, int(i / 200) }' > "$memory/script"
"$top/topo" apply "$memory/empty" < /dev/null > /dev/null

# the seconds that a command takes
seconds() {
    local begin end
    begin=$(date +%s%N)
    "$@" > /dev/null
    end=$(date +%s%N)
    echo $(((end - begin) / 1000000)) | awk '{ printf "%.3f", $1 / 1000 }'
}

apply() {
    "$program" apply "$1" < "$memory/script"
}

in_memory=$(seconds apply "$memory/journal")
on_disk=$(seconds apply "$disk/journal")
read_back=$(seconds "$program" history "$memory/journal")
bytes=$(stat -c %s "$memory/journal")
awk -v n="$count" -v b="$bytes" -v m="$in_memory" -v d="$on_disk" -v r="$read_back" 'BEGIN {
    printf "%d entries: %d bytes, %.1f an entry\n", n, b, (b - 8) / n
    printf "in memory %s s, %.0f edits a second; on disk %s s, %.0f edits a second; read back in %s s\n", m, n / m, d, n / d, r
}'
