#!/usr/bin/env bash
# A journal of a million entries or more on a small drawing: one node that moves to and fro, in scripts of half a million
# lines. Prints the time of each script and of reading the whole journal back, on a file system in memory.
#   entries.sh [SCRIPTS]
set -euo pipefail
top=$(cd "$(dirname "$0")/.." && pwd)
scripts=${1:-2}
memory=$(mktemp -d -p /dev/shm)
trap 'rm -rf "$memory"' EXIT
program="$top/crates/topo/out/topo"
"$top/topo" apply "$memory/journal" < <(echo 'addisonode - 0 0') > /dev/null
awk 'BEGIN { for (i = 0; i < 500000; i++) printf "moveisonode 1 %d 0\n", i % 2 + 1 }' > "$memory/script"

timed() {
    local begin end
    begin=$(date +%s%N)
    "$@" > /dev/null
    end=$(date +%s%N)
    echo $(((end - begin) / 1000000)) | awk '{ printf "%.1f s\n", $1 / 1000 }'
}
apply() {
    "$program" apply "$memory/journal" < "$memory/script"
}
for ((n = 1; n <= scripts; n++)); do
    echo "entries to $((n * 500000)): $(timed apply)"
done
echo "tables after reading the journal back: $(timed "$program" tables "$memory/journal")"
echo "bytes of the journal: $(stat -c %s "$memory/journal")"
