#!/usr/bin/env bash
# Time to read scripts of nearly 16 MiB. Their last line is bad, so that nothing of them is run.
set -euo pipefail
top=$(cd "$(dirname "$0")/.." && pwd)
work=$(mktemp -d -p "${JOURNALS:-/dev/shm}")
trap 'rm -rf "$work"' EXIT
"$top/topo" apply "$work/journal" < /dev/null > /dev/null
awk 'BEGIN { for (i = 0; i < 500000; i++) printf "addisonode - 431%06d 56780%04d\n", i, i % 10000; print "bad" }' > "$work/plain"
awk 'BEGIN { for (i = 0; i < 330000; i++) printf "stone%d = addisonode $yard 431%06d 567800000\n", i % 1000, i; print "bad" }' > "$work/names"
awk 'BEGIN { for (i = 0; i < 250000; i++) print "# this line is a comment, and is skipped by the program alone"; print "bad" }' > "$work/comments"
for script in plain names comments; do
    bytes=$(stat -c %s "$work/$script")
    python3 - "$top/crates/topo/out/topo" "$work/$script" "$script" "$bytes" <<'PY'
import resource, subprocess, sys, time
program, path, name, size = sys.argv[1:]
best = 1e9
for _ in range(5):
    with open(path) as script:
        begin = time.perf_counter()
        answer = subprocess.run([program, "apply", path + ".journal"], stdin=script, capture_output=True)
        best = min(best, time.perf_counter() - begin)
assert answer.returncode == 3, answer
peak = resource.getrusage(resource.RUSAGE_CHILDREN).ru_maxrss
print(f"{name}: {int(size) / 1e6:.1f} MB in {best:.3f} s, {int(size) / 1e6 / best:.0f} MB/s, {peak // 1024} MiB in use at most")
PY
done
