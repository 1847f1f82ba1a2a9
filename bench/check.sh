#!/usr/bin/env bash
# Time and greatest memory of a report on the tables of a mesh of N by N cells, for each N that is given, 64 and 256 where
# none is. The report is empty. The time is the least of three runs.
#   check.sh [N ..]
set -euo pipefail
top=$(cd "$(dirname "$0")/.." && pwd)
work=$(mktemp -d -p "${JOURNALS:-/dev/shm}")
trap 'rm -rf "$work"' EXIT

cat > "$work/mesh.py" <<'PYTHON'
"""Prints the tables of a mesh of N by N cells."""
import sys

n = int(sys.argv[1])


def node(i, j):
    return j * (n + 1) + i + 1


def across(i, j):
    return j * n + i + 1


def upward(i, j):
    return n * (n + 1) + i * n + j + 1


def face(i, j):
    return j * n + i + 1 if 0 <= i < n and 0 <= j < n else 0


def star(i, j):
    """The signed edges that leave a node: up, right, down and left."""
    return [upward(i, j) if j < n else 0, across(i, j) if i < n else 0, -upward(i, j - 1) if j > 0 else 0, -across(i - 1, j) if i > 0 else 0]


def behind(i, j, back):
    """The first that leaves the node, clockwise from the way back."""
    around = star(i, j)
    at = around.index(back)
    return next(d for d in around[at + 1:] + around[:at + 1] if d != 0)


def edge(e, a, b, left, right):
    ends = f"{node(*a)} {node(*b)} {behind(*b, -e)} {behind(*a, e)}"
    return f"edge {e} {ends} {left} {right} 2 {4 * a[0]} {4 * a[1]} {4 * b[0]} {4 * b[1]}"


def lines():
    yield f"next {node(n, n) + 1} {2 * n * (n + 1) + 1} {n * n + 1} 1 1"
    for j in range(n + 1):
        for i in range(n + 1):
            yield f"node {node(i, j)} - {4 * i} {4 * j}"
    for j in range(n + 1):
        for i in range(n):
            yield edge(across(i, j), (i, j), (i + 1, j), face(i, j), face(i, j - 1))
    for i in range(n + 1):
        for j in range(n):
            yield edge(upward(i, j), (i, j), (i, j + 1), face(i - 1, j), face(i, j))
    yield "face 0 -"
    for j in range(n):
        for i in range(n):
            yield f"face {face(i, j)} {4 * i} {4 * j} {4 * i + 4} {4 * j + 4}"


print("\n".join(lines()))
PYTHON

"$top/topo" check < /dev/null > /dev/null || true
[ $# -gt 0 ] || set -- 64 256
for n in "$@"; do
    python3 "$work/mesh.py" "$n" > "$work/dump"
    for turn in 1 2 3; do
        python3 - "$top/crates/topo/out/topo" "$work/dump" <<'PYTHON'
import resource
import subprocess
import sys
import time

begun = time.time()
with open(sys.argv[2]) as dump:
    run = subprocess.run([sys.argv[1], "check"], stdin=dump, capture_output=True)
taken = time.time() - begun
assert (run.returncode, run.stdout) == (0, b""), run
print(f"{taken:.3f} {resource.getrusage(resource.RUSAGE_CHILDREN).ru_maxrss / 1024:.1f}")
PYTHON
    done | sort -n | head -1 | awk -v n="$n" -v lines="$(wc -l < "$work/dump")" '{ printf "%d by %d cells, %d lines: %s s, %s MiB\n", n, n, lines, $1, $2 }'
done
