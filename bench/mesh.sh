#!/usr/bin/env bash
# Time of meshes of N by N cells for each N that is given, 8, 16 and 32 where none is: nodes (step 1), the edges along the
# rows (2), those along the columns, each of which may close a cell (3), three layers (4), a feature for each row of edges (5)
# and for each cell (6), one of all cells (7), and then every third edge of the rows is split, every other one of which is
# healed at once (8). The time is the least of five runs, each step's time that of the script up to it less that of the one
# before. With --script it prints the whole script for one N and runs nothing.
#   mesh.sh [--script] [N ..]
set -euo pipefail
top=$(cd "$(dirname "$0")/.." && pwd)
export PYTHONDONTWRITEBYTECODE=1
work=$(mktemp -d -p "${JOURNALS:-/dev/shm}")
trap 'rm -rf "$work"' EXIT

cat > "$work/mesh.py" <<'PYTHON'
"""Prints the mesh of N by N cells up to a step."""
import sys

n, last = int(sys.argv[1]), int(sys.argv[2])


def node(i, j):
    return j * (n + 1) + i + 1


def nodes():
    for j in range(n + 1):
        for i in range(n + 1):
            yield f"addisonode - {4 * i} {4 * j}"


def rows():
    for j in range(n + 1):
        for i in range(n):
            yield f"addedgemodface {node(i, j)} {node(i + 1, j)} {4 * i} {4 * j} {4 * i + 4} {4 * j}"


def columns():
    for i in range(n + 1):
        for j in range(n):
            yield f"addedgemodface {node(i, j)} {node(i, j + 1)} {4 * i} {4 * j} {4 * i} {4 * j + 4}"


def layers():
    yield from ("addlayer lines lineal -", "addlayer cells areal -", "addlayer all areal 2")


def lines():
    for j in range(n + 1):
        yield "createtopogeom 1 " + " ".join(f"{j * n + i} 2" for i in range(1, n + 1))


def cells():
    for face in range(1, n * n + 1):
        yield f"createtopogeom 2 {face} 3"


def whole():
    yield "createtopogeom 3 " + " ".join(f"{feature} 2" for feature in range(n + 2, n + 2 + n * n))


def splits():
    made = 2 * n * (n + 1)
    for count, edge in enumerate(range(3, n * (n + 1) + 1, 3), 1):
        j, i = divmod(edge - 1, n)
        yield f"modedgesplit {edge} {4 * i + 2} {4 * j}"
        if count % 2 == 1:
            yield f"modedgeheal {edge} {made + count}"


for step in [nodes, rows, columns, layers, lines, cells, whole, splits][:last]:
    for line in step():
        print(line)
PYTHON

if [ "${1:-}" = --script ]; then
    python3 "$work/mesh.py" "${2:-8}" 8
    exit 0
fi
[ $# -gt 0 ] || set -- 8 16 32
: > "$work/empty"
"$top/topo" apply "$work/journal" < "$work/empty" > /dev/null
for n in "$@"; do
    before=0 made=0
    for step in 1 2 3 4 5 6 7 8; do
        python3 "$work/mesh.py" "$n" "$step" > "$work/mesh"
        least=
        for run in 1 2 3 4 5; do
            read -r time memory done < <(python3 "$top/bench/measure.py" "$top/crates/topo/out/topo" "$work/mesh")
            least=$(python3 -c "print(min($time, ${least:-$time}))")
        done
        python3 -c "print('N = $n, step $step: %d edits more, %.3f s, %.0f edits a second' % ($done - $made, $least - $before, ($done - $made) / max($least - $before, 1e-3)))"
        before=$least made=$done
    done
done
