#!/usr/bin/env bash
# A random walk of COUNT edits (10,000 where none is given) from SEED (1), run by the program and by replay.py.
# It prints how many edits were done and refused, and "the same" or the first line that differs.
# With --script it prints the script and runs nothing; with --only-faces no edge is split or healed, and no layer comes.
#   walk.sh [--script] [--only-faces] [COUNT] [SEED]
set -euo pipefail
top=$(cd "$(dirname "$0")/.." && pwd)
here=$(cd "$(dirname "$0")" && pwd)
export PYTHONDONTWRITEBYTECODE=1
work=$(mktemp -d -p "${JOURNALS:-/dev/shm}")
trap 'rm -rf "$work"' EXIT

cat > "$work/walk.py" <<'PYTHON'
"""Prints a random walk. Its drawing is kept by replay.py, so that most of its edits name what is there."""
import random
import sys
from math import gcd

sys.path.insert(0, sys.argv[1])
from replay import EDGE, FACE, NODE, Run, has_only, is_line_blocked, is_simple, segments_of

options = [word for word in sys.argv[2:] if word.startswith("--")]
numbers = [int(word) for word in sys.argv[2:] if not word.startswith("--")]
count, seed = (numbers + [10000, 1][len(numbers):])[:2]
choices, run = random.Random(seed), Run()
STEP, SIDE = 4, 6  # the grid has SIDE by SIDE points, STEP apart
MOST = STEP * (SIDE - 1)
EIGHT_WAYS = [(x, y) for x in (-1, 0, 1) for y in (-1, 0, 1) if (x, y) != (0, 0)]


def chance(percent):
    return choices.randrange(100) < percent


def some_id(ids, next_id):
    """An id that is there, mostly; else any up to the next one."""
    ids = list(ids)
    return choices.choice(ids) if ids and chance(95) else choices.randrange(next_id + 1)


def grid_point():
    return STEP * choices.randrange(SIDE), STEP * choices.randrange(SIDE)


def any_point():
    return grid_point() if chance(75) else (choices.randrange(-2, MOST + 3), choices.randrange(-2, MOST + 3))


def near(point, most=STEP):
    return point[0] + choices.randint(-most, most), point[1] + choices.randint(-most, most)


def words_of(*words):
    return " ".join(str(word) for word in words)


def line_words(line):
    return words_of(*[number for point in line for number in point])


def some_node():
    return some_id(run.drawing.nodes, run.drawing.next_node)


def point_of(node):
    return run.drawing.nodes[node].point if node in run.drawing.nodes else any_point()


def isolated_nodes():
    return [node for node in run.drawing.nodes if has_only(run.drawing, node)]


def node_at(point):
    return next((n for n, node in run.drawing.nodes.items() if node.point == point), None)


def neighbour_of(node):
    """A node one or two steps of the grid away, in one of eight ways; else any node."""
    x, y = point_of(node)
    for _ in range(4):
        across, up = choices.choice(EIGHT_WAYS)
        steps = STEP * (2 if chance(10) else 1)
        found = node_at((x + across * steps, y + up * steps))
        if found is not None and chance(95):
            return found
    return some_node()


def add_node():
    face = some_id(run.drawing.faces, run.drawing.next_face) if chance(25) else "-"
    return words_of("addisonode", face, *any_point())


def move_node():
    node = choices.choice(isolated_nodes() or [some_node()]) if chance(90) else some_node()
    return words_of("moveisonode", node, *(near(point_of(node)) if chance(70) else any_point()))


def remove_node():
    node = choices.choice(isolated_nodes() or [some_node()]) if chance(90) else some_node()
    return words_of("removeisonode", node)


def line_between(a, b):
    """Straight, or with one more vertex near one of the ends, or with two; one in fifty ends elsewhere."""
    first, last = point_of(a), near(point_of(b)) if chance(2) else point_of(b)
    bends = 0 if a != b and chance(60) else 1 if a != b and chance(80) else 2
    return [first] + [near(choices.choice([first, last]), 3) for _ in range(bends)] + [last]


def loop_at(node):
    """A closed line: a small triangle, or four sides round some points of the grid, either way about."""
    x, y = point_of(node)
    if chance(40):
        return [(x, y), near((x, y), 3), near((x, y), 3), (x, y)]
    right, up = choices.choice([-1, 1]), choices.choice([-1, 1])
    width, height = right * choices.choice([2, 5, 7, 9]), up * choices.choice([2, 5, 7, 9])
    corners = [(x + width, y - up), (x + width, y + height), (x - right, y + height)]
    return [(x, y)] + (corners if chance(50) else corners[::-1]) + [(x, y)]


def edge_to_add():
    a = some_node()
    b = a if chance(15) else neighbour_of(a)
    return a, b, tuple(loop_at(a) if a == b else line_between(a, b))


def add_edge():
    """Of a few edges the first that isn't plainly blocked, or the last."""
    for _ in range(4):
        a, b, line = edge_to_add()
        if is_simple(line) and not is_line_blocked(run.drawing, line):
            break
    return words_of(choices.choice(["addedgemodface", "addedgenewfaces"]), a, b, line_words(line))


def add_isolated_edge():
    a = choices.choice(isolated_nodes() or [some_node()])
    b = neighbour_of(a) if chance(50) else choices.choice(isolated_nodes() or [some_node()])
    return words_of("addisoedge", a, b, line_words(line_between(a, b)))


def some_edge():
    return some_id(run.drawing.edges, run.drawing.next_edge)


def remove_edge():
    return words_of(choices.choice(["remedgemodface", "remedgenewface"]), some_edge())


def remove_isolated_edge():
    return words_of("removeisoedge", some_edge())


def point_on(edge):
    """Mostly a point with whole coordinates inside the line of an edge; else any near one of its vertices."""
    line = run.drawing.edges[edge].line if edge in run.drawing.edges else [any_point()]
    if len(line) < 2 or chance(10):
        return near(choices.choice(line))
    (ax, ay), (bx, by) = choices.choice(segments_of(tuple(line)))
    parts = gcd(bx - ax, by - ay)
    along = choices.randrange(parts + 1)
    return ax + (bx - ax) // parts * along, ay + (by - ay) // parts * along


def split_edge():
    edge = some_edge()
    return words_of(choices.choice(["modedgesplit", "newedgessplit"]), edge, *point_on(edge))


def heal_edges():
    """Two edges of a node, mostly of one that has no other."""
    edges = run.drawing.edges
    ends = [end for edge in edges.values() for end in (edge.start, edge.end)]
    twice = [node for node in ends if ends.count(node) == 2] or ends or [0]
    node = choices.choice(twice)
    pair = [edge for edge, row in edges.items() if node in (row.start, row.end)] if chance(90) else []
    first, second = choices.sample(pair, 2) if len(pair) > 1 else (some_edge(), some_edge())
    return words_of(choices.choice(["modedgeheal", "newedgeheal"]), first, second)


def some_layer():
    return some_id(run.drawing.layers, run.drawing.next_layer)


def some_feature():
    return some_id(run.drawing.features, run.drawing.next_feature)


def add_layer():
    child = some_layer() if run.drawing.layers and chance(50) else "-"
    kinds = ["", "puntal", "lineal", "areal"]
    kind = kinds[run.drawing.layers[child].kind] if child in run.drawing.layers and chance(90) else choices.choice(kinds[1:])
    return words_of("addlayer", f"layer{choices.randrange(run.drawing.next_layer * 4)}", kind, child)


def element_for(layer):
    """An element that the layer may list, mostly, and its type there."""
    drawing = run.drawing
    if layer not in drawing.layers or chance(4):
        return choices.randrange(5), choices.randrange(5)
    row = drawing.layers[layer]
    if row.child is not None:
        fit = [feature for feature, of in drawing.features.items() if of == row.child]
        return (choices.choice(fit) if fit and chance(95) else some_feature()), row.child
    ids = {NODE: (drawing.nodes, drawing.next_node), EDGE: (drawing.edges, drawing.next_edge),
           FACE: ([face for face in drawing.faces if face or chance(5)], drawing.next_face)}[row.kind]
    return some_id(*ids), row.kind


def create_feature():
    layer = some_layer()
    elements = [element_for(layer) for _ in range(choices.randrange(4))]
    return words_of("createtopogeom", layer, *[number for element in elements for number in element])


def add_element():
    feature = some_feature()
    return words_of("addelement", feature, *element_for(run.drawing.features.get(feature)))


def remove_element():
    rows = sorted(run.drawing.relations)
    if rows and chance(90):
        row = choices.choice(rows)
        return words_of("remelement", row.feature, row.element, row.type)
    return words_of("remelement", some_feature(), *element_for(some_layer()))


def drop_feature():
    return words_of("dropfeature", some_feature())


def list_features():
    """Mostly one more feature while there are few, and mostly one less where there are many."""
    if len(run.drawing.layers) < 8 and chance(10) or chance(1):
        return add_layer()
    few = len(run.drawing.features) < 12
    return choices.choice([create_feature, add_element, remove_element, create_feature if few else drop_feature, drop_feature])()


nodes = [(add_node, 14), (move_node, 6), (remove_node, 8)]
edges = [(add_edge, 50), (add_isolated_edge, 6), (remove_isolated_edge, 3)]
more = [] if "--only-faces" in options else [(split_edge, 12), (heal_edges, 20), (list_features, 20)]
removed = [(remove_edge, 1)]
growing, shrinking = ([make for make, weight in nodes + edges + more + removed * most for _ in range(weight)] for most in (4, 90))
print("# Made by bench/walk.sh " + words_of("--script", *[o for o in options if o != "--script"], count, seed)
      + ": a random walk on a grid of 6 by 6 points.")
aim = 30  # so many edges are to be reached, from below or above; then comes another aim
for place in range(count):
    if len(run.drawing.edges) == aim:
        aim = choices.randrange(70)
    if place < min(SIDE * SIDE, count // 5):
        line = words_of("addisonode", "-", *grid_point())
    else:
        line = choices.choice(growing if len(run.drawing.edges) < aim else shrinking)()
    run.reply(line.split())
    print(line)
PYTHON

python3 "$work/walk.py" "$here" "$@" > "$work/script"
case " $* " in *" --script "*) cat "$work/script"; exit 0 ;; esac
: > "$work/empty"
"$top/topo" apply "$work/journal" < "$work/empty" > /dev/null
status=0
rm -f "$work/journal"
"$top/crates/topo/out/topo" apply "$work/journal" < "$work/script" > "$work/program" || status=$?
python3 "$here/replay.py" < "$work/script" > "$work/replay"
echo "$(grep -c '^done' "$work/replay" || true) edits done, $(grep -c '^refused' "$work/replay" || true) refused"
if cmp -s "$work/program" "$work/replay"; then
    echo "the same"
    exit 0
fi
echo "they differ (the status of the program is $status):"
python3 - "$work/program" "$work/replay" <<'PYTHON'
import sys
from itertools import zip_longest

program, replay = (open(path, "rb").read().split(b"\n") for path in sys.argv[1:])
pairs = enumerate(zip_longest(program, replay, fillvalue=b"(nothing)"), 1)
line, (ours, other) = next((line, pair) for line, pair in pairs if pair[0] != pair[1])
print(f"line {line} of the program: {ours.decode()}")
print(f"line {line} of replay.py: {other.decode()}")
PYTHON
exit 1
