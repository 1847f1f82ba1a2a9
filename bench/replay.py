#!/usr/bin/env python3
"""Runs a script as `./topo apply` does on a new journal, by the definitions in crates/drawing/specs, as an oracle for tests.

It reads a good script from standard input and prints the replies and the final tables. Between two edits it keeps
the drawing alone: nodes with their containing faces, edges with their ends, sides and lines, the faces and the next
ids. Links, rings, shells, parities and boxes are computed anew from that wherever they are asked for, with exact
integers. It knows all eighteen edits. It models no faults: a line that spells no edit ends it with an error.
With --features it prints the features with the elements to which they descend, in place of the tables.
"""
import sys
from collections import namedtuple
from functools import lru_cache

Node = namedtuple("Node", "face point")  # face is None where the node has an edge
Edge = namedtuple("Edge", "start end left right line")  # a line is a tuple of points (x, y)
HalfEdge = namedtuple("HalfEdge", "edge forward start end left right line")
Division = namedtuple("Division", "left_ring right_ring left_part right_part")
Layer = namedtuple("Layer", "level child kind name")  # child is None for a primitive layer
Row = namedtuple("Row", "feature type element")  # a relation row: the feature lists the element of this type
NODE, EDGE, FACE = 1, 2, 3
KINDS = {"puntal": NODE, "lineal": EDGE, "areal": FACE}
UP = (0, 1)


class Refused(Exception):
    """The rule by which an edit is refused."""


class Drawing:
    """Nodes, edges, layers and the layers of features by id, ascending; the faces, ascending; rows; next ids."""

    def __init__(self):
        self.nodes, self.edges, self.faces, self.layers, self.features = {}, {}, [0], {}, {}
        self.relations = set()
        self.next_node = self.next_edge = self.next_face = self.next_layer = self.next_feature = 1


# Orientation.antt and Segment.antt; a segment is a pair of points

def area(a, b, c):
    return (b[0] - a[0]) * (c[1] - a[1]) - (b[1] - a[1]) * (c[0] - a[0])


def is_between(a, m, b):
    return a <= m <= b or b <= m <= a


def on_segment(p, s):
    a, b = s
    return area(a, b, p) == 0 and is_between(a[0], p[0], b[0]) and is_between(a[1], p[1], b[1])


def is_beside(s, t):
    first, second = area(*t, s[0]), area(*t, s[1])
    return first > 0 and second > 0 or first < 0 and second < 0


def intervals_meet(a, b, c, d):
    return min(c, d) <= max(a, b) and min(a, b) <= max(c, d)


def intervals_overlap(a, b, c, d):
    return max(min(a, b), min(c, d)) < min(max(a, b), max(c, d))


def on_axes(test, s, t):
    return [test(s[0][axis], s[1][axis], t[0][axis], t[1][axis]) for axis in (0, 1)]


def touches(s, t):
    return all(on_axes(intervals_meet, s, t)) and not is_beside(s, t) and not is_beside(t, s)


def overlaps(s, t):
    straight = all(area(*t, p) == 0 for p in s) and all(area(*s, p) == 0 for p in t)
    return straight and any(on_axes(intervals_overlap, s, t))


def touches_at(p, s, t):
    return on_segment(p, s) and on_segment(p, t) and not overlaps(s, t)


# Line.antt

@lru_cache(maxsize=None)
def segments_of(line):
    return tuple(zip(line, line[1:]))


@lru_cache(maxsize=None)
def least_box(points):
    xs, ys = [x for x, y in points], [y for x, y in points]
    return min(xs), min(ys), max(xs), max(ys)


def on_line(p, line):
    return any(on_segment(p, s) for s in segments_of(line))


def is_inside_line(p, line):
    return p not in (line[0], line[-1]) and on_line(p, line)


def is_apart(first, s, t, t_is_last):
    closes = t_is_last and s[0] == first and t[1] == first and touches_at(first, s, t)
    return closes or not touches(s, t)


def is_simple(line):
    segments = segments_of(line)
    last = len(segments) - 1
    return (all(a != b for a, b in segments)
            and all(touches_at(s[1], s, t) for s, t in zip(segments, segments[1:]))
            and all(is_apart(line[0], segments[i], segments[j], j == last)
                    for i in range(last + 1) for j in range(i + 2, last + 1)))


def boxes_meet(line, other):
    left, bottom, right, top = least_box(line)
    other_left, other_bottom, other_right, other_top = least_box(other)
    return intervals_meet(left, right, other_left, other_right) and intervals_meet(bottom, top, other_bottom, other_top)


def meets_at_own_ends(line, other):
    """No segments touch where the boxes don't; else each two touch at an end of the line alone, or not at all."""
    ends = line[0], line[-1]
    return not boxes_meet(line, other) or all(
        not touches(s, t) or any(touches_at(p, s, t) for p in ends)
        for s in segments_of(line) for t in segments_of(other))


# Direction.antt

def direction_to(p, q):
    return q[0] - p[0], q[1] - p[1]


def first_direction(line):
    return direction_to(line[0], line[1])


def cross(u, v):
    return u[0] * v[1] - u[1] * v[0]


def quarter(r, u):
    turned = cross(r, u)
    if turned != 0:
        return 1 if turned < 0 else 3
    return 2 if r[0] * u[0] + r[1] * u[1] < 0 else 0


def is_nearer(r, u, v):
    """u lies strictly less far clockwise from r than v."""
    first, second = quarter(r, u), quarter(r, v)
    return first < second or first == second and first in (1, 3) and cross(u, v) < 0


def in_wedge(u, v, w):
    return quarter(u, v) == 0 or is_nearer(u, w, v)


# HalfEdge.antt and Star.antt

def forward_of(number, edge):
    return HalfEdge(number, True, edge.start, edge.end, edge.left, edge.right, edge.line)


def backward_of(number, edge):
    return HalfEdge(number, False, edge.end, edge.start, edge.right, edge.left, edge.line[::-1])


def half_edges(drawing):
    return [way(number, edge) for number, edge in drawing.edges.items() for way in (forward_of, backward_of)]


def leaving_each_node(drawing):
    """The half-edges that leave each node, in the order of half_edges."""
    leaving = {}
    for h in half_edges(drawing):
        leaving.setdefault(h.start, []).append(h)
    return leaving


def name_of(h):
    return h.edge, h.forward


def next_of(leaving, h):
    """The first clockwise from h walked back; h walked back where no other half-edge leaves."""
    back = None
    others = []
    for k in leaving[h.end]:
        if name_of(k) == (h.edge, not h.forward):
            back = k
        else:
            others.append(k)
    if not others:
        return back
    from_direction, first = first_direction(back.line), others[0]
    for k in others[1:]:
        if is_nearer(from_direction, first_direction(k.line), first_direction(first.line)):
            first = k
    return first


def last_clockwise(direction, others):
    last = others[0]
    for k in others[1:]:
        if is_nearer(direction, first_direction(last.line), first_direction(k.line)):
            last = k
    return last


# Ring.antt

def ring_of(leaving, first):
    ring, h = [first], next_of(leaving, first)
    while name_of(h) != name_of(first):
        ring.append(h)
        h = next_of(leaving, h)
    return ring


def ring_segments(ring):
    return [s for h in ring for s in segments_of(h.line)]


def least_vertex(ring):
    """The vertex from which the least half-edge leaves, by edge and forward before backward."""
    return min(ring, key=lambda h: (h.edge, not h.forward)).line[0]


def is_shell(ring):
    """What is straight above the top vertex is not on the left: in no wedge on the left of a turn there."""
    segments = ring_segments(ring)
    top = max((a for a, b in segments), key=lambda p: (p[1], p[0]))
    return not any(s[1] == top and in_wedge(direction_to(s[1], s[0]), direction_to(*t), UP)
                   for s, t in zip(segments, segments[1:] + segments[:1]))


# Faces.antt

def passes_above(a, b, q):
    return a[0] <= q[0] < b[0] and area(a, b, q) < 0


def is_odd_over(q, segments):
    return sum(passes_above(a, b, q) or passes_above(b, a, q) for a, b in segments) % 2 == 1


def border_of(drawing, face):
    return [s for e in drawing.edges.values() if (e.left == face) != (e.right == face) for s in segments_of(e.line)]


def face_at(drawing, q):
    return next((f for f in drawing.faces if f != 0 and is_odd_over(q, border_of(drawing, f))), 0)


def wedge_face(drawing, number, direction):
    """The face of a line that leaves the node in this direction."""
    face = drawing.nodes[number].face
    if face is not None:
        return face
    return last_clockwise(direction, leaving_each_node(drawing)[number]).right


# Blocked.antt and Drawing.antt

def is_blocked(drawing, p, own=None):
    at_node = any(n != own and node.point == p for n, node in drawing.nodes.items())
    return at_node or any(on_line(p, e.line) for e in drawing.edges.values())


def is_line_blocked(drawing, line):
    on_node = any(is_inside_line(node.point, line) for node in drawing.nodes.values())
    return on_node or not all(meets_at_own_ends(line, e.line) for e in drawing.edges.values())


def goes_between(drawing, a, b, line):
    return (line[0], line[-1]) == (drawing.nodes[a].point, drawing.nodes[b].point)


def has_only(drawing, number, own=None):
    return not any(e != own and number in (edge.start, edge.end) for e, edge in drawing.edges.items())


def require(condition, rule):
    if not condition:
        raise Refused(rule)


# Relations.antt

def is_hierarchical(drawing, row):
    return drawing.layers[drawing.features[row.feature]].child is not None


def features_of(drawing, kind, element):
    """The features that list a node, edge or face."""
    return {row.feature for row in drawing.relations
            if (row.type, row.element) == (kind, element) and not is_hierarchical(drawing, row)}


def follow(drawing, kind, old, new):
    """Each feature that lists one of the old elements lists the new ones in their place."""
    followers = {feature for element in old for feature in features_of(drawing, kind, element)}
    drawing.relations -= {Row(feature, kind, element) for feature in followers for element in old}
    drawing.relations |= {Row(feature, kind, element) for feature in followers for element in new}


# IsoEdits.antt: each edit changes the drawing and gives the ids of the reply

def add_iso_node(drawing, face, p):
    require(face is None or face in drawing.faces, "NoFace")
    require(not is_blocked(drawing, p), "PointBlocked")
    found = face_at(drawing, p)
    require(face is None or face == found, "NotInFace")
    number = drawing.next_node
    drawing.nodes[number] = Node(found, p)
    drawing.next_node += 1
    return [("node", number)]


def move_iso_node(drawing, number, p):
    require(number in drawing.nodes, "NoNode")
    require(has_only(drawing, number), "NotIsolated")
    require(not is_blocked(drawing, p, number), "PointBlocked")
    require(drawing.nodes[number].face == face_at(drawing, p), "NotInFace")
    put_node(drawing, number, point=p)
    return [("node", number)]


def remove_iso_node(drawing, number):
    require(number in drawing.nodes, "NoNode")
    require(has_only(drawing, number), "NotIsolated")
    require(not features_of(drawing, NODE, number), "NodeInFeature")
    del drawing.nodes[number]
    return [("node", number)]


def put_node(drawing, number, **change):
    drawing.nodes[number] = drawing.nodes[number]._replace(**change)


def put_edge(drawing, a, b, line, face):
    put_node(drawing, a, face=None)
    put_node(drawing, b, face=None)
    number = drawing.next_edge
    drawing.edges[number] = Edge(a, b, face, face, line)
    drawing.next_edge += 1
    return number


def add_iso_edge(drawing, a, b, line):
    require(a in drawing.nodes and b in drawing.nodes, "NoNode")
    require(a != b, "SameNode")
    require(has_only(drawing, a) and has_only(drawing, b), "NotIsolated")
    require(drawing.nodes[a].face == drawing.nodes[b].face, "NotInFace")
    require(goes_between(drawing, a, b, line), "LineEnds")
    require(is_simple(line), "LineNotSimple")
    require(not is_line_blocked(drawing, line), "LineBlocked")
    return [("edge", put_edge(drawing, a, b, line, drawing.nodes[a].face))]


def remove_iso_edge(drawing, number):
    require(number in drawing.edges, "NoEdge")
    edge = drawing.edges[number]
    require(edge.start != edge.end, "NotIsolated")
    require(all(has_only(drawing, end, number) for end in (edge.start, edge.end)), "NotIsolated")
    require(not features_of(drawing, EDGE, number), "EdgeInFeature")
    del drawing.edges[number]
    put_node(drawing, edge.start, face=edge.left)
    put_node(drawing, edge.end, face=edge.left)
    return [("edge", number)]


# AddEdge.antt

def part_at(division, p):
    """On the left is what is inside a left ring that is a shell, and what is outside a left ring that is a hole."""
    is_left = is_odd_over(p, ring_segments(division.left_ring)) == is_shell(division.left_ring)
    return division.left_part if is_left else division.right_part


def part_beside(division, ring):
    """The part on the left of the half-edges of a ring of the divided face."""
    names = [name_of(h) for h in ring]
    for border, part in ((division.left_ring, division.left_part), (division.right_ring, division.right_part)):
        if name_of(border[0]) in names:
            return part
    return part_at(division, least_vertex(ring))


def divide(drawing, face, division):
    """Each side and containing face that was the divided face is one of the parts."""
    leaving, parts = leaving_each_node(drawing), {}
    for h in half_edges(drawing):
        if h.left == face and name_of(h) not in parts:
            ring = ring_of(leaving, h)
            part = part_beside(division, ring)
            parts.update((name_of(k), part) for k in ring)
    for e, edge in drawing.edges.items():
        left = parts[e, True] if edge.left == face else edge.left
        right = parts[e, False] if edge.right == face else edge.right
        drawing.edges[e] = edge._replace(left=left, right=right)
    for n, node in drawing.nodes.items():
        if node.face == face:
            put_node(drawing, n, face=part_at(division, node.point))


def add_edge(both, drawing, a, b, line):
    require(a in drawing.nodes and b in drawing.nodes, "NoNode")
    require(goes_between(drawing, a, b, line), "LineEnds")
    require(is_simple(line), "LineNotSimple")
    face = wedge_face(drawing, a, first_direction(line))
    require(not is_line_blocked(drawing, line), "LineBlocked")
    require(wedge_face(drawing, b, first_direction(line[::-1])) == face, "LineBlocked")
    number = put_edge(drawing, a, b, line, face)
    edge, leaving, new = drawing.edges[number], leaving_each_node(drawing), drawing.next_face
    left_ring, right_ring = ring_of(leaving, forward_of(number, edge)), ring_of(leaving, backward_of(number, edge))
    if (number, False) in [name_of(h) for h in left_ring]:
        return [("edge", number)]
    if both and face != 0:
        parts = new, new + 1
        drawing.faces.remove(face)
    else:
        parts = (face, new) if face == 0 and not is_shell(left_ring) else (new, face)
    divide(drawing, face, Division(left_ring, right_ring, *parts))
    follow(drawing, FACE, [face], parts)
    added = sorted(part for part in parts if part >= new)
    drawing.faces += added
    drawing.next_face += len(added)
    return [("edge", number)] + [("face", part) for part in added]


# RemoveEdge.antt

def remove_edge(anew, drawing, number):
    require(number in drawing.edges, "NoEdge")
    require(not features_of(drawing, EDGE, number), "EdgeInFeature")
    edge = drawing.edges[number]
    sides = {edge.left, edge.right}
    require(len({frozenset(features_of(drawing, FACE, side)) for side in sides}) == 1, "FaceInFeature")
    del drawing.edges[number]
    if len(sides) == 1 or 0 in sides:
        kept = min(sides)
    elif anew:
        kept = drawing.next_face
        drawing.faces.append(kept)
        drawing.next_face += 1
    else:
        kept = edge.right
    merge(drawing, sides - {kept}, kept)
    follow(drawing, FACE, sides, [kept])
    for end in (edge.start, edge.end):
        if has_only(drawing, end):
            put_node(drawing, end, face=kept)
    return [("face", kept)]


def merge(drawing, gone, kept):
    """Each side and containing face that was one of those that are gone is the one that is kept."""
    def renamed(face):
        return kept if face in gone else face
    drawing.faces = [f for f in drawing.faces if f not in gone]
    for e, edge in drawing.edges.items():
        drawing.edges[e] = edge._replace(left=renamed(edge.left), right=renamed(edge.right))
    for n, node in drawing.nodes.items():
        put_node(drawing, n, face=renamed(node.face))


# SplitEdge.antt

def split_edge(anew, drawing, number, p):
    require(number in drawing.edges, "NoEdge")
    edge = drawing.edges[number]
    require(is_inside_line(p, edge.line), "NotOnEdge")
    node, place = drawing.next_node, next(i for i, s in enumerate(segments_of(edge.line)) if on_segment(p, s))
    up_to = edge.line[:place + 1] + (p,)
    onward = (p,) + tuple(q for i, q in enumerate(edge.line) if i > place and not (i == place + 1 and q == p))
    parts = [drawing.next_edge, drawing.next_edge + 1] if anew else [number, drawing.next_edge]
    if anew:
        del drawing.edges[number]
    drawing.nodes[node] = Node(None, p)
    drawing.edges[parts[0]] = edge._replace(end=node, line=up_to)
    drawing.edges[parts[1]] = edge._replace(start=node, line=onward)
    drawing.next_node, drawing.next_edge = node + 1, parts[1] + 1
    follow(drawing, EDGE, [number], parts)
    return [("node", node)] + [("edge", part) for part in (parts if anew else parts[1:])]


# HealEdges.antt

def walked_from(node, edge):
    """The vertices of an edge away from one of its nodes, and the node at the other end."""
    return (edge.line, edge.end) if edge.start == node else (edge.line[::-1], edge.start)


def heal_edges(anew, drawing, first, second):
    require(first in drawing.edges and second in drawing.edges, "NoEdge")
    e, f = drawing.edges[first], drawing.edges[second]
    require(e.start != e.end and f.start != f.end, "ClosedEdge")
    common = [n for n in (e.end, e.start) if n in (f.start, f.end)]
    require(first != second and common, "NotJoined")
    alone = [n for n in common
             if not any(n in (x.start, x.end) for k, x in drawing.edges.items() if k not in (first, second))]
    require(alone, "OthersJoined")
    require(features_of(drawing, EDGE, first) == features_of(drawing, EDGE, second), "HealSplitsFeature")
    node = alone[0]
    require(not features_of(drawing, NODE, node), "NodeInFeature")
    line, far = walked_from(node, f)
    if node == e.end:
        joined = e._replace(end=far, line=e.line + line[1:])
    else:
        joined = e._replace(start=far, line=line[:0:-1] + e.line)
    number = drawing.next_edge if anew else first
    del drawing.edges[second], drawing.nodes[node]
    if anew:
        del drawing.edges[first]
        drawing.next_edge += 1
    drawing.edges[number] = joined
    follow(drawing, EDGE, [first, second], [number])
    return [("edge", number), ("node", node)] if anew else [("node", node), ("edge", number)]


# Layers.antt

def add_layer(drawing, name, kind, child):
    require(all(layer.name != name for layer in drawing.layers.values()), "NameTaken")
    require(child is None or child in drawing.layers, "NoLayer")
    require(child is None or drawing.layers[child].kind == kind, "WrongKind")
    number = drawing.next_layer
    level = 0 if child is None else drawing.layers[child].level + 1
    drawing.layers[number] = Layer(level, child, kind, name)
    drawing.next_layer += 1
    return [("layer", number)]


def require_element(drawing, layer, element, kind):
    """A layer may list the element, by its type there."""
    row = drawing.layers[layer]
    require(kind == (row.kind if row.child is None else row.child), "WrongKind")
    if row.child is not None:
        require(drawing.features.get(element) == row.child, "NoFeature")
        return
    require((kind, element) != (FACE, 0), "UniverseElement")
    there, rule = {NODE: (drawing.nodes, "NoNode"), EDGE: (drawing.edges, "NoEdge"), FACE: (drawing.faces, "NoFace")}[kind]
    require(element in there, rule)


def create_feature(drawing, layer, *elements):
    require(layer in drawing.layers, "NoLayer")
    rows = []
    for element, kind in zip(elements[::2], elements[1::2]):
        require_element(drawing, layer, element, kind)
        row = Row(drawing.next_feature, kind, element)
        require(row not in rows, "ElementListed")
        rows.append(row)
    number = drawing.next_feature
    drawing.features[number] = layer
    drawing.relations.update(rows)
    drawing.next_feature += 1
    return [("feature", number)]


def add_element(drawing, feature, element, kind):
    require(feature in drawing.features, "NoFeature")
    require_element(drawing, drawing.features[feature], element, kind)
    require(Row(feature, kind, element) not in drawing.relations, "ElementListed")
    drawing.relations.add(Row(feature, kind, element))
    return [("feature", feature)]


def remove_element(drawing, feature, element, kind):
    require(feature in drawing.features, "NoFeature")
    require(Row(feature, kind, element) in drawing.relations, "ElementNotListed")
    drawing.relations.remove(Row(feature, kind, element))
    return [("feature", feature)]


def drop_feature(drawing, feature):
    require(feature in drawing.features, "NoFeature")
    require(all(row.element != feature or not is_hierarchical(drawing, row) for row in drawing.relations), "FeatureUsed")
    del drawing.features[feature]
    drawing.relations = {row for row in drawing.relations if row.feature != feature}
    return [("feature", feature)]


# Descent.antt

def elements_of(drawing, feature):
    """The nodes, edges or faces to which a feature descends."""
    below = [row for row in drawing.relations if row.feature == feature]
    if drawing.layers[drawing.features[feature]].child is None:
        return {row.element for row in below}
    return {element for row in below for element in elements_of(drawing, row.element)}


# Script.antt and Bindings.antt

def points_of(words):
    numbers = [int(word) for word in words]
    return tuple(zip(numbers[::2], numbers[1::2]))


EDITS = {  # the function of each edit, how many ids it names, and what follows them
    "addisonode": (add_iso_node, 1, "point"),
    "moveisonode": (move_iso_node, 1, "point"),
    "removeisonode": (remove_iso_node, 1, "nothing"),
    "addisoedge": (add_iso_edge, 2, "line"),
    "removeisoedge": (remove_iso_edge, 1, "nothing"),
    "addedgemodface": (lambda *given: add_edge(False, *given), 2, "line"),
    "addedgenewfaces": (lambda *given: add_edge(True, *given), 2, "line"),
    "remedgemodface": (lambda *given: remove_edge(False, *given), 1, "nothing"),
    "remedgenewface": (lambda *given: remove_edge(True, *given), 1, "nothing"),
    "modedgesplit": (lambda *given: split_edge(False, *given), 1, "point"),
    "newedgessplit": (lambda *given: split_edge(True, *given), 1, "point"),
    "modedgeheal": (lambda *given: heal_edges(False, *given), 2, "nothing"),
    "newedgeheal": (lambda *given: heal_edges(True, *given), 2, "nothing"),
    "addlayer": (add_layer, 0, "layer"),
    "createtopogeom": (create_feature, 1, "ids"),
    "addelement": (add_element, 1, "ids"),
    "remelement": (remove_element, 1, "ids"),
    "dropfeature": (drop_feature, 1, "nothing"),
}


class Run:
    """The drawing, how many edits were accepted, and what each name is bound to."""

    def __init__(self):
        self.drawing, self.front, self.bound = Drawing(), 0, {}

    def id_of(self, word):
        if word == "-":
            return None
        if not word.startswith("$"):
            return int(word)
        number = self.bound.get(word[1:])
        require(number is not None, "Unbound")
        return number

    def edit(self, words):
        """The ids of the reply to an edit, which is done."""
        function, id_count, rest = EDITS[words[0]]
        ids, more = [self.id_of(word) for word in words[1:1 + id_count]], words[1 + id_count:]
        if rest == "ids":
            given = [self.id_of(word) for word in more]
        elif rest == "layer":
            given = more[0], KINDS[more[1]], self.id_of(more[2])
        else:
            points = points_of(more)
            given = {"nothing": (), "point": points[:1], "line": (points,)}[rest]
        return function(self.drawing, *ids, *given)

    def bind(self, names, ids):
        """Each name is bound to the id at its place, and a name past the ids to None."""
        for place, name in enumerate(names):
            self.bound[name] = ids[place][1] if place < len(ids) else None

    def reply(self, words):
        """Runs a line and gives its reply."""
        names = words[0].split(",") if words[1:2] == ["="] else []
        try:
            ids = self.edit(words[2:] if names else words)
        except Refused as refused:
            self.bind(names, [])
            return "refused Unbound" if str(refused) == "Unbound" else f"refused {refused} at {self.front}"
        self.front += 1
        self.bind(names, ids)
        return " ".join(["done"] + [f"{kind} {number}" for kind, number in ids] + [f"at {self.front}"])


# Tables.antt and Texts.antt

def link_word(h):
    return f"{h.edge}" if h.forward else f"-{h.edge}"


def points_text(points):
    return " ".join(f"{x} {y}" for x, y in points)


def face_box(drawing, face):
    vertices = tuple(p for e in drawing.edges.values() if face in (e.left, e.right) for p in e.line)
    return "-" if face == 0 or not vertices else " ".join(map(str, least_box(vertices)))


def tables(drawing):
    """The lines of the final tables."""
    yield f"next {drawing.next_node} {drawing.next_edge} {drawing.next_face} {drawing.next_layer} {drawing.next_feature}"
    for number, node in drawing.nodes.items():
        yield f"node {number} {'-' if node.face is None else node.face} {points_text([node.point])}"
    leaving = leaving_each_node(drawing)
    for number, edge in drawing.edges.items():
        links = " ".join(link_word(next_of(leaving, way(number, edge))) for way in (forward_of, backward_of))
        yield f"edge {number} {edge.start} {edge.end} {links} {edge.left} {edge.right} {len(edge.line)} {points_text(edge.line)}"
    for face in drawing.faces:
        yield f"face {face} {face_box(drawing, face)}"
    for number, layer in drawing.layers.items():
        yield f"layer {number} {layer.level} {'-' if layer.child is None else layer.child} {layer.kind} {layer.name}"
    for number, layer in drawing.features.items():
        yield f"feature {number} {layer}"
    for row in sorted(drawing.relations):
        yield f"relation {row.feature} {drawing.features[row.feature]} {row.element} {row.type}"


def features(drawing):
    """A line for each feature: its layer, the layer's type, and the elements to which it descends."""
    for number, layer in drawing.features.items():
        elements = sorted(elements_of(drawing, number))
        yield " ".join(map(str, ["feature", number, layer, drawing.layers[layer].kind, len(elements)] + elements))


def main():
    run = Run()
    for line in sys.stdin.buffer.read().decode().split("\n"):
        words = line.split()
        if words and not words[0].startswith("#"):
            print(run.reply(words))
    for line in (features if "--features" in sys.argv[1:] else tables)(run.drawing):
        print(line)


if __name__ == "__main__":
    main()
