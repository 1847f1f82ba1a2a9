#!/usr/bin/env python3
"""The report on a dump, by its definition alone: every pair of rows is tried, points are fractions, and no code is
shared with the program. Reads a dump from standard input, and prints what `./topo check` is to print; it ends with the
same status. For small dumps."""
import re
import sys
from fractions import Fraction

MAX_ID = 2 ** 24 - 1
MAX_COORDINATE = 2 ** 40
KINDS = ["next", "node", "edge", "face", "layer", "feature", "relation"]


class Bad(Exception):
    pass


# ---- the dump
def number(word, low, high):
    if not re.fullmatch(r"0|-?[1-9][0-9]*", word) or not low <= int(word) <= high:
        raise Bad
    return int(word)


def optional(word):
    return None if word == "-" else number(word, 0, MAX_ID)


def points(words):
    ns = [number(w, -MAX_COORDINATE, MAX_COORDINATE) for w in words]
    return list(zip(ns[0::2], ns[1::2]))


def row_of(kind, words):
    named = lambda w: number(w, 0, MAX_ID)
    own = lambda w: number(w, 1, MAX_ID)
    count = {"next": 5, "node": 4, "layer": 5, "feature": 2, "relation": 4}.get(kind)
    if count is not None and len(words) != count:
        raise Bad
    if kind == "next":
        return tuple(number(w, 1, MAX_ID + 1) for w in words)
    if kind == "node":
        return (own(words[0]), optional(words[1]), points(words[2:])[0])
    if kind == "edge":
        if len(words) < 8:
            raise Bad
        links = [number(w, -MAX_ID, MAX_ID) for w in words[3:5]]
        size = number(words[7], 2, MAX_ID)
        if 0 in links or len(words) != 8 + 2 * size:
            raise Bad
        return (own(words[0]), named(words[1]), named(words[2]), links[0], links[1], named(words[5]), named(words[6]), points(words[8:]))
    if kind == "face":
        if words == ["0", "-"]:
            return (0, None)
        if len(words) != 5:
            raise Bad
        low, high = points(words[1:])
        if low[0] > high[0] or low[1] > high[1]:
            raise Bad
        return (own(words[0]), (*low, *high))
    if kind == "layer":
        if not re.fullmatch(r"[a-z][a-z0-9_]{0,62}", words[4]):
            raise Bad
        return (own(words[0]), named(words[1]), optional(words[2]), number(words[3], 1, 3), words[4])
    if kind == "feature":
        return (own(words[0]), named(words[1]))
    return tuple(named(w) for w in words)


def order_key(kind, row):
    return (row[0], row[3], row[2]) if kind == "relation" else row[0]


def read(text):
    lines = text.split("\n")
    if lines[-1] == "":
        lines.pop()
    tables = {kind: [] for kind in KINDS}
    last = -1
    for n, line in enumerate(lines, 1):
        try:
            words = line.split(" ")
            rank = KINDS.index(words[0]) if words[0] in KINDS else -1
            if rank < max(last, 0) or (rank == 0) != (n == 1) or (rank > 3 and last < 3):
                raise Bad
            row = row_of(words[0], words[1:])
            rows = tables[words[0]]
            if rank == 3 and (row[0] == 0) != (not rows):
                raise Bad
            if rows and order_key(words[0], rows[-1]) >= order_key(words[0], row):
                raise Bad
        except Bad:
            print("fault line %d" % n)
            sys.exit(3)
        rows.append(row)
        last = rank
    if last < 3:
        print("fault line %d" % (len(lines) + 1))
        sys.exit(3)
    return tables


# ---- geometry
def cross(a, b, c):
    return (b[0] - a[0]) * (c[1] - a[1]) - (b[1] - a[1]) * (c[0] - a[0])


def on(p, s):
    a, b = s
    return cross(a, b, p) == 0 and min(a[0], b[0]) <= p[0] <= max(a[0], b[0]) and min(a[1], b[1]) <= p[1] <= max(a[1], b[1])


def common(s, t):
    """The common points of two segments: a list of at most two, which are the ends of a common part."""
    found = {p for p in s if on(p, t)} | {p for p in t if on(p, s)}
    if len(found) > 1:
        return sorted(found)[:1] + sorted(found)[-1:]
    if found:
        return list(found)
    (a, b), (c, d) = s, t
    den = (b[0] - a[0]) * (d[1] - c[1]) - (b[1] - a[1]) * (d[0] - c[0])
    if den == 0:
        return []
    u = Fraction((c[0] - a[0]) * (d[1] - c[1]) - (c[1] - a[1]) * (d[0] - c[0]), den)
    p = (a[0] + u * (b[0] - a[0]), a[1] + u * (b[1] - a[1]))
    return [p] if on(p, s) and on(p, t) else []


def segments(line):
    return list(zip(line, line[1:]))


def is_simple(line):
    parts = segments(line)
    if any(a == b for a, b in parts):
        return False
    for i, s in enumerate(parts):
        for j in range(i + 1, len(parts)):
            t = parts[j]
            for p in common(s, t):
                closes = i == 0 and j == len(parts) - 1 and s[0] == t[1] == p
                if not ((j == i + 1 and p == s[1]) or closes):
                    return False
    return True


def turn_key(r):
    """Where a direction lies clockwise from r, as something to sort by."""
    class Key:
        def __init__(self, v):
            self.v = v
            turned = r[0] * v[1] - r[1] * v[0]
            ahead = r[0] * v[0] + r[1] * v[1]
            self.quarter = 1 if turned < 0 else 3 if turned > 0 else 2 if ahead < 0 else 0

        def __lt__(self, other):
            if self.quarter != other.quarter:
                return self.quarter < other.quarter
            return self.v[0] * other.v[1] - self.v[1] * other.v[0] < 0
    return Key


# ---- the report
class Report:
    def __init__(self, t):
        self.next_ids = t["next"][0]
        self.rows = t
        self.nodes = {r[0]: r for r in t["node"]}
        self.edges = {r[0]: r for r in t["edge"]}
        self.faces = {r[0]: r for r in t["face"]}
        self.layers = {r[0]: r for r in t["layer"]}
        self.features = {r[0]: r for r in t["feature"]}
        self.order = []
        self.found = {}

    def add(self, error, first, second=None):
        self.found.setdefault(error, set()).add((first, second))

    def lines(self):
        for stage in (self.references, self.plain, self.links, self.rings, self.places):
            self.found = {}
            names = stage()
            if self.found:
                key = lambda x: (x[0], -10 ** 12 if x[1] is None else x[1])
                return ["%s %s %s" % (n, x[0], "-" if x[1] is None else x[1]) for n in names for x in sorted(self.found.get(n, ()), key=key)]
        return []

    def references(self):
        tables = [self.nodes, self.edges, self.faces, self.layers, self.features]
        kinds = ["node", "edge", "face", "layer", "feature"]
        for kind, table, limit in zip(kinds, tables, self.next_ids):
            for i in table:
                if i >= limit:
                    self.add(kind + "_past_next", i)
        for n, face, _ in self.nodes.values():
            if face is not None and face not in self.faces:
                self.add("node_without_face", n, face)
        for e, a, b, nl, nr, left, right, _ in self.edges.values():
            for x in (a, b):
                if x not in self.nodes:
                    self.add("edge_without_node", e, x)
            for x in (left, right):
                if x not in self.faces:
                    self.add("edge_without_face", e, x)
            for x in (nl, nr):
                if abs(x) not in self.edges:
                    self.add("edge_without_next", e, x)
        for l, level, child, kind, name in self.layers.values():
            if child is None and level != 0:
                self.add("layer_level_wrong", l)
            if child is not None:
                c = self.layers.get(child)
                if c is None or c[1] + 1 != level or c[3] != kind:
                    self.add("layer_child_wrong", l, child)
            for m, other in self.layers.items():
                if l < m and other[4] == name:
                    self.add("layer_name_taken", l, m)
        for f, l in self.features.values():
            if l not in self.layers:
                self.add("feature_without_layer", f, l)
        for f, l, element, kind in self.rows["relation"]:
            own = self.features.get(f)
            if own is None or own[1] != l:
                self.add("relation_without_feature", f, l)
            if own is None or own[1] not in self.layers:
                continue
            layer = self.layers[own[1]]
            if kind != (layer[3] if layer[2] is None else layer[2]):
                self.add("relation_kind_wrong", f, kind)
                continue
            if layer[2] is None:
                if kind == 3 and element == 0:
                    self.add("relation_universe", f, 0)
                elif element not in (self.nodes, self.edges, self.faces)[kind - 1]:
                    self.add("relation_without_element", f, element)
            elif element not in self.features or self.features[element][1] != layer[2]:
                self.add("relation_without_element", f, element)
        return [k + "_past_next" for k in kinds] + ["node_without_face", "edge_without_node", "edge_without_face", "edge_without_next",
            "layer_level_wrong", "layer_child_wrong", "layer_name_taken", "feature_without_layer", "relation_without_feature",
            "relation_kind_wrong", "relation_universe", "relation_without_element"]

    def plain(self):
        for n, _, p in self.nodes.values():
            for m, _, q in self.nodes.values():
                if n < m and p == q:
                    self.add("coincident_nodes", n, m)
        for e, a, b, _, _, _, _, line in self.edges.values():
            if line[0] != self.nodes[a][2]:
                self.add("edge_start_mismatch", e, a)
            if line[-1] != self.nodes[b][2]:
                self.add("edge_end_mismatch", e, b)
            if not is_simple(line):
                self.add("edge_not_simple", e)
            for n, _, p in self.nodes.values():
                if p not in (line[0], line[-1]) and any(on(p, s) for s in segments(line)):
                    self.add("edge_crosses_node", e, n)
            for f, other in self.edges.items():
                if e < f:
                    ends = {line[0], line[-1]} & {other[7][0], other[7][-1]}
                    if any(p not in ends for s in segments(line) for t in segments(other[7]) for p in common(s, t)):
                        self.add("edge_crosses_edge", e, f)
        return ["coincident_nodes", "edge_start_mismatch", "edge_end_mismatch", "edge_not_simple", "edge_crosses_node", "edge_crosses_edge"]

    # darts, by their signed numbers
    def line(self, d):
        line = self.edges[abs(d)][7]
        return line if d > 0 else line[::-1]

    def begin(self, d):
        return self.edges[abs(d)][1 if d > 0 else 2]

    def left(self, d):
        return self.edges[abs(d)][5 if d > 0 else 6]

    def way(self, d):
        a, b = self.line(d)[:2]
        return (b[0] - a[0], b[1] - a[1])

    def next(self, d):
        at = self.begin(-d)
        key = turn_key(self.way(-d))
        others = [k for e in self.edges for k in (e, -e) if self.begin(k) == at and k != -d]
        return min(others, key=lambda k: key(self.way(k)), default=-d)

    def links(self):
        joined = {n for e in self.edges.values() for n in e[1:3]}
        for n, face, _ in self.nodes.values():
            if n in joined and face is not None:
                self.add("node_joined_with_face", n, face)
            if n not in joined and face is None:
                self.add("node_isolated_without_face", n)
        for e, row in self.edges.items():
            if row[3] != self.next(e):
                self.add("next_left_wrong", e, self.next(e))
            if row[4] != self.next(-e):
                self.add("next_right_wrong", e, self.next(-e))
        return ["node_joined_with_face", "node_isolated_without_face", "next_left_wrong", "next_right_wrong"]

    def all_rings(self):
        rings, seen = [], set()
        for e in sorted(self.edges):
            for d in (e, -e):
                if d not in seen:
                    ring = [d]
                    while self.next(ring[-1]) != d:
                        ring.append(self.next(ring[-1]))
                    seen.update(ring)
                    rings.append(ring)
        return rings

    def top(self, ring):
        return max((p for d in ring for p in self.line(d)), key=lambda p: (p[1], p[0]))

    def is_hole(self, ring):
        walk = [s for d in ring for s in segments(self.line(d))]
        top = self.top(ring)
        for (a, b), (_, c) in zip(walk, walk[1:] + walk[:1]):
            if b == top:
                back, on_way = (a[0] - b[0], a[1] - b[1]), (c[0] - b[0], c[1] - b[1])
                key = turn_key(back)
                if key(on_way).quarter == 0 or key((0, 1)) < key(on_way):
                    return True
        return False

    def rings(self):
        counts = {f: 0 for f in self.faces}
        for d in [x for e in self.edges for x in (e, -e)]:
            if self.left(d) != self.left(self.next(d)):
                self.add("ring_sides_differ", d, self.next(d))
        for ring in self.all_rings():
            if not self.is_hole(ring):
                for f in {self.left(d) for d in ring}:
                    counts[f] += 1
        for f, count in counts.items():
            if count != (0 if f == 0 else 1):
                self.add("face_shells", f, count)
        return ["ring_sides_differ", "face_shells"]

    def above(self, p):
        best = None
        for e, row in self.edges.items():
            for a, b in segments(row[7]):
                below = row[6]
                if a[0] > b[0]:
                    a, b, below = b, a, row[5]
                if a[0] <= p[0] < b[0]:
                    slope = Fraction(b[1] - a[1], b[0] - a[0])
                    height = a[1] + slope * (p[0] - a[0])
                    if height > p[1] and (best is None or (height, slope) < best[:2]):
                        best = (height, slope, below)
        return 0 if best is None else best[2]

    def places(self):
        for ring in self.all_rings():
            if self.is_hole(ring):
                face = self.above(self.top(ring))
                if face != self.left(ring[0]):
                    self.add("hole_in_other_face", ring[0], face)
        for n, face, p in self.nodes.values():
            if face is not None and face != self.above(p):
                self.add("node_in_other_face", n, self.above(p))
        for f, row in self.faces.items():
            ps = [p for e in self.edges.values() if f in e[5:7] for p in e[7]]
            xs, ys = [p[0] for p in ps], [p[1] for p in ps]
            if f != 0 and row[1] != ((min(xs), min(ys), max(xs), max(ys)) if ps else None):
                self.add("face_box_wrong", f)
        return ["hole_in_other_face", "node_in_other_face", "face_box_wrong"]


if __name__ == "__main__":
    found = Report(read(sys.stdin.read())).lines()
    for one in found:
        print(one)
    sys.exit(1 if found else 0)
