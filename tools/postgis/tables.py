"""What `export`, `script`, `import` and `test` share: the printed tables as Python values, the grid, and geometries.

The tables' text is the one of docs/FORMATS.md. A reader that meets a line outside of it ends with that line's number.
"""
import json
import re
import struct
import sys
from collections import namedtuple
from decimal import Decimal, InvalidOperation
from fractions import Fraction

NODE, EDGE, FACE = 1, 2, 3
TYPES = {1: "puntal", 2: "lineal", 3: "areal"}
MOST = 1 << 40
MOST_ID = (1 << 24) - 1

Node = namedtuple("Node", "face point")  # face is None for a node with an edge
Edge = namedtuple("Edge", "start end next_left next_right left right line")
Layer = namedtuple("Layer", "level child type name")  # child is None for a layer of nodes, edges or faces
Row = namedtuple("Row", "feature type element")


class Refused(Exception):
    """Why the input can't be taken, in words for the one who gave it."""


class Tables:
    """The rows of a drawing by id, the boxes of its faces (None without one), its relation rows and next ids."""

    def __init__(self):
        self.next = [1, 1, 1, 1, 1]
        self.nodes, self.edges, self.faces, self.layers, self.features = {}, {}, {0: None}, {}, {}
        self.rows = set()  # of (layer, Row)


def optional(word):
    return None if word == "-" else int(word)


def read_tables(lines):
    """Reads the printed tables; reply lines before them are skipped."""
    tables, seen = Tables(), False
    for number, line in enumerate(lines, 1):
        words = line.split(" ")
        if not seen and words[0] in ("done", "refused"):
            continue
        try:
            read_row(tables, words)
        except (ValueError, IndexError, KeyError):
            raise Refused(f"line {number} is no line of the tables: {line}") from None
        seen = True
    if not seen:
        raise Refused("there are no tables: a line 'next ..' was expected")
    return tables


def read_row(tables, words):
    kind, rest = words[0], words[1:]
    if kind == "next":
        tables.next = [int(word) for word in rest]
        if len(rest) != 5:
            raise ValueError
    elif kind == "node":
        number, face, x, y = rest
        tables.nodes[int(number)] = Node(optional(face), (int(x), int(y)))
    elif kind == "edge":
        numbers = [int(word) for word in rest]
        count, points = numbers[7], numbers[8:]
        if len(points) != 2 * count or count < 2:
            raise ValueError
        tables.edges[numbers[0]] = Edge(*numbers[1:7], tuple(zip(points[::2], points[1::2])))
    elif kind == "face":
        tables.faces[int(rest[0])] = None if rest[1:] == ["-"] else tuple(int(word) for word in rest[1:5])
        if len(rest) not in (2, 5):
            raise ValueError
    elif kind == "layer":
        number, level, child, layer_type, name = rest
        tables.layers[int(number)] = Layer(int(level), optional(child), int(layer_type), name)
    elif kind == "feature":
        number, layer = rest
        tables.features[int(number)] = int(layer)
    elif kind == "relation":
        feature, layer, element, element_type = (int(word) for word in rest)
        tables.rows.add((layer, Row(feature, element_type, element)))
    else:
        raise ValueError


def text_of(number):
    return "-" if number is None else str(number)


def print_tables(tables):
    """The lines of the tables, as the program prints them."""
    yield "next " + " ".join(map(str, tables.next))
    for number, node in sorted(tables.nodes.items()):
        yield f"node {number} {text_of(node.face)} {node.point[0]} {node.point[1]}"
    for number, edge in sorted(tables.edges.items()):
        points = " ".join(f"{x} {y}" for x, y in edge.line)
        yield f"edge {number} {' '.join(map(str, edge[:6]))} {len(edge.line)} {points}"
    for number, box in sorted(tables.faces.items()):
        yield f"face {number} {'-' if box is None else ' '.join(map(str, box))}"
    for number, layer in sorted(tables.layers.items()):
        yield f"layer {number} {layer.level} {text_of(layer.child)} {layer.type} {layer.name}"
    for number, layer in sorted(tables.features.items()):
        yield f"feature {number} {layer}"
    for layer, row in sorted(tables.rows, key=lambda entry: (entry[1], entry[0])):
        yield f"relation {row.feature} {layer} {row.element} {row.type}"


class Grid:
    """A grid over the plane: the grid's point (x, y) stands at (offset_x + scale * x, offset_y + scale * y).

    Scale and offset are decimals and taken exactly. A coordinate of PostGIS is a double; it is read as the shortest
    decimal that names it, and a coordinate of the grid must be named by such a decimal. So both ways lose nothing.
    """

    def __init__(self, scale, offset_x, offset_y):
        self.words = [scale, offset_x, offset_y]
        try:
            self.scale, *self.offsets = [Fraction(Decimal(word)) for word in self.words]
        except (InvalidOperation, ValueError, OverflowError):
            raise Refused(f"scale and offset have to be decimals: {' '.join(self.words)}") from None
        if self.scale <= 0:
            raise Refused("the scale has to be greater than 0")

    def to_grid(self, value, axis, where):
        name = f"{where}: {'xy'[axis]} is {value!r}"
        if value != value or value in (float("inf"), float("-inf")):
            raise Refused(f"{name}, which is no number")
        steps = (Fraction(Decimal(repr(value))) - self.offsets[axis]) / self.scale
        if steps.denominator != 1:
            raise Refused(f"{name}, which isn't on the grid (scale {self.words[0]}, offset {self.words[axis + 1]})")
        if abs(steps) > MOST:
            raise Refused(f"{name}, which is {int(steps)} on the grid, and so beyond {MOST}")
        return int(steps)

    def from_grid(self, steps, axis, where):
        exact = self.offsets[axis] + self.scale * steps
        value = float(exact)
        if Fraction(Decimal(repr(value))) != exact:
            raise Refused(f"{where}: {'xy'[axis]} is {steps} on the grid, for which there is no double of its own")
        return value + 0.0  # no minus zero


def point_of(wkb, where):
    """The coordinates of a point or of the points of a line, as doubles."""
    data = bytes.fromhex(wkb)
    kind, = struct.unpack_from("<I", data, 1)
    if kind == 1:
        return [struct.unpack_from("<2d", data, 5)]
    if kind == 2:
        count, = struct.unpack_from("<I", data, 5)
        return [struct.unpack_from("<2d", data, 9 + 16 * place) for place in range(count)]
    raise Refused(f"{where}: a geometry that is no plane point or line (WKB type {kind})")


def ewkb(kind, srid, body):
    return (struct.pack("<BII", 1, kind | 0x20000000, srid) + body).hex().upper()


def doubles(points):
    return b"".join(struct.pack("<2d", x, y) for x, y in points)


def point_geometry(srid, point):
    return ewkb(1, srid, doubles([point]))


def line_geometry(srid, points):
    return ewkb(2, srid, struct.pack("<I", len(points)) + doubles(points))


def box_geometry(srid, low_x, low_y, high_x, high_y):
    ring = [(low_x, low_y), (low_x, high_y), (high_x, high_y), (high_x, low_y), (low_x, low_y)]
    return ewkb(3, srid, struct.pack("<II", 1, len(ring)) + doubles(ring))


def is_name(text):
    return re.fullmatch(r"[a-z][a-z0-9_]{0,62}", text) is not None


def read_mapping(path):
    with open(path, encoding="utf-8") as file:
        return json.load(file)


def write_mapping(path, mapping):
    with open(path, "w", encoding="utf-8") as file:
        json.dump(mapping, file, indent=1)
        file.write("\n")


def run(main):
    """Runs a program: a refusal is one line on standard error and status 1."""
    name = sys.argv[0].rsplit("/", 1)[-1]
    try:
        main()
    except Refused as refused:
        print(f"{name}: {refused}", file=sys.stderr)
        sys.exit(1)
    except BrokenPipeError:
        sys.exit(6)
