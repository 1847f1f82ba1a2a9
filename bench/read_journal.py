#!/usr/bin/env python3
"""Prints the entries of a journal as the program's `history` does, by docs/FORMATS.md alone.

Usage: bench/read_journal.py FILE. It shares no code with the program and replays no edit: an entry that doesn't follow
from those before it is printed all the same. A bad journal prints `fault journal OFFSET` and ends with 4.
"""
import sys

MOST_BYTES, LIMIT = 1 << 28, 1 << 40
KINDS = ["puntal", "lineal", "areal"]
EDITS = [
    ("addisonode", "?p"), ("moveisonode", "ip"), ("removeisonode", "i"), ("addisoedge", "iil"), ("removeisoedge", "i"),
    ("addedgemodface", "iil"), ("addedgenewfaces", "iil"), ("remedgemodface", "i"), ("remedgenewface", "i"),
    ("modedgesplit", "ip"), ("newedgessplit", "ip"), ("modedgeheal", "ii"), ("newedgeheal", "ii"),
    ("addlayer", "nk?"), ("createtopogeom", "ie"), ("addelement", "iii"), ("remelement", "iii"), ("dropfeature", "i"),
]


def check(holds):
    if not holds:
        raise ValueError


class Body:
    def __init__(self, data):
        self.data, self.at = data, 0

    def take(self, count):
        part = self.data[self.at:self.at + count]
        check(len(part) == count)
        self.at += count
        return part

    def number(self, size, low=0, high=1 << 64, signed=False):
        n = int.from_bytes(self.take(size), "big", signed=signed)
        check(low <= n <= high)
        return n

    def point(self):
        return [str(self.number(8, -LIMIT, LIMIT, True)) for _ in range(2)]

    def field(self, kind):
        """The words of one field: an id, an optional id, a point, a line, elements, a name or a kind."""
        if kind == "i":
            return [str(self.number(4))]
        if kind == "?":
            return self.field("i") if self.number(1, 0, 1) else ["-"]
        if kind == "p":
            return self.point()
        if kind == "l":
            return [word for _ in range(self.number(4, 2, 4096)) for word in self.point()]
        if kind == "e":
            return [str(self.number(4)) for _ in range(2 * self.number(4, 0, 4096))]
        if kind == "n":
            name = self.take(self.number(1, 1, 63)).decode("ascii")
            check("a" <= name[0] <= "z" and all(c in "abcdefghijklmnopqrstuvwxyz0123456789_" for c in name))
            return [name]
        return [KINDS[self.number(1, 1, 3) - 1]]

    def words(self):
        editor = self.number(4, 1, 64)
        name, kinds = EDITS[self.number(1, 1, len(EDITS)) - 1]
        words = [word for kind in kinds for word in self.field(kind)]
        check(self.at == len(self.data))
        return " ".join(["editor", str(editor), name, *words])


def entries(data):
    """The bodies of the entries, each with its gate's offset. ValueError has the offset where the bytes are bad."""
    closed = not data or data[0] != 1
    if len(data) < 2 or closed and len(data) <= 8:
        return
    if closed or len(data) < 8 or data[1:6] != b"TOPOJ" or data[6] == 2:
        raise ValueError(0)
    gate = 7
    while data[gate] == 1:
        after = gate + 5 + int.from_bytes(data[gate + 1:gate + 5], "big")
        if gate + 5 > len(data) or after >= len(data) or after + 1 > MOST_BYTES:
            raise ValueError(gate)
        yield gate, data[gate + 5:after]
        gate = after


def lines(data):
    for number, (gate, body) in enumerate(entries(data), 1):
        try:
            yield f"entry {number} {Body(body).words()}"
        except ValueError:
            raise ValueError(gate) from None


def main():
    with open(sys.argv[1], "rb") as journal:
        data = journal.read()
    try:
        sys.stdout.write("".join(line + "\n" for line in list(lines(data))))
    except ValueError as bad:
        print(f"fault journal {bad.args[0]}")
        sys.exit(4)


if __name__ == "__main__":
    main()
