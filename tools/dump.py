#!/usr/bin/env python3
"""Makes tape dumps and schema dumps from JSON texts. See docs/FORMATS.md."""

import argparse
import json
import struct
import sys


class Whole(str):
    """The text of a number without point or exponent."""


class Real(str):
    """The text of any other number."""


class Pairs(list):
    """The pairs of an object, in order, repeated names included."""


def refuse_constant(word):
    raise ValueError(f"{word} is no JSON")


def rows(text):
    """The values of a JSON text, one after another."""
    decoder = json.JSONDecoder(
        object_pairs_hook=Pairs,
        parse_int=Whole,
        parse_float=Real,
        parse_constant=refuse_constant,
    )
    at = 0
    while True:
        while at < len(text) and text[at] in " \t\r\n":
            at += 1
        if at == len(text):
            return
        value, at = decoder.raw_decode(text, at)
        yield value


class Tape:
    def __init__(self, whole):
        self.whole = whole
        self.elements = [("z", 0)]
        self.texts = b""
        self.offsets = [0]

    def text(self, letter, text):
        self.elements.append((letter, len(self.offsets) - 1))
        self.texts += text.encode("utf-8")
        self.offsets.append(len(self.texts))

    def bracket(self, opening, closing, values):
        start = len(self.elements)
        self.elements.append((opening, 0))
        for value in values:
            self.value(value)
        end = len(self.elements)
        self.elements[start] = (opening, end)
        self.elements.append((closing, start))

    def whole_number(self, n):
        if -(2**31) <= n < 2**31:
            self.elements.append(("i", n % 2**32))
        else:
            self.elements.append(("j", (n >> 32) % 2**32))
            self.elements.append(("i", n % 2**32))

    def value(self, value):
        if value is None:
            self.elements.append(("z", 0))
        elif value is True:
            self.elements.append(("t", 0))
        elif value is False:
            self.elements.append(("f", 0))
        elif isinstance(value, Whole):
            if self.whole and -(2**63) <= int(value) < 2**63:
                self.whole_number(int(value))
            else:
                self.text("n", value)
        elif isinstance(value, Real):
            self.text("n", value)
        elif isinstance(value, str):
            self.text("s", value)
        elif isinstance(value, Pairs):
            self.bracket("{", "}", [part for pair in value for part in pair])
        else:
            self.bracket("[", "]", value)

    def files(self, edits):
        elements = list(self.elements)
        for index, number in edits:
            elements[index] = (elements[index][0], number)
        return {
            "elements": b"".join(struct.pack("<c3xI", c.encode(), n) for c, n in elements),
            "texts": self.texts,
            "offsets": b"".join(struct.pack("<I", o) for o in self.offsets),
        }


LETTERS = {
    "struct": "S",
    "list": "L",
    "list-view": "V",
    "fixed": "F",
    "map": "M",
    "text": "T",
    "boolean": "B",
    "null": "N",
    "custom": "X",
}


class Schema:
    def __init__(self):
        self.records = []
        self.names = b""

    def children(self, node):
        kind = node["kind"]
        if kind == "struct":
            return node["fields"]
        if kind == "map":
            return [node["key"], node["value"]]
        if kind in ("list", "list-view", "fixed"):
            return [node["item"]]
        return []

    def node(self, node):
        at = len(self.records)
        self.records.append(None)
        name = node.get("name", "").encode("utf-8")
        start = len(self.names)
        self.names += name
        children = self.children(node)
        count = len(children) if node["kind"] == "struct" else node.get("count", 0)
        for child in children:
            self.node(child)
        self.records[at] = [
            LETTERS[node["kind"]].encode(),
            int(node.get("nullable", False)),
            int(node.get("wide", False)),
            len(self.records),
            start,
            len(name),
            count,
        ]

    def files(self, edits):
        for index, number in edits:
            self.records[index][3] = number
        return {
            "records": b"".join(struct.pack("<cBBxIIHH", *r) for r in self.records),
            "names": self.names,
        }


def edit(text):
    index, number = text.split("=")
    return int(index), int(number)


def main():
    parser = argparse.ArgumentParser(description=__doc__)
    parser.add_argument("form", choices=["tape", "schema"])
    parser.add_argument("source", help="a file of JSON text")
    parser.add_argument("prefix", help="the path of the dump, without the ending")
    parser.add_argument("--whole", action="store_true", help="whole numbers as i and j")
    parser.add_argument("--set", action="append", type=edit, default=[], metavar="I=N")
    given = parser.parse_args()
    with open(given.source, encoding="utf-8") as source:
        text = source.read()
    if given.form == "tape":
        made = Tape(given.whole)
        for row in rows(text):
            made.value(row)
    else:
        made = Schema()
        made.node(json.loads(text))
    for ending, content in made.files(given.set).items():
        with open(f"{given.prefix}.{ending}", "wb") as out:
            out.write(content)


if __name__ == "__main__":
    sys.exit(main())
