#!/usr/bin/env python3
"""Writes the array text of a CSV file.

usage: array_text.py SCALE [LAYOUT] < CSV > TEXT

Each number is multiplied by SCALE and rounded. A field that is empty, `NA` or `NaN` is an empty cell. A file with one
column makes an array of one dimension, and every other file one of two. LAYOUT is the words of the text from `chunk` to
the last level. Without it, the whole array is one chunk and one block. A chunk has at most 65,536 cells.
"""

import csv
import sys


def shape_of(values):
    """The extents of nested lists or of a numpy array."""
    return (len(values), *shape_of(values[0])) if hasattr(values, "__len__") else ()


def rows_of(values, rank):
    """The rows in order: the lists of cells along the last dimension."""
    if rank > 1:
        for it in values:
            yield from rows_of(it, rank - 1)
    else:
        yield values.tolist() if hasattr(values, "tolist") else values


def cell(value, scale):
    """The word of a cell. NaN is the one value that differs from itself."""
    return "." if value is None or value != value else str(round(scale * value))


def write_text(text, values, scale=1, layout=None):
    """Writes nested lists, or a numpy array, of one to three dimensions to an open file. None and NaN are empty cells."""
    shape = shape_of(values)
    extents = " ".join(map(str, shape))
    print("rank", len(shape), "extent", extents, layout or f"chunk {extents} level {extents}", "cells", file=text)
    for row in rows_of(values, len(shape)):
        if len(row) != shape[-1]:
            raise ValueError(f"a row has {len(row)} cells, and the first one has {shape[-1]}")
        print(*(cell(it, scale) for it in row), file=text)


def number(field):
    return None if field.strip().lower() in ("", "na", "nan") else float(field)


def main(words):
    if len(words) not in (1, 2):
        raise SystemExit("usage: array_text.py SCALE [LAYOUT] < CSV > TEXT")
    rows = [[number(it) for it in row] for row in csv.reader(sys.stdin)]
    if all(len(row) == 1 for row in rows):
        rows = [row[0] for row in rows]
    write_text(sys.stdout, rows, float(words[0]), *words[1:])


if __name__ == "__main__":
    main(sys.argv[1:])
