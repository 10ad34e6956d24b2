#!/usr/bin/env python3
# Writes the lines that this test program must write (../stdout). They come from the rule, whatever the order: a link with one edge in and one out joins the
# two in a column. Columns are numbered by their first edges, since of two that unite the lower number stays.
import collections
import itertools
import pathlib

INPUT, OUTPUT, LINK = range(3)
NETWORKS = [
    ("a chain: input 0, links 1 to 3, output 4", [INPUT, LINK, LINK, LINK, OUTPUT], [(0, 1), (1, 2), (2, 3), (3, 4)]),
    ("a ring behind an input: input 0, links 1 and 2", [INPUT, LINK, LINK], [(0, 1), (1, 2), (2, 1)]),
    ("a closed ring: links 0 to 3", [LINK, LINK, LINK, LINK], [(0, 1), (1, 2), (2, 3), (3, 0)]),
    ("two chains that meet: inputs 0 and 1, links 2 to 4, output 5", [INPUT, INPUT, LINK, LINK, LINK, OUTPUT], [(0, 2), (2, 4), (1, 3), (3, 4), (4, 5)]),
]


def edge_columns(kinds, edges):
    first = list(range(len(edges)))  # of each edge the first edge of its column
    for n, kind in enumerate(kinds):
        into, out = ([e for e, ends in enumerate(edges) if ends[k] == n] for k in (1, 0))
        if kind == LINK and len(into) == len(out) == 1:
            joined = first[into[0]], first[out[0]]
            first = [min(joined) if e in joined else e for e in first]
    return [sorted(set(first)).index(e) for e in first]


def mass_rows(kinds, edges, columns):  # in less out by column; a row of one column is dropped
    for n, kind in enumerate(kinds):
        row = collections.Counter()
        for (start, end), column in zip(edges, columns):
            if n in (start, end):
                row[column] += (n == end) - (n == start)
        if kind == LINK and len(row) > 1:
            yield n, [row[column] for column in sorted(row)]


lines = []
for what, kinds, edges in NETWORKS:
    lines.append("# " + what)
    tally = collections.Counter()
    for keyed in itertools.permutations(edges):
        columns = edge_columns(kinds, keyed)
        rows = list(mass_rows(kinds, keyed, columns))
        counts = "columns %d, mass rows %d" % (len(set(columns)), len(rows))
        parts = ["%d-%d in %d" % (*edge, column) for edge, column in zip(keyed, columns)]
        parts += ["link %d: %s" % (n, " ".join(map(str, row))) for n, row in rows]
        lines.append("; ".join([*parts, counts]))
        tally[counts] += 1
    lines += ["%s: orders %d" % item for item in sorted(tally.items())]
(pathlib.Path(__file__).resolve().parent.parent / "stdout").write_text("".join(line + "\n" for line in lines))
