# Builds for crates/test_cases: the worked example, each refusal of a network at its smallest, and both sides of each ceiling. Used by cases.py.
import math

from make import INPUT, LINK, OUTPUT, STORAGE, aggregate, edge, node, virtual_storage

PAIR = node(INPUT) + node(OUTPUT) + edge(0, 1)
LINE = node(INPUT) + node(LINK) * 2 + node(OUTPUT) + edge(0, 1) + edge(1, 2) + edge(2, 3)  # 98 bytes


def edges(count):  # 16 inputs and 33 outputs, with the first `count` of their 528 pairs as edges
    pairs = [(i, 16 + o) for i in range(16) for o in range(33)]
    return node(INPUT) * 16 + node(OUTPUT) * 33 + b"".join(edge(*p) for p in pairs[:count])


def sets(count):  # a pair, and behind it `count` nodes that are each an exclusive set, 16 to an aggregate
    nodes = range(2, 2 + count)
    groups = [[[n] for n in nodes[i : i + 16]] for i in range(0, count, 16)]
    return node(INPUT) + node(OUTPUT) + node(OUTPUT, (0.0, 1.0)) * count + edge(0, 1) + b"".join(aggregate(g, (0, 16)) for g in groups)


def rows(others, beside=(b"", b"")):
    # 31 sets that list a node 16 times, 32 rows each; 2 exclusivity rows, 2 varying rows; a row for each other node. `beside`: further nodes and edges
    groups = [[[n] * 16 for n in g] for g in (range(2, 18), range(18, 33))]
    nodes = node(INPUT) + node(OUTPUT) + node(OUTPUT, (1.0, 2.0)) * 31 + node(OUTPUT, (0.0, 1.0)) * others + beside[0]
    return nodes + edge(0, 1) + beside[1] + b"".join(aggregate(g, (0, 16)) for g in groups)


def elements(last, beside=(b"", b"")):  # an input with an edge to each of 13 outputs, listed once to 16 times by 16 exclusive sets: 3,850 elements
    outputs = list(range(1, 14))
    nodes = node(INPUT, (1.0, 2.0)) + node(OUTPUT) * 13 + beside[0]
    again = [[o] for o in outputs] + [[o, o] for o in outputs[:5]]  # 18 plain aggregates of the outputs, 13 elements each; and one of `last` outputs
    plain = [aggregate([outputs + more]) for more in again] + [aggregate([outputs[:last]])]
    pipes = b"".join(edge(0, o) for o in outputs) + beside[1]
    return nodes + pipes + aggregate([[0] * k for k in range(1, 17)], (0, 16)) + b"".join(plain)


def many(outputs):  # README's small example of 11
    nodes = node(INPUT, (1.0, 2.0)) + node(OUTPUT) * outputs
    return nodes + b"".join(edge(0, 1 + i) for i in range(outputs)) + aggregate([[0] * k for k in range(1, 17)], (0, 16))


# titles, and files with their refusal or the counts of their programme
CASES = [
    "# builds: each refusal at its smallest input, both sides of each ceiling",
    "# the worked example, and a pair of nodes",
    (node(INPUT) + node(OUTPUT, (0.0, 48.5)) + edge(0, 1), "P 1 2 1 2"),
    (PAIR, "P 1 1 1 1"),
    "# refusals 1 to 11, 19 and 20, each at its smallest",
    (b"N", "N 1 0"),
    (PAIR + b"N", "N 1 46"),
    (b"XX", "N 2 0"),
    (PAIR + node(INPUT), "N 2 46"),
    (b"ND\4", "N 3 0"),
    (b"ED\0\0", "N 4 0"),
    (node(INPUT) + edge(0, 0), "N 5 22"),
    (node(INPUT) + virtual_storage([(0, 1.0)]) * 32 + b"VS", "N 6 596"),
    (b"", "N 7 0"),
    (node(INPUT) + node(LINK) + edge(0, 1), "N 8 1"),
    (node(INPUT, (2.0, 1.0)) + node(OUTPUT) + edge(0, 1), "N 9 0"),
    (node(INPUT, (-math.inf, -math.inf)) + node(OUTPUT) + edge(0, 1) + aggregate([[0]], (0, 0)), "N 10 0"),
    (many(14), "N 11 0"),
    (node(LINK) + edge(0, 0), "N 19 22"),
    (PAIR + edge(0, 1), "N 20 48"),
    "# an edge: 5 into an input and out of an output, 19 to itself, 20 a pair that any earlier edge has, all at its `from` field",
    (node(LINK) + node(INPUT) + edge(0, 1), "N 5 42"),
    (node(LINK) + node(OUTPUT) + edge(1, 0), "N 5 42"),
    (node(OUTPUT) + node(INPUT) + edge(0, 1), "N 5 42"),
    (node(STORAGE) + edge(0, 0), "N 19 22"),
    (LINE + edge(0, 1), "N 20 100"),
    (LINE + edge(1, 2), "N 20 100"),
    (LINE + edge(2, 3), "N 20 100"),
    "# the same nodes the other way are another pair",
    (node(INPUT) + node(LINK) * 2 + edge(0, 1) + edge(1, 2) + edge(2, 1), "P 2 3 2 4"),
    "# 5 before 19: an output's edge to itself, and above an input's; each record whole before the next",
    (node(OUTPUT) + edge(0, 0), "N 5 22"),
    (node(LINK) + node(INPUT) + edge(0, 0) + edge(0, 1), "N 19 42"),
    (PAIR + edge(0, 1) + edge(1, 0), "N 20 48"),
    (PAIR + edge(1, 0) + edge(0, 1), "N 5 48"),
    "# 1, 2, 4 and 6 of an edge come before, at its record",
    (node(LINK) + edge(0, 0)[:5], "N 1 20"),
    (node(OUTPUT) + node(INPUT) + edge(0, 1)[:4], "N 1 40"),
    (PAIR + virtual_storage([(0, 1.0)]) + edge(0, 1), "N 2 64"),
    (node(OUTPUT) + edge(0, 1), "N 4 20"),
    (node(LINK) + edge(1, 1), "N 4 20"),
    (edges(512) + edge(0, 0), "N 6 4052"),
    "# nodes, edges, aggregates and virtual storages at their ceilings and over",
    (node(INPUT) + node(OUTPUT) * 255 + edge(0, 1), "P 1 2 2 1"),
    (node(INPUT) + node(OUTPUT) * 256 + edge(0, 1), "N 6 5120"),
    (edges(512), "P 512 49 49 1024"),
    (edges(513), "N 6 4052"),
    (PAIR + aggregate([[0]]) * 64, "P 1 1 1 1"),
    (PAIR + aggregate([[0]]) * 65, "N 6 1006"),
    (PAIR + virtual_storage([(0, 1.0)]) * 32, "P 1 2 2 2"),
    (PAIR + virtual_storage([(0, 1.0)]) * 33, "N 6 622"),
    "# an aggregate's sets, a set's nodes and a virtual storage's nodes at their ceilings and over",
    (PAIR + aggregate([[0]] * 16), "P 1 2 2 2"),
    (PAIR + aggregate([[0]] * 17), "N 3 46"),
    (PAIR + aggregate([[0] * 16]), "P 1 2 2 2"),
    (PAIR + aggregate([[0] * 17]), "N 3 46"),
    (PAIR + virtual_storage([(0, 1.0)] * 64), "P 1 2 2 2"),
    (PAIR + virtual_storage([(0, 1.0)] * 65), "N 3 46"),
    "# sets, rows and elements at their ceilings and over",
    (sets(128), "P 129 138 2 257"),
    (sets(129), "N 11 0"),
    (rows(28), "P 32 1024 2 1024"),
    (rows(29), "N 11 0"),
    (many(13), "P 29 287 14 3850"),
    (elements(12), "P 29 306 33 4096"),
    (elements(13), "N 11 0"),
]
