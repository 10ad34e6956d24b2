# Who made each row, for crates/test_cases: fresh builds with the three last fields of their `R` lines, calls that leave them, and 17 for each of the three
# words at each kind, on a step. Used by cases.py.
import math

from commands import build, change, clear, listed, step, title
from make import INPUT, LINK, OUTPUT, aggregate, edge, node, virtual_storage
from steps import AGGREGATE, EXCLUSIVITY, MASS, NODE, VIRTUAL_STORAGE, aggregate_step, by, date, node_step, storage_step

INF = math.inf
PAIR = node(INPUT) + node(OUTPUT) + edge(0, 1)
MAKERS_AT = 19723


def fresh(network, edge_columns, sets, varying, fixed):  # varying: elements and maker of each row; fixed: lower and upper too
    build(network)
    listed(edge_columns, [0.0] * (edge_columns + sets), [(0.0, INF, *row) for row in varying], fixed)


def shared_rows():
    title("# makers: the worked example, 1 0 1 and 1 1 1; a pair of varying nodes, 1 0 2")
    fresh(node(INPUT) + node(OUTPUT, (0.0, 48.5)) + edge(0, 1), 1, 0, [({0: 1.0}, by(NODE, 0))], [(0.0, 48.5, {0: 1.0}, by(NODE, 1))])
    fresh(PAIR, 1, 0, [({0: 1.0}, by(NODE, 0, 2))], [])
    title("# a row shared by an input, a link and a plain aggregate; an aggregate of both has one of its own; the link's mass row is dropped")
    line = node(INPUT) + node(LINK) + node(OUTPUT, (0.0, 1.0)) + edge(0, 1) + edge(1, 2)
    output = [(0.0, 1.0, {0: 1.0}, by(NODE, 2))]
    fresh(line + aggregate([[0]]), 1, 0, [({0: 1.0}, by(NODE, 0, 3))], output)
    fresh(line + aggregate([[0], [1]]), 1, 0, [({0: 1.0}, by(NODE, 0, 2)), ({0: 2.0}, by(AGGREGATE, 0))], output)
    title("# the empty row: of two inputs without edges 1 0 2, of an aggregate and a virtual storage of them too 1 0 4")
    loose = node(INPUT) * 2 + node(INPUT, (0.0, 1.0)) + node(OUTPUT, (0.0, 1.0)) + edge(2, 3)
    ends = [(0.0, 1.0, {0: 1.0}, by(NODE, 2)), (0.0, 1.0, {0: 1.0}, by(NODE, 3))]
    fresh(loose, 1, 0, [({}, by(NODE, 0, 2))], ends)
    fresh(loose + aggregate([[1]]) + virtual_storage([(0, 1.0)]), 1, 0, [({}, by(NODE, 0, 4))], ends)
    title("# virtual storages: the first and the third share a row")
    network = PAIR + virtual_storage([(0, 1.0)]) + virtual_storage([(1, 2.0)]) + virtual_storage([(1, 1.0)], (4, 1, 9, 30))
    fresh(network, 1, 0, [({0: 1.0}, by(NODE, 0, 2)), ({0: -1.0}, by(VIRTUAL_STORAGE, 0, 2)), ({0: -2.0}, by(VIRTUAL_STORAGE, 1))], [])


def exclusive_nodes():
    title("# a node twice in a set asks twice for each of its rows; two nodes of a set with equal rows share them")
    upper, lower = {0: -1.0, 1: 1.0}, {0: 1.0, 1: -1.0}
    active = (0.0, 1.0, {1: 1.0}, by(EXCLUSIVITY, 0))
    varying = [(upper, by(NODE, 0, 2)), (lower, by(NODE, 0, 2)), ({0: 2.0}, by(AGGREGATE, 0))]
    twice = node(INPUT) + node(OUTPUT, (0.0, 1.0)) + edge(0, 1) + aggregate([[0, 0]], (0, 1))
    fresh(twice, 1, 1, varying, [(0.0, 1.0, {0: 1.0}, by(NODE, 1)), active])
    fresh(PAIR + aggregate([[0, 1]], (0, 1)), 1, 1, varying, [active])
    title("# an exclusive constant node: its lower row, none where min is 0, and its rows twice where it is listed twice, which never join")
    for low, sets, elements in ((2.0, [[0]], [{0: -1.0, 1: 5.0}, {0: 1.0, 1: -2.0}]), (0.0, [[0]], [{0: -1.0, 1: 5.0}]), (0.0, [[0, 0]], [{0: -1.0, 1: 5.0}] * 2)):
        network = node(INPUT, (low, 5.0)) + node(OUTPUT, (0.0, 9.0)) + edge(0, 1) + aggregate(sets, (0, 1))
        fixed = [(0.0, INF, e, by(NODE, 0)) for e in elements] + [(0.0, 9.0, {0: 1.0}, by(NODE, 1)), active]
        fresh(network, 1, 1, [({0: float(len(sets[0]))}, by(AGGREGATE, 0))], fixed)
    title("# an exclusivity row whose aggregate is not the first: 4 1 1")
    varying = [({0: 1.0}, by(NODE, 0, 3)), (upper, by(NODE, 1)), (lower, by(NODE, 1))]
    fresh(PAIR + aggregate([[0]]) + aggregate([[1]], (0, 1)), 1, 1, varying, [(0.0, 1.0, {1: 1.0}, by(EXCLUSIVITY, 1))])


# ---- an input, a link, an output that is an exclusive set of the second aggregate, a constant output; two virtual storages: a row of every kind

ALL = node(INPUT) + node(LINK) + node(OUTPUT) + node(OUTPUT, (0.0, 5.0)) + edge(0, 1) + edge(1, 2) + edge(1, 3)
ALL += aggregate([[0], [2]]) + aggregate([[2]], (0, 1)) + virtual_storage([(0, 2.0)]) + virtual_storage([(3, 1.0)])
ELEMENTS = [{0: 1.0}, {1: 1.0, 2: 1.0}, {1: -1.0, 3: 1.0}, {1: 1.0, 3: -1.0}, {0: 1.0, 1: 1.0}, {1: 1.0}, {0: -2.0}, {2: -1.0}]
MAKERS = [by(NODE, 0), by(NODE, 1), by(NODE, 2), by(NODE, 2), by(AGGREGATE, 0), by(AGGREGATE, 1), by(VIRTUAL_STORAGE, 0), by(VIRTUAL_STORAGE, 1)]
MAKERS += [by(MASS, 1), by(NODE, 3), by(EXCLUSIVITY, 1)]
FIXED = [(0.0, 0.0, {0: 1.0, 1: -1.0, 2: -1.0}, MAKERS[8]), (0.0, 5.0, {2: 1.0}, MAKERS[9]), (0.0, 1.0, {3: 1.0}, MAKERS[10])]
COUNTS = {MASS: 4, NODE: 4, AGGREGATE: 2, VIRTUAL_STORAGE: 2, EXCLUSIVITY: 2}
STEP = date(5, 1, 1.0) + node_step(0.0, 0.0, 9.0) * 4 + aggregate_step(0.0, 9.0) * 2 + storage_step(0.0, 10.0, 4.0) * 2


def all_listed():
    listed(3, [0.0] * 4, [(0.0, INF, *row) for row in zip(ELEMENTS, MAKERS)], FIXED)


def all_stepped():
    rows = [(0.0, 9.0), (0.0, 9.0), (0.0, INF), (0.0, INF), (0.0, 9.0), (0.0, 9.0), (-4.0, 6.0), (-4.0, 6.0)]
    elements = [*ELEMENTS[:2], {1: -1.0, 3: 9.0}, {1: 1.0, 3: -0.0}, *ELEMENTS[4:]]
    listed(3, [0.0] * 4, [(*row, e, maker) for row, e, maker in zip(rows, elements, MAKERS)], FIXED)


def kept():
    title("# a row of every kind; neither a step nor a refused step or build changes who made it")
    build(ALL)
    all_listed()
    step(STEP[:-1], "N 12 %d" % (len(STEP) - 26))
    build(ALL[:-1], answer="N 1 %d" % (len(ALL) - 18))
    all_listed()
    step(STEP)
    all_stepped()
    step(date(13, 1, 1.0) + STEP[12:], "N 13 0")
    step(STEP[:12] + node_step(0.0, 3.0, 2.0) + STEP[46:], "N 14 0")
    step(STEP + b"\0", "N 12 %d" % len(STEP))
    step(STEP)
    all_stepped()
    title("# a smaller build leaves the words of the rows behind its own: those of row 1 are still node 1's, and of row 10 aggregate 1's")
    fresh(PAIR, 1, 0, [({0: 1.0}, by(NODE, 0, 2))], [])
    for row in (1, 10):
        for k, word in enumerate(MAKERS[row]):
            change("shape", MAKERS_AT + 3 * row + k, word, word)


def out_of_range():
    def changed(row, k, new, answer):
        at, old = MAKERS_AT + 3 * row + k, MAKERS[row][k]
        change("shape", at, old, new)
        step(STEP, answer)
        change("shape", at, new, old)

    title("# 17: a maker of each kind, mass, node, aggregate, virtual storage, exclusivity: the kind behind the last; the last index and the one behind it; shared by none")
    clear()
    build(ALL)
    for row in (8, 0, 4, 6, 10):
        kind, _, _ = MAKERS[row]
        for k, new, answer in (
            (0, 5, "N 17 0"),
            (0, 65535, "N 17 0"),
            (1, COUNTS[kind] - 1, "A"),
            (1, COUNTS[kind], "N 17 0"),
            (1, 65535, "N 17 0"),
            (2, 0, "N 17 0"),
            (2, 65535, "A"),
        ):
            changed(row, k, new, answer)
    title("# 17: the index is compared with the count of its own kind: 3 of four nodes, not of two aggregates or virtual storages; a mass row's node need be no link")
    for kind, answer in ((MASS, "A"), (AGGREGATE, "N 17 0"), (VIRTUAL_STORAGE, "N 17 0"), (EXCLUSIVITY, "N 17 0")):
        changed(9, 0, kind, answer)
    title("# the words behind the last row are not read")
    for k, new in ((0, 5), (1, 65535), (2, 0)):
        change("shape", MAKERS_AT + 3 * 11 + k, 0, new)
        step(STEP)
    title("# 17 before the file; a build does not look at the words that stand there, and writes its own")
    change("shape", MAKERS_AT, 1, 5)
    step(b"", "N 17 0")
    build(b"", answer="N 7 0")
    change("shape", MAKERS_AT, 5, 5)
    build(ALL)
    all_listed()
    step(STEP)
    all_stepped()


def makers():
    clear()
    for part in (shared_rows, exclusive_nodes, kept, out_of_range):
        part()
