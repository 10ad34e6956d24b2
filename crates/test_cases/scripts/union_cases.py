# Columns that unite, for crates/test_cases: chains and rings whose edges are keyed so that two columns meet, with the column of each edge, steps on them, and
# 11 on both sides of two ceilings. Each number expected is document 01's with request L2. Used by cases.py.
import math

from build_cases import elements, rows
from commands import build, change, counted, listed, step, title
from make import INPUT, LINK, OUTPUT, STORAGE, aggregate, edge, node, virtual_storage
from steps import AGGREGATE, EXCLUSIVITY, MASS, NODE, VIRTUAL_STORAGE, by, date, exclusive_rows, node_step

INF = math.inf
COLUMNS_AT = 525  # in the shape run: the column of edge 0. That of the next edge is three words on
CHAIN = [INPUT, LINK, LINK, LINK, OUTPUT]
APART = [(1, 2), (3, 4), (2, 3), (0, 1)]  # document 01's first chain: columns 0, 1, 1, 0 before the request
DOWNSTREAM = [(0, 1), (1, 2), (2, 3), (3, 4)]
SHORT = [INPUT, LINK, LINK, OUTPUT]
PAIR = [INPUT, OUTPUT]


def network(kinds, edges, bounds=None):
    return b"".join(node(kind, bounds) for kind in kinds) + b"".join(edge(*ends) for ends in edges)


def fresh(file, columns, *varying, fixed=()):  # the column of each edge, which is read by writing it anew; elements and maker of each varying row
    build(file)
    count = 1 + max(columns)
    listed(count, [0.0] * count, [(0.0, INF, *row) for row in varying], fixed)
    for e, column in enumerate(columns):
        change("shape", COLUMNS_AT + 3 * e, column, column)


def chains():
    title("# columns unite: document 01's first chain has one column and no mass row, as it has keyed downstream")
    for edges in (APART, DOWNSTREAM):
        fresh(network(CHAIN, edges), [0, 0, 0, 0], ({0: 1.0}, by(NODE, 0, 5)))
        fresh(network(CHAIN, edges, (0.0, 9.0)), [0, 0, 0, 0], fixed=[(0.0, 9.0, {0: 1.0}, by(NODE, n)) for n in range(5)])
    title("# three edges, of which the last has the higher of two columns that unite, and then the lower")
    for edges in ([(0, 1), (2, 3), (1, 2)], [(2, 3), (0, 1), (1, 2)]):
        fresh(network(SHORT, edges), [0, 0, 0], ({0: 1.0}, by(NODE, 0, 4)))
    title("# the smallest network in which two columns unite: from a storage through two links and back, so that the storage's row is 0.0")
    fresh(network([STORAGE, LINK, LINK], [(0, 1), (2, 0), (1, 2)]), [0, 0, 0], ({0: 0.0}, by(NODE, 0)), ({0: 1.0}, by(NODE, 1, 2)))
    title("# 256 nodes in a chain, every other edge keyed first: 127 unions")
    ends = [(n, n + 1) for n in range(255)]
    build(network([INPUT] + [LINK] * 254 + [OUTPUT], ends[::2] + ends[1::2]))
    counted("P 1 1 1 1")


def other_columns():
    title("# document 01's first chain with an edge of its own in the middle, whose column 2 closes up to 1")
    edges = [(1, 2), (3, 4), (5, 6), (2, 3), (0, 1)]
    fresh(network(CHAIN + PAIR, edges), [0, 0, 1, 0, 0], ({0: 1.0}, by(NODE, 0, 5)), ({1: 1.0}, by(NODE, 5, 2)))
    title("# columns 0 and 2 unite, the last edge having the higher and then the lower: 1 stays, and 3 closes up")
    varying = [({0: 1.0}, by(NODE, 0, 4)), ({1: 1.0}, by(NODE, 4, 2)), ({2: 1.0}, by(NODE, 6, 2))]
    for edges in ([(0, 1), (4, 5), (2, 3), (6, 7), (1, 2)], [(2, 3), (4, 5), (0, 1), (6, 7), (1, 2)]):
        fresh(network(SHORT + PAIR + PAIR, edges), [0, 1, 0, 2, 0], *varying)
    title("# columns 1 and 3 unite, the last edge having the higher and then the lower: 0 and 2 stay")
    varying = [({1: 1.0}, by(NODE, 0, 4)), ({0: 1.0}, by(NODE, 4, 2)), ({2: 1.0}, by(NODE, 6, 2))]
    for edges in ([(4, 5), (0, 1), (6, 7), (2, 3), (1, 2)], [(4, 5), (2, 3), (6, 7), (0, 1), (1, 2)]):
        fresh(network(SHORT + PAIR + PAIR, edges), [0, 1, 2, 1, 1], *varying)


def rings():
    title("# document 01's ring: link 1's mass row is 1.0, 0.0")
    edges, mass = [(0, 1), (1, 2), (2, 1)], (0.0, 0.0, {0: 1.0, 1: 0.0}, by(MASS, 1))
    fresh(network([INPUT, LINK, LINK], edges), [0, 1, 1], ({0: 1.0}, by(NODE, 0)), ({1: 1.0}, by(NODE, 1, 2)), fixed=[mass])
    title("# a closed ring of three links, whose column meets itself, and one of four, in which two columns unite before")
    edges = [(0, 1), (1, 2), (3, 4), (2, 0)]
    fresh(network([LINK] * 3 + PAIR, edges), [0, 0, 1, 0], ({0: 1.0}, by(NODE, 0, 3)), ({1: 1.0}, by(NODE, 3, 2)))
    edges = [(0, 1), (2, 3), (4, 5), (1, 2), (3, 0)]
    fresh(network([LINK] * 4 + PAIR, edges), [0, 0, 1, 0, 0], ({0: 1.0}, by(NODE, 0, 4)), ({1: 1.0}, by(NODE, 4, 2)))


def meeting_chains():
    def meeting(kinds, edges, columns, sharers, link):  # sharers: of the row of each chain, the chains being inputs 0 and 1 and what is behind them
        varying = [({0: 1.0}, by(NODE, 0, sharers)), ({1: 1.0}, by(NODE, 1, sharers)), ({2: 1.0}, by(NODE, link, 2))]
        fresh(network(kinds, edges), columns, *varying, fixed=[(0.0, 0.0, {0: 1.0, 1: 1.0, 2: -1.0}, by(MASS, link))])

    title("# two chains that meet at a link with two edges in and one out: the link keeps its mass row, where neither chain unites and where each does")
    meeting([INPUT] * 2 + [LINK] * 3 + [OUTPUT], [(0, 2), (2, 4), (1, 3), (3, 4), (4, 5)], [0, 0, 1, 1, 2], 2, 4)
    edges = [(0, 2), (3, 6), (1, 4), (5, 6), (6, 7), (2, 3), (4, 5)]
    meeting([INPUT] * 2 + [LINK] * 5 + [OUTPUT], edges, [0, 0, 1, 1, 2, 0, 1], 3, 6)


def stepped():
    title("# a step: the costs of a chain's edges, 2, 3, 5 and -7, add to 3 on its one column, and its nodes' intervals tighten one row")
    costs = [1.0, 2.0, 4.0, 6.0, -10.0, 7.0, 8.0]  # a link gives half its cost either way
    bounds = [(0.0, 40.0), (2.0, 30.0), (0.0, 25.0), (1.0, 50.0), (3.0, 60.0), (0.0, 9.0), (4.0, 12.0)]
    apart, downstream = APART[:2] + [(5, 6)] + APART[2:], DOWNSTREAM + [(5, 6)]
    for edges in (apart, downstream):
        build(network(CHAIN + PAIR, edges))
        step(date(6, 1, 1.0) + b"".join(node_step(cost, *pair) for cost, pair in zip(costs, bounds)))
        listed(2, [3.0, 15.0], [(3.0, 25.0, {0: 1.0}, by(NODE, 0, 5)), (4.0, 9.0, {1: 1.0}, by(NODE, 5, 2))], [])
    title("# an aggregate and a virtual storage of nodes on the one column add there; a set's column stands behind those of the edges")
    build(network(CHAIN + PAIR, apart) + aggregate([[1], [3]]) + aggregate([[5]], (0, 1)) + virtual_storage([(0, 1.0), (2, 0.5)]))
    others = [({1: 1.0}, by(NODE, 6, 2)), ({0: 2.0}, by(AGGREGATE, 0)), ({0: -1.5}, by(VIRTUAL_STORAGE, 0))]
    varying = [(0.0, INF, {0: 1.0}, by(NODE, 0, 5)), *exclusive_rows({1: 1.0}, 2, (1.0, 1.0), by(NODE, 5)), *((0.0, INF, *row) for row in others)]
    listed(2, [0.0] * 3, varying, [(0.0, 1.0, {2: 1.0}, by(EXCLUSIVITY, 1))])


def chain_from(first):  # nodes and edges of document 01's first chain, the nodes numbered from `first`
    return network(CHAIN, []), b"".join(edge(first + start, first + end) for start, end in APART)


def ceilings():
    # build_cases.py has elements(12) at 4,096 elements and rows(28) at 1,024 rows. elements(11) has one element less, rows(27) one row less. The chain adds a
    # column, a row that its nodes share and an element, so both are at the ceiling again. In two columns it added rows for nodes 0 and 1, for nodes 2 to 4
    # and for link 2's mass balance, with 4 elements: 4,099 elements, and 1,026 rows.
    title("# elements and rows at their ceilings and over; before the request the chain in them was over both")
    build(elements(11, chain_from(14)))
    counted("P 30 307 34 4096")
    build(elements(12, chain_from(14)), answer="N 11 0")
    build(rows(27, chain_from(60)))
    counted("P 33 1024 3 1025")
    build(rows(28, chain_from(61)), answer="N 11 0")


def unions():
    for part in (chains, other_columns, rings, meeting_chains, stepped, ceilings):
        part()
