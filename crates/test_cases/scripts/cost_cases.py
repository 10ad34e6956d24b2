# Costs summed downstream, for crates/test_cases: columns whose edges are keyed in many orders, with costs that round, the table of the flow order, and 17 in it.
# Each number expected is document 01's with request L10; where the order is what a case is about, the script asks that another gives another sum. Used by cases.py.
import itertools

from commands import build, change, clear, listed, step, title
from make import INPUT, LINK, OUTPUT, STORAGE
from steps import MASS, NODE, by, date, edge_cost, node_step
from union_cases import CHAIN, PAIR, SHORT, network

FLOW_ORDER_AT = 22795  # in the shape run: the first edge's number; that of the next is a word on
BOUNDS = (0.0, 9.0)  # of every node but a storage, in every step


def total(kinds, costs, edges):  # from 0.0, one after the other
    x = 0.0
    for edge in edges:
        x += edge_cost(kinds, costs, *edge)
    return x


def costs_step(kinds, costs):  # a storage is from 0 to 100 and holds 50
    nodes = ((c, 0.0, 100.0, 50.0) if kind == STORAGE else (c, *BOUNDS, 0.0) for kind, c in zip(kinds, costs))
    return date(6, 1, 1.0) + b"".join(node_step(*node) for node in nodes)


def flow_order(edges, order):  # the table's words, which are read by writing each anew
    for i, edge in enumerate(order):
        change("shape", FLOW_ORDER_AT + i, edges.index(edge), edges.index(edge))


def stepped(kinds, edges, order, costs, sums, varying, fixed=()):  # order: the edges as the table has them; sums: of each column
    build(network(kinds, edges))
    step(costs_step(kinds, costs))
    listed(len(sums), sums, varying, list(fixed))
    flow_order(edges, order)


def differ(kinds, costs, path, others):  # whether a path's sum is its own
    assert all(total(kinds, costs, path) != total(kinds, costs, other) for other in others)


def chain():
    path, costs = [(0, 1), (1, 2), (2, 3)], [1e12, 2.0**-12, 2.0**-13, 0.0]
    orders = [list(edges) for edges in itertools.permutations(path)]
    assert len({total(SHORT, costs, edges) for edges in orders}) == 3
    title("# costs downstream: a chain with costs 1e12, 2^-12 and 2^-13, keyed in six orders: one cost, where edge order gave three")
    for edges in orders:
        stepped(SHORT, edges, path, costs, [total(SHORT, costs, path)], [(*BOUNDS, {0: 1.0}, by(NODE, 0, 4))])
    title("# whole costs: 24 orders, each with the sum that edge order gives")
    path, costs = [(0, 1), (1, 2), (2, 3), (3, 4)], [1e12, 3.0, -1e12, 999999999999.0, 1e12]
    for edges in map(list, itertools.permutations(path)):
        assert total(CHAIN, costs, edges) == total(CHAIN, costs, path)
        stepped(CHAIN, edges, path, costs, [total(CHAIN, costs, edges)], [(*BOUNDS, {0: 1.0}, by(NODE, 0, 5))])
    title("# from 0.0: a chain whose costs are all -0.0 costs 0.0")
    stepped(SHORT, path[:3], path[:3], [-0.0] * 4, [0.0], [(*BOUNDS, {0: 1.0}, by(NODE, 0, 4))])


def closed_ring():
    ring, costs = [(0, 1), (1, 2), (2, 3), (3, 0)], [1e12, 2.0**-13, -1e12, 5e11]
    kinds = [LINK] * 4 + PAIR
    title("# a closed ring of four links beside a pipe, each of its edges the lowest in turn: it starts there")
    for first in range(4):
        path = ring[first:] + ring[:first]
        if first in (0, 3):  # from 1 and from 2 the sums are equal, and the table alone tells
            differ(kinds, costs, path, [ring[k:] + ring[:k] for k in range(4) if k != first])
        edges = [path[0], (4, 5), path[3], path[1], path[2]]
        sums = [total(kinds, costs, path), 7.0 + 8.0]
        stepped(kinds, edges, [(4, 5), *path], [*costs, 7.0, 8.0], sums, [(*BOUNDS, {0: 1.0}, by(NODE, 0, 4)), (*BOUNDS, {1: 1.0}, by(NODE, 4, 2))])


def back_to_the_start():
    path, kinds, costs = [(0, 1), (1, 2), (2, 0)], [STORAGE, LINK, LINK], [0.0, 1e12, 2.0**-13]
    differ(kinds, costs, path, [path[1:] + path[:1], path[2:] + path[:2]])
    title("# a column that comes back through a storage starts there, in whatever order it is keyed")
    for edges in map(list, itertools.permutations(path)):
        stepped(kinds, edges, path, costs, [total(kinds, costs, path)], [(-50.0, 50.0, {0: 0.0}, by(NODE, 0)), (*BOUNDS, {0: 1.0}, by(NODE, 1, 2))])
    path, kinds, costs = [(1, 2), (2, 3), (3, 1)], [INPUT, LINK, LINK, LINK], [0.0, 0.0, 1e12, 2.0**-13]
    differ(kinds, costs, path, [path[1:] + path[:1], path[2:] + path[:2]])
    title("# and one that comes back through a link with another edge in starts at that link")
    mass = (0.0, 0.0, {0: 0.0, 1: 1.0}, by(MASS, 1))
    varying = [(*BOUNDS, {1: 1.0}, by(NODE, 0)), (*BOUNDS, {0: 1.0}, by(NODE, 1, 3))]
    for inside in map(list, itertools.permutations(path)):
        stepped(kinds, [*inside, (0, 1)], [*path, (0, 1)], costs, [total(kinds, costs, path), 0.0], varying, [mass])


def long_chain():
    title("# 256 nodes in a chain, every other edge keyed first, with costs in tenths")
    kinds, ends = [INPUT] + [LINK] * 254 + [OUTPUT], [(n, n + 1) for n in range(255)]
    costs, edges = [(n * n % 97) / 10.0 for n in range(256)], ends[::2] + ends[1::2]
    differ(kinds, costs, ends, [edges])
    stepped(kinds, edges, ends, costs, [total(kinds, costs, ends)], [(*BOUNDS, {0: 1.0}, by(NODE, 0, 256))])


def tables():
    title("# 17: the flow order names the last edge, then one behind it; a build writes its own again")
    kinds, edges, costs = SHORT, [(0, 1), (1, 2), (2, 3)], [1.0, 2.0, 4.0, 8.0]
    file = network(kinds, edges)
    clear()
    build(file)
    for at in range(3):
        for word, answer in ((2, "A"), (3, "N 17 0"), (65535, "N 17 0")):
            change("shape", FLOW_ORDER_AT + at, at, word)
            step(costs_step(kinds, costs), answer=answer)
            change("shape", FLOW_ORDER_AT + at, word, at)
    change("shape", FLOW_ORDER_AT + 1, 1, 3)
    build(file)
    flow_order(edges, edges)
    title("# the word behind the last edge's is not looked at; a flow order that names an edge twice is well shaped, and its cost adds twice")
    change("shape", FLOW_ORDER_AT + 3, 0, 65535)
    change("shape", FLOW_ORDER_AT + 2, 2, 0)
    step(costs_step(kinds, costs))
    listed(1, [2.0 + 3.0 + 2.0], [(*BOUNDS, {0: 1.0}, by(NODE, 0, 4))], [])


def costs_downstream():
    for cases in (chain, closed_ring, back_to_the_start, long_chain, tables):
        cases()
