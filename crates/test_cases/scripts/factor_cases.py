# Factors of virtual storages for crates/test_cases: sums on a column that are exact in 1/1024, and sums that round. Used by cases.py.
import math

from commands import build, listed, step, title
from make import INPUT, OUTPUT, RETURNS, STORAGE, edge, node, virtual_storage
from returns import step_file
from steps import MASS, NODE, VIRTUAL_STORAGE, by

INF = math.inf
PAIR = node(INPUT) + node(OUTPUT) + edge(0, 1)
ONE_1024TH = 1 / 1024


def on_one_column(factors, element):  # every part names the input, whose one edge has column 0
    build(PAIR + virtual_storage([(0, factor) for factor in factors]))
    listed(1, [0.0], [(0.0, INF, {0: 1.0}, by(NODE, 0, 2)), (0.0, INF, {0: element}, by(VIRTUAL_STORAGE, 0))], [])


def factors():
    title("# a licence that counts a litre returned as minus three quarters: as built, and with 40 of 100 left")
    rows = [(0.0, 120.0, {0: 1.0}), (0.0, 120.0, {1: 1.0, 2: 1.0}), (0.0, INF, {1: 1.0}), (0.0, 30.0, {2: 1.0})]
    fixed = [(0.0, 0.0, {0: 1.0, 1: -1.0, 2: -1.0}, by(MASS, 1)), *((*row, by(NODE, n)) for n, row in enumerate(rows))]
    build(b"".join(record for _, record in RETURNS))
    listed(3, [0.0, 0.0, 0.0], [(0.0, INF, {0: -1.0, 1: 0.75}, by(VIRTUAL_STORAGE, 0))], fixed)
    step(step_file())
    listed(3, [1.0, 0.0, -10.0], [(-40.0, 60.0, {0: -1.0, 1: 0.75}, by(VIRTUAL_STORAGE, 0))], fixed)
    title("# a storage at a quarter: minus on the edge in, plus on the edge out")
    build(node(INPUT) + node(STORAGE) + node(OUTPUT) + edge(0, 1) + edge(1, 2) + virtual_storage([(1, 0.25)]))
    nodes = [({0: 1.0}, by(NODE, 0)), ({0: 1.0, 1: -1.0}, by(NODE, 1)), ({1: 1.0}, by(NODE, 2))]
    listed(2, [0.0, 0.0], [(0.0, INF, *row) for row in [*nodes, ({0: -0.25, 1: 0.25}, by(VIRTUAL_STORAGE, 0))]], [])
    title("# 64 parts on one column: each 1,000,000 either way; each 1/1024 under it; 63 of it and one of 1/1024; 1/1024 each; and parts that cancel")
    on_one_column([1e6] * 64, -64e6)
    on_one_column([-1e6] * 64, 64e6)
    on_one_column([1e6 - ONE_1024TH] * 64, -63999999.9375)
    on_one_column([1e6] * 63 + [ONE_1024TH], -63000000.0009765625)
    on_one_column([ONE_1024TH] * 64, -0.0625)
    on_one_column([0.75, -0.75] * 32, 0.0)
    title("# sums that round: 0.1, 0.2 and 0.3 in either order, and 13 parts of 1,000,000,000,000 less 1/1024")
    on_one_column([0.1, 0.2, 0.3], -0.6000000000000001)
    on_one_column([0.3, 0.2, 0.1], -0.6)
    on_one_column([1e12 - ONE_1024TH] * 13, -12999999999999.9921875)
