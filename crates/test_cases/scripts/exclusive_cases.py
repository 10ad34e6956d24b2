# Varying nodes in exclusive sets, for crates/test_cases: their rows as built and after steps, the coefficient that stands on a shared row, and 21 beside 14.
# Each number expected is document 01's with request L3. Used by cases.py.
import math

from commands import build, change, listed, step, title
from make import INPUT, LINK, OUTPUT, STORAGE, aggregate, edge, node
from step_cases import before
from steps import AGGREGATE, EXCLUSIVITY, LARGEST, NODE, aggregate_step, by, date, exclusive_rows, node_step

INF, NAN = math.inf, math.nan
FRESH = 1.0, 1.0  # a fresh build's coefficients are 1 and -1
GROUP = 0.0, 9.0  # every aggregate's bounds


def day(*nodes, groups=1, days=1.0):  # lower, upper and volume of each node
    return date(1, 1, days) + b"".join(node_step(0.0, *n) for n in nodes) + aggregate_step(*GROUP) * groups


def exclusivity(*columns, index=0, least=0.0):
    return least, 1.0, {column: 1.0 for column in columns}, by(EXCLUSIVITY, index)


# ---- an intake, two pumps of which one may run, a town

PUMPS = node(INPUT, (0.0, 48.5)) + node(LINK) * 2 + node(OUTPUT, (0.0, 60.0))
PUMPS += edge(0, 1) + edge(0, 2) + edge(1, 3) + edge(2, 3) + aggregate([[1], [2]], (0, 1))
NOT_READ = ()  # a constant node's bounds


def pumps(first, second):
    return day(NOT_READ, first, second, NOT_READ)


def pumps_listed(first, second, group=GROUP, sentinel=INF):
    rows = exclusive_rows({0: 1.0}, 2, first, by(NODE, 1), sentinel) + exclusive_rows({1: 1.0}, 3, second, by(NODE, 2), sentinel)
    fixed = [(0.0, 48.5, {0: 1.0, 1: 1.0}, by(NODE, 0)), (0.0, 60.0, {0: 1.0, 1: 1.0}, by(NODE, 3)), exclusivity(2, 3)]
    listed(2, [0.0] * 4, [*rows, (*group, {0: 1.0, 1: 1.0}, by(AGGREGATE, 0))], fixed, sentinel)


def two_pumps():
    title("# two pumps of which one may run: as built; after a step; refused steps; after a step with other limits, which keeps nothing of the one before")
    build(PUMPS)
    pumps_listed(FRESH, FRESH, group=(0.0, INF))
    step(pumps((0.0, 30.0), (4.0, 20.0)))
    pumps_listed((0.0, 30.0), (4.0, 20.0))
    step(pumps((5.0, 4.0), (6.0, 7.0)), "N 14 1")
    step(pumps((2.0, 10.0), (6.0, INF)), "N 21 2")
    step(pumps((2.0, 10.0), (6.0, 7.0))[:-1], "N 12 148")
    pumps_listed((0.0, 30.0), (4.0, 20.0))
    step(pumps((2.0, 10.0), (0.0, 25.0)))
    pumps_listed((2.0, 10.0), (0.0, 25.0))
    title("# the same with the finite sentinel")
    build(PUMPS, finite=True)
    pumps_listed(FRESH, FRESH, (0.0, LARGEST), LARGEST)
    step(pumps((0.0, 30.0), (4.0, 20.0)))
    pumps_listed((0.0, 30.0), (4.0, 20.0), sentinel=LARGEST)


# ---- an input and the links behind it, whose rows are equal: in one set they share both


def line(links, sets):
    ends = [edge(n, n + 1) for n in range(links + 1)]
    return node(INPUT) + node(LINK) * links + node(OUTPUT, (0.0, 60.0)) + b"".join(ends) + aggregate(sets, (0, 1))


def line_listed(stands, sharers, group=GROUP):  # the interval whose coefficients stand
    rows = exclusive_rows({0: 1.0}, 1, stands, by(NODE, 0, sharers))
    fixed = [(0.0, 60.0, {0: 1.0}, by(NODE, sharers)), exclusivity(1)]
    listed(1, [0.0] * 2, [*rows, (*group, {0: float(sharers)}, by(AGGREGATE, 0))], fixed)


def shared_rows():
    title("# an input and the link behind it in one set: the smallest coefficient of each row stands, in either order, and the step before does not count")
    build(line(1, [[0, 1]]))
    line_listed(FRESH, 2, group=(0.0, INF))
    for first, second, stands in (
        ((2.0, 5.0), (3.0, 7.0), (3.0, 5.0)),
        ((3.0, 7.0), (2.0, 5.0), (3.0, 5.0)),
        ((0.0, 5.0), (1.0, 3.0), (1.0, 3.0)),
        ((1.0, 3.0), (0.0, 5.0), (1.0, 3.0)),
        ((0.0, 50.0), (0.0, 60.0), (0.0, 50.0)),
        ((0.0, 1.0), (2.0, 3.0), (2.0, 1.0)),
    ):
        step(day(first, second, NOT_READ))
        line_listed(stands, 2)
    title("# negative bounds: -3 and 4 stand, in either order")
    for first, second in (((-5.0, -2.0), (-4.0, -3.0)), ((-4.0, -3.0), (-5.0, -2.0))):
        step(day(first, second, NOT_READ))
        line_listed((-4.0, -3.0), 2)
    title("# three nodes, the smallest coefficients in the middle")
    build(line(2, [[0, 1, 2]]))
    step(day((0.0, 9.0), (2.0, 5.0), (1.0, 7.0), NOT_READ))
    line_listed((2.0, 5.0), 3)


def zeros():
    for sets in ([[0, 1]], [[1, 0]]):
        title("# of the coefficients 0 and -0 on a shared row node 0's stands, with the set %s" % sets[0])
        build(line(1, sets))
        for first, second in (((0.0, 5.0), (-0.0, 5.0)), ((-0.0, 5.0), (0.0, 5.0)), ((0.0, 0.0), (-0.0, -0.0)), ((-0.0, -0.0), (0.0, 0.0))):
            step(day(first, second, NOT_READ))
            line_listed(first, 2)


# ---- an input and an output


def pair(sets):
    return node(INPUT) + node(OUTPUT, (0.0, 60.0)) + edge(0, 1) + aggregate(sets, (0, 1))


def listed_twice():
    title("# a node twice in a set: its coefficients come twice")
    build(pair([[0, 0]]))
    output = (0.0, 60.0, {0: 1.0}, by(NODE, 1))
    for interval in ((2.0, 5.0), (1.0, 8.0), (-5.0, -2.0), (-5.0, 7.0)):
        step(day(interval, NOT_READ))
        rows = exclusive_rows({0: 1.0}, 1, interval, by(NODE, 0, 2))
        listed(1, [0.0] * 2, [*rows, (*GROUP, {0: 2.0}, by(AGGREGATE, 0))], [output, exclusivity(1)])
    title("# the same set in two aggregates is one: a row each way, and two exclusivity rows")
    build(pair([[0]]) + aggregate([[0]], (1, 1)))
    step(day((2.0, 5.0), NOT_READ, groups=2))
    rows = exclusive_rows({0: 1.0}, 1, (2.0, 5.0), by(NODE, 0))
    fixed = [output, exclusivity(1), exclusivity(1, index=1, least=1.0)]
    listed(1, [0.0] * 2, [*rows, (*GROUP, {0: 1.0}, by(AGGREGATE, 0, 2))], fixed)


def two_sets():
    title("# a node in two sets: its two rows in each; where the second set has a node of equal rows, these share the second set's and leave the first's")
    build(line(1, [[0], [0, 1]]))
    for first, second, stands in (((2.0, 9.0), (3.0, 5.0), (3.0, 5.0)), ((3.0, 5.0), (2.0, 9.0), (3.0, 5.0)), ((2.0, 5.0), (3.0, 9.0), (3.0, 5.0))):
        step(day(first, second, NOT_READ))
        rows = exclusive_rows({0: 1.0}, 1, first, by(NODE, 0)) + exclusive_rows({0: 1.0}, 2, stands, by(NODE, 0, 2))
        fixed = [(0.0, 60.0, {0: 1.0}, by(NODE, 2)), exclusivity(1, 2)]
        listed(1, [0.0] * 3, [*rows, (*GROUP, {0: 3.0}, by(AGGREGATE, 0))], fixed)
    title("# and where the second set's other node has rows of its own: six rows, each with its node's coefficient")
    build(node(INPUT) * 2 + node(OUTPUT, (0.0, 60.0)) + edge(0, 2) + edge(1, 2) + aggregate([[0], [0, 1]], (0, 1)))
    for first, second in (((2.0, 9.0), (3.0, 5.0)), ((3.0, 5.0), (2.0, 9.0))):
        step(day(first, second, NOT_READ))
        rows = exclusive_rows({0: 1.0}, 2, first, by(NODE, 0)) + exclusive_rows({0: 1.0}, 3, first, by(NODE, 0))
        rows += exclusive_rows({1: 1.0}, 3, second, by(NODE, 1))
        fixed = [(0.0, 60.0, {0: 1.0, 1: 1.0}, by(NODE, 2)), exclusivity(2, 3)]
        listed(2, [0.0] * 4, [*rows, (*GROUP, {0: 2.0, 1: 1.0}, by(AGGREGATE, 0))], fixed)


def storage():
    title("# a storage in a set: volume 30, range 10 to 100, in 2 days gives 35 and 10; an empty range; under its range; the largest numbers, which are not 21")
    build(node(INPUT, (0.0, 60.0)) + node(STORAGE) + node(OUTPUT, (0.0, 60.0)) + edge(0, 1) + edge(1, 2) + aggregate([[1]], (0, 1)))

    def storage_listed(interval):
        rows = exclusive_rows({0: 1.0, 1: -1.0}, 2, interval, by(NODE, 1))
        fixed = [(0.0, 60.0, {0: 1.0}, by(NODE, 0)), (0.0, 60.0, {1: 1.0}, by(NODE, 2)), exclusivity(2)]
        listed(2, [0.0] * 3, [*rows, (*GROUP, {0: 1.0, 1: -1.0}, by(AGGREGATE, 0))], fixed)

    for volumes, days, interval in (
        ((10.0, 100.0, 30.0), 2.0, (-10.0, 35.0)),
        ((30.0, 30.0, 30.0), 2.0, (-0.0, 0.0)),
        ((10.0, 100.0, 5.0), 2.0, (2.5, 47.5)),
        ((-1e12, 1e12, 1e12), 1 / 1024, (-2e12 * 1024, 0.0)),
    ):
        step(day(NOT_READ, volumes, NOT_READ, days=days))
        storage_listed(interval)
    step(day(NOT_READ, (40.0, 20.0, 30.0), NOT_READ), "N 14 1")
    storage_listed((-2e12 * 1024, 0.0))


# ---- 21


def at_the_sentinels():
    title("# 21: a bound at infinity or minus infinity, of either pump; the largest double is under the infinite sentinel; the store stays as it was")
    build(PUMPS)
    step(pumps((-LARGEST, LARGEST), (4.0, 20.0)))
    for wrong in ((0.0, INF), (-INF, 30.0), (-INF, INF), (INF, INF), (-INF, -INF)):
        step(pumps(wrong, (4.0, 20.0)), "N 21 1")
        step(pumps((0.0, 30.0), wrong), "N 21 2")
    pumps_listed((-LARGEST, LARGEST), (4.0, 20.0))
    title("# 21 with the finite sentinel: the largest double either way, and beyond it; the next smaller passes")
    build(PUMPS, finite=True)
    under = before(LARGEST)
    step(pumps((-under, under), (4.0, 20.0)))
    for wrong in ((0.0, LARGEST), (-LARGEST, 30.0), (0.0, INF), (-INF, 30.0), (LARGEST, LARGEST), (-LARGEST, -LARGEST), (INF, INF), (-INF, -INF)):
        step(pumps(wrong, (4.0, 20.0)), "N 21 1")
        step(pumps((0.0, 30.0), wrong), "N 21 2")
    pumps_listed((-under, under), (4.0, 20.0), sentinel=LARGEST)


def order():
    title("# by node 14 and then 21: node 1's 21 before node 2's 14; node 1's 14 before node 2's 21; 14 of a node that has both; of two nodes with 21 the first")
    build(PUMPS)
    step(pumps((0.0, INF), (5.0, 4.0)), "N 21 1")
    step(pumps((5.0, 4.0), (0.0, INF)), "N 14 1")
    for both in ((INF, -INF), (INF, 3.0), (3.0, -INF)):
        step(pumps(both, (4.0, 20.0)), "N 14 1")
    step(pumps((0.0, INF), (-INF, 0.0)), "N 21 1")
    title("# the file comes first: a byte left over, NaN behind the bound, NaN in the aggregate")
    step(pumps((0.0, INF), (4.0, 20.0)) + b"\0", "N 12 166")
    step(pumps((0.0, INF), (NAN, 20.0)), "N 13 80")
    step(pumps((0.0, INF), (4.0, 20.0))[:-18] + aggregate_step(0.0, NAN), "N 13 148")
    title("# 16 and 17 come before; a constant node with such rows, in a store that no build made, has both sentinels: 21")
    step(pumps((0.0, INF), (4.0, 20.0)), "N 16 0", short=3)
    change("shape", 11, 0, 4)
    step(pumps((0.0, INF), (4.0, 20.0)), "N 17 0")
    change("shape", 11, 4, 0)
    change("shape", 14, 0, 1)
    step(pumps((0.0, 30.0), (4.0, 20.0)), "N 21 1")
    change("shape", 14, 1, 0)
    pumps_listed(FRESH, FRESH, group=(0.0, INF))


# ---- the pumps between an intake and a town that vary too, and a plain aggregate of the intake: these share a row


def not_exclusive():
    title("# varying nodes in no exclusive set, one in a plain aggregate, pass with infinite bounds; their 14 comes by node too, before and behind a pump's 21")
    ends = node(INPUT) + node(LINK) * 2 + node(OUTPUT) + edge(0, 1) + edge(0, 2) + edge(1, 3) + edge(2, 3)
    build(ends + aggregate([[1], [2]], (0, 1)) + aggregate([[0]]))
    free, crossed, pump, beyond = (-INF, INF), (5.0, 4.0), (4.0, 20.0), (0.0, INF)
    step(day(free, pump, pump, free, groups=2))
    step(day(crossed, beyond, pump, free, groups=2), "N 14 0")
    step(day(free, beyond, pump, crossed, groups=2), "N 21 1")
    step(day(free, pump, beyond, free, groups=2), "N 21 2")
    step(day(free, pump, pump, crossed, groups=2), "N 14 3")
    rows = exclusive_rows({0: 1.0}, 2, pump, by(NODE, 1)) + exclusive_rows({1: 1.0}, 3, pump, by(NODE, 2))
    listed(2, [0.0] * 4, [(*GROUP, {0: 1.0, 1: 1.0}, by(NODE, 0, 4)), *rows], [exclusivity(2, 3)])
    step(date(1, 1, 1.0) + b"".join(node_step(0.0, *n) for n in (free, pump, pump, free)) + aggregate_step(*free) * 2)
    listed(2, [0.0] * 4, [(*free, {0: 1.0, 1: 1.0}, by(NODE, 0, 4)), *rows], [exclusivity(2, 3)])


def constant_beside():
    title("# a constant pump, 4 to infinity, beside a varying one: its rows stay, and its bounds in the file are not read")
    network = node(INPUT, (0.0, 48.5)) + node(LINK, (4.0, INF)) + node(LINK) + node(OUTPUT, (0.0, 60.0))
    build(network + edge(0, 1) + edge(0, 2) + edge(1, 3) + edge(2, 3) + aggregate([[1], [2]], (0, 1)))
    fixed = [(0.0, 48.5, {0: 1.0, 1: 1.0}, by(NODE, 0)), (0.0, INF, {0: -1.0, 2: 1e6}, by(NODE, 1)), (0.0, INF, {0: 1.0, 2: -4.0}, by(NODE, 1))]
    fixed += [(0.0, 60.0, {0: 1.0, 1: 1.0}, by(NODE, 3)), exclusivity(2, 3)]
    for not_read, interval in (((4.0, INF), (0.0, 30.0)), ((NAN, NAN), (2.0, 5.0)), ((INF, -INF), (-0.0, 2000000.0))):
        step(pumps(not_read, interval))
        rows = exclusive_rows({1: 1.0}, 3, interval, by(NODE, 2))
        listed(2, [0.0] * 4, [*rows, (*GROUP, {0: 1.0, 1: 1.0}, by(AGGREGATE, 0))], fixed)
    step(pumps((4.0, 20.0), (0.0, INF)), "N 21 2")


def exclusives():
    for part in (two_pumps, shared_rows, zeros, listed_twice, two_sets, storage, at_the_sentinels, order, not_exclusive, constant_beside):
        part()
