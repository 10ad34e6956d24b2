# Steps for crates/test_cases: document 01's cases, each refusal from 12 to 17 but 15, each limit, short runs, misshapen stores, lists of steps.
# Each number expected is document 01's; 21 is in exclusive_cases.py. Used by cases.py.
import math
import struct

from commands import build, change, clear, listed, step, title
from make import INPUT, LINK, OUTPUT, STORAGE, aggregate, edge, node, virtual_storage
from steps import DAYS_IN, EXCLUSIVITY, LARGEST, MASS, NODE, VIRTUAL_STORAGE, aggregate_step, by, date, exclusive_rows, node_step, storage_step

INF, NAN = math.inf, math.nan


def after(x):  # the next double away from zero
    return struct.unpack("<d", struct.pack("<Q", struct.unpack("<Q", struct.pack("<d", x))[0] + 1))[0]


def before(x):  # the next double towards zero
    return struct.unpack("<d", struct.pack("<Q", struct.unpack("<Q", struct.pack("<d", x))[0] - 1))[0]


# ---- an input and an output, both varying, with an edge: they share one row

PAIR = node(INPUT) + node(OUTPUT) + edge(0, 1)


def pair(first=(0.0, 0.0, 9.0), second=(0.0, 0.0, 9.0), day=(1, 1), days=1.0, more=b""):  # cost, min, max, volume of each node
    return date(*day, days) + node_step(*first) + node_step(*second) + more


def pair_listed(low, high, cost=0.0, sentinel=INF):
    listed(1, [cost], [(low, high, {0: 1.0}, by(NODE, 0, 2))], [], sentinel)


def intervals():
    title("# a fresh build; a step resets the row and tightens it by each interval: [2, 9] and [4, 12] give [4, 9]; [0, 1] and [2, 3] lower 2, upper 1")
    build(PAIR)
    pair_listed(0.0, INF)
    for first, second, low, high in (((2, 9), (4, 12), 4, 9), ((0, 1), (2, 3), 2, 1), ((0, 10), (0, 10), 0, 10)):
        step(pair((0.0, *first), (0.0, *second)))
        pair_listed(low, high)
    title("# of two zeros the bound already held stays: 0 then -0, and -0 then 0")
    step(pair((0.0, 0.0, 9.0), (0.0, -0.0, 9.0)))
    pair_listed(0.0, 9.0)
    step(pair((0.0, -0.0, 9.0), (0.0, 0.0, 9.0)))
    pair_listed(-0.0, 9.0)
    title("# infinite flow bounds, and both finite sentinel and infinite bounds")
    for low, high in ((-INF, INF), (INF, INF), (-INF, -INF), (-1e300, 1e300)):
        step(pair((0.0, low, high), (0.0, -INF, INF)))
        pair_listed(low, high)
    build(PAIR, finite=True)
    pair_listed(0.0, LARGEST, sentinel=LARGEST)
    step(pair((0.0, -INF, INF), (0.0, -INF, INF)))
    pair_listed(-LARGEST, LARGEST, sentinel=LARGEST)


def values():
    title("# 13: days from 1/1024 to 366")
    build(PAIR)
    for days in (1 / 1024, 366.0):
        step(pair(days=days))
    for days in (before(1 / 1024), after(366.0), 0.0, -1.0, INF, NAN):
        step(pair(days=days), "N 13 0")
    title("# 13: a month's last day and the day after it; month 0 and 13; day 0")
    for month in range(1, 13):
        step(pair(day=(month, DAYS_IN[month - 1])))
        step(pair(day=(month, DAYS_IN[month - 1] + 1)), "N 13 0")
    for day in ((0, 1), (13, 1), (1, 0), (255, 1), (1, 255)):
        step(pair(day=day), "N 13 0")
    title("# 13: cost up to 1e12 either way")
    for cost in (1e12, -1e12):
        step(pair(first=(cost, 0.0, 9.0)))
        pair_listed(0.0, 9.0, cost)
        step(pair(second=(cost, 0.0, 9.0)))
        pair_listed(0.0, 9.0, cost)
    for cost in (after(1e12), after(-1e12), INF, -INF, NAN):
        step(pair(first=(cost, 0.0, 9.0)), "N 13 12")
        step(pair(second=(cost, 0.0, 9.0)), "N 13 46")
    title("# 13: a flow bound that is NaN")
    for low, high in ((NAN, 9.0), (0.0, NAN), (-NAN, NAN)):
        step(pair(first=(0.0, low, high)), "N 13 12")
        step(pair(second=(0.0, low, high)), "N 13 46")
    title("# the volume of what is no storage is not read")
    for volume in (NAN, INF, after(1e12)):
        step(pair(first=(0.0, 1.0, 9.0, volume), second=(0.0, 0.0, 8.0, volume)))
    pair_listed(1.0, 8.0)


def crossed():
    title("# 14: lower 3, upper 3 passes, and 3, 2 does not; the first such node; the store stays as it was")
    build(PAIR)
    step(pair(first=(2.0, 3.0, 3.0)))
    pair_listed(3.0, 3.0, 2.0)
    step(pair(first=(0.0, 3.0, 2.0)), "N 14 0")
    step(pair(second=(0.0, 3.0, 2.0)), "N 14 1")
    step(pair((0.0, 3.0, 2.0), (0.0, 3.0, 2.0)), "N 14 0")
    step(pair(first=(0.0, INF, -INF)), "N 14 0")
    step(pair(second=(0.0, 3.0, before(3.0))), "N 14 1")
    pair_listed(3.0, 3.0, 2.0)
    step(pair(first=(0.0, 0.0, -0.0)))
    title("# the file comes first, left to right")
    step(pair((0.0, 3.0, 2.0), (NAN, 0.0, 9.0)), "N 13 46")
    step(pair((0.0, 3.0, 2.0), more=b"\0"), "N 12 80")
    step(pair((NAN, 0.0, 9.0), day=(0, 1)), "N 13 0")
    step(pair((NAN, 0.0, 9.0)).replace(b"NB", b"NX"), "N 12 12")
    step(pair((NAN, 0.0, 9.0))[:46] + b"XX", "N 13 12")
    step(pair(second=(NAN, 0.0, 9.0), more=b"\0"), "N 13 46")


# ---- a constant input and a varying output


def constant():
    title("# a constant node's min and max are not read: NaN, and lower over upper")
    build(node(INPUT, (0.0, 5.0)) + node(OUTPUT) + edge(0, 1))
    fixed = [(0.0, 5.0, {0: 1.0}, by(NODE, 0))]
    for low, high, upper in ((NAN, NAN, 6.0), (3.0, 2.0, 7.0), (INF, -INF, 8.0)):
        step(date(1, 1, 1.0) + node_step(1.0, low, high, NAN) + node_step(0.0, 2.0, upper))
        listed(1, [1.0], [(2.0, upper, {0: 1.0}, by(NODE, 1))], fixed)
    step(date(1, 1, 1.0) + node_step(NAN, 0.0, 5.0) + node_step(0.0, 2.0, 9.0), "N 13 12")


# ---- an input, a storage and an output in a line


def volumes():
    def file(low, high, volume, days):
        return date(1, 1, days) + node_step(0.0, 0.0, 9.0) + node_step(0.0, low, high, volume) + node_step(0.0, 0.0, 9.0)

    def volumes_listed(low, high):
        rows = [(0.0, 9.0, {0: 1.0}, by(NODE, 0)), (low, high, {0: 1.0, 1: -1.0}, by(NODE, 1)), (0.0, 9.0, {1: 1.0}, by(NODE, 2))]
        listed(2, [0.0, 0.0], rows, [])

    title("# storage of volume 30, range 10 to 100, in 2 days: [-10, 35]; under its range; empty range; rounded quotients; the largest numbers")
    build(node(INPUT) + node(STORAGE) + node(OUTPUT) + edge(0, 1) + edge(1, 2))
    for low, high, volume, days, lower, upper in (
        (10.0, 100.0, 30.0, 2.0, -10.0, 35.0),
        (10.0, 100.0, 5.0, 2.0, 2.5, 47.5),
        (30.0, 30.0, 30.0, 2.0, -0.0, 0.0),
        (0.0, 2.0, 1.0, 3.0, -1 / 3, 1 / 3),
        (-1e12, 1e12, 1e12, 1 / 1024, -2e12 * 1024, 0.0),
    ):
        step(file(low, high, volume, days))
        volumes_listed(lower, upper)
    title("# 14: a storage whose range is crossed; the store stays as it was")
    step(file(40.0, 20.0, 30.0, 2.0), "N 14 1")
    volumes_listed(-2e12 * 1024, 0.0)
    title("# 13: a storage's volumes up to 1e12 either way")
    for low, high, volume in ((-1e12, 1e12, 0.0), (0.0, 1e12, 1e12), (-1e12, 0.0, -1e12)):
        step(file(low, high, volume, 1.0))
    for wrong in (after(1e12), after(-1e12), INF, NAN):
        for three in ((wrong, 100.0, 30.0), (10.0, wrong, 30.0), (10.0, 100.0, wrong)):
            step(file(*three, 1.0), "N 13 46")


# ---- costs


def costs():
    title("# link of cost 3 to storage of cost 4: 5.5, and that storage to that link: -2.5; then no cost, and no trace of yesterday's")
    build(node(INPUT) + node(LINK) + node(STORAGE) + edge(0, 1) + edge(1, 2) + edge(2, 1))

    def file(first, link, storage):
        return date(1, 1, 1.0) + node_step(first, 0.0, 9.0) + node_step(link, 0.0, 9.0) + node_step(storage, 0.0, 6.0, 3.0)

    varying = [(0.0, 9.0, {0: 1.0}, by(NODE, 0)), (0.0, 9.0, {1: 1.0}, by(NODE, 1)), (-3.0, 3.0, {1: 1.0, 2: -1.0}, by(NODE, 2))]
    mass = [(0.0, 0.0, {0: 1.0, 1: -1.0, 2: 1.0}, by(MASS, 1))]
    step(file(7.0, 3.0, 4.0))
    listed(3, [8.5, 5.5, -2.5], varying, mass)
    step(file(0.0, 0.0, 0.0))
    listed(3, [0.0, 0.0, 0.0], varying, mass)
    title("# three edges of one column: their costs add downstream from 0.0, each sum rounded")
    build(node(INPUT) + node(LINK) + node(LINK) + node(OUTPUT) + edge(0, 1) + edge(1, 2) + edge(2, 3))
    bounds = [0.0, 9.0]
    row = (*bounds, {0: 1.0}, by(NODE, 0, 4))
    step(date(1, 1, 1.0) + b"".join(node_step(c, *bounds) for c in (1e12, 0.0001, 0.0, -1e12)))
    listed(1, [((1e12 + 0.00005) + (0.00005 + 0.0)) + (0.0 - 1e12)], [row], [])
    step(date(1, 1, 1.0) + b"".join(node_step(c, *bounds) for c in (0.1, 0.2, 0.4, 0.7)))
    listed(1, [((0.1 + 0.1) + (0.1 + 0.2)) + (0.2 + 0.7)], [row], [])


# ---- virtual storages: always, 11-01 to 02-15, 03-10 to 03-05, 06-01 to 09-30, told apart by their factors


def periods():
    dates = [None, (11, 1, 2, 15), (3, 10, 3, 5), (6, 1, 9, 30)]
    network = PAIR + b"".join(virtual_storage([(0, 2.0**i)], d) for i, d in enumerate(dates))

    def file(day, days=1.0, volumes=(0.0, 10.0, 4.0)):
        return pair(day=day, days=days, more=b"".join(storage_step(*volumes) for _ in dates))

    def periods_listed(active, low=-4.0, high=6.0, sentinel=INF):
        bounds = [(low, high) if on == "1" else (-sentinel, sentinel) for on in active]
        rows = [(*b, {0: -(2.0**i)}, by(VIRTUAL_STORAGE, i)) for i, b in enumerate(bounds)]
        listed(1, [0.0], [(0.0, 9.0, {0: 1.0}, by(NODE, 0, 2)), *rows], [], sentinel)

    title("# periods: 11-01 to 02-15 has 12-31 and 02-15, not 02-16; 03-10 to 03-05 has 03-05, not 03-07; ends are included")
    build(network)
    for day, active in (
        ((12, 31), "1110"),
        ((2, 15), "1110"),
        ((2, 16), "1010"),
        ((3, 5), "1010"),
        ((3, 7), "1000"),
        ((3, 10), "1010"),
        ((5, 31), "1010"),
        ((6, 1), "1011"),
        ((9, 30), "1011"),
        ((10, 1), "1010"),
        ((11, 1), "1110"),
    ):
        step(file(day))
        periods_listed(active)
    title("# volume less min and max less volume are raised to 0: under the range, over it, in a crossed range, at the limits: lower is never over upper, 15 is retired")
    for three, low, high in (
        ((0.0, 10.0, -3.0), -0.0, 6.5),
        ((0.0, 10.0, 12.0), -6.0, 0.0),
        ((10.0, 0.0, 4.0), -0.0, 0.0),
        ((1e12, -1e12, 0.0), -0.0, 0.0),
        ((-1e12, 1e12, 1e12), -1e12, 0.0),
    ):
        step(file((12, 31), 2.0, three))
        periods_listed("1110", low, high)
    title("# an inactive storage with the finite sentinel")
    build(network, finite=True)
    step(file((3, 7)))
    periods_listed("1000", sentinel=LARGEST)
    title("# 13: a virtual storage's volumes, of the first and of the last, active or not")
    build(network)
    for wrong in (after(1e12), after(-1e12), INF, NAN):
        for three in ((wrong, 10.0, 4.0), (0.0, wrong, 4.0), (0.0, 10.0, wrong)):
            step(file((3, 7), volumes=three), "N 13 80")
            last = pair(day=(3, 7), more=storage_step(-1e12, 1e12, 1e12) * 3 + storage_step(*three))
            step(last, "N 13 158")
    title("# two virtual storages of one row: [-4, 6] and [-5, 5] give [-4, 5]")
    build(PAIR + virtual_storage([(0, 1.0)]) * 2)
    step(pair(more=storage_step(0.0, 10.0, 4.0) + storage_step(0.0, 10.0, 5.0)))
    listed(1, [0.0], [(0.0, 9.0, {0: 1.0}, by(NODE, 0, 2)), (-4.0, 5.0, {0: -1.0}, by(VIRTUAL_STORAGE, 0, 2))], [])


# ---- an input; an output that is an exclusive set; an aggregate, whose row is the input's; a virtual storage from 04-01 to 09-30

SMALL = PAIR + aggregate([[1]], (0, 1)) + virtual_storage([(0, 1.0)], (4, 1, 9, 30))
RECORDS = (12, 34, 34, 18, 26)


def small(first=(0.0, 0.0, 9.0), second=(0.0, 0.0, 9.0), group=(0.0, 9.0), volumes=(0.0, 10.0, 4.0), day=(5, 1)):
    return date(*day, 1.0) + node_step(*first) + node_step(*second) + aggregate_step(*group) + storage_step(*volumes)


def small_listed(low, high, lower, upper, cost=0.0, licence=(-4.0, 6.0), sentinel=INF):  # the coefficients are minus `lower`, and `upper`
    output = exclusive_rows({0: 1.0}, 1, (lower, upper), by(NODE, 1), sentinel)
    rows = [(low, high, {0: 1.0}, by(NODE, 0, 2)), *output, (*licence, {0: -1.0}, by(VIRTUAL_STORAGE, 0))]
    listed(1, [cost, 0.0], rows, [(0.0, 1.0, {1: 1.0}, by(EXCLUSIVITY, 0))], sentinel)


def exclusive():
    title("# an exclusive varying node: coefficients 1 and -1, then the upper bound, uncapped, and minus the lower; its rows stay at 0 and the high sentinel")
    build(SMALL)
    small_listed(0.0, INF, 1.0, 1.0, licence=(0.0, INF))
    for lower, upper in ((3.0, 2000000.0), (-5.0, 7.0), (0.0, 0.0)):
        step(small(second=(0.0, lower, upper)))
        small_listed(0.0, 9.0, lower, upper)
    step(small(second=(0.0, 3.0, 2.0)), "N 14 1")
    title("# an aggregate tightens the row that it shares, and is not compared lower to upper")
    for group, low, high in (((2.0, 12.0), 2.0, 9.0), ((5.0, 2.0), 5.0, 2.0), ((-INF, INF), 0.0, 9.0), ((INF, -INF), INF, -INF)):
        step(small(group=group))
        small_listed(low, high, 0.0, 9.0)
    step(small(group=(NAN, 9.0)), "N 13 80")
    step(small(group=(0.0, NAN)), "N 13 80")
    title("# the same with the finite sentinel")
    build(SMALL, finite=True)
    small_listed(0.0, LARGEST, 1.0, 1.0, licence=(0.0, LARGEST), sentinel=LARGEST)
    step(small(second=(0.0, 3.0, 2000000.0), day=(1, 1)))
    small_listed(0.0, 9.0, 3.0, 2000000.0, licence=(-LARGEST, LARGEST), sentinel=LARGEST)


def marks():
    title("# 12: cut one byte before each record's end, at it, and one byte behind; a byte left over; each mark wrong; nothing")
    build(SMALL)
    file = small()
    start = 0
    for size in RECORDS:
        end = start + size
        step(file[: end - 1], "N 12 %d" % start)
        if end < len(file):
            step(file[:end], "N 12 %d" % end)
            step(file[: end + 1], "N 12 %d" % end)
            step(file[:end] + b"\0" + file[end:], "N 12 %d" % end)
        for wrong in (b"XX", file[start : start + 1] + b"X", b"X" + file[start + 1 : start + 2]):
            step(file[:start] + wrong + file[start + 2 :], "N 12 %d" % start)
        start = end
    step(file + b"\0", "N 12 124")
    step(file + file, "N 12 124")
    step(file[:80] + file[98:], "N 12 80")
    step(b"", "N 12 0")
    small_listed(0.0, INF, 1.0, 1.0, licence=(0.0, INF))
    title("# the longest step file: its last records refused, a byte left over, and taken")
    build(node(INPUT) + node(OUTPUT) * 255 + edge(0, 1) + aggregate([[0]]) * 64 + virtual_storage([(0, 1.0)]) * 32)
    nodes, groups, stores = node_step(0.0, 0.0, 9.0), aggregate_step(1.0, 8.0), storage_step(0.0, 10.0, 4.0)
    head = date(12, 31, 366.0) + nodes * 255
    step(head + node_step(0.0, 3.0, 2.0) + groups * 64 + stores * 32, "N 14 255")
    step(head + nodes + groups * 64 + stores * 31 + storage_step(0.0, 10.0, after(1e12)), "N 13 10674")
    step(head + nodes + groups * 64 + stores * 32 + b"\0", "N 12 10700")
    step(head + nodes + groups * 64 + stores * 32)
    rows = [(1.0, 8.0, {0: 1.0}, by(NODE, 0, 66)), (0.0, 9.0, {}, by(NODE, 2, 254)), (-4.0 / 366.0, 6.0 / 366.0, {0: -1.0}, by(VIRTUAL_STORAGE, 0, 32))]
    listed(1, [0.0], rows, [])


def step_lists():
    first = small((2.0, 1.0, 5.0), (0.0, 3.0, 8.0), (2.0, 4.0))
    second = small((-1.5, 0.0, 7.0), (1.0, 1.0, 6.0), (-INF, INF), (0.0, 10.0, 9.0), (7, 31))
    refused = [(first + b"\0", "N 12 124"), (small(second=(NAN, 0.0, 9.0)), "N 13 46"), (small((5.0, 4.0, 3.0)), "N 14 0")]

    def second_listed():
        small_listed(0.0, 7.0, 1.0, 6.0, -0.5, (-9.0, 1.0))

    title("# two steps with refused ones before, between and behind them: the programme is the first's, and then the second's")
    build(SMALL)
    for file in refused:
        step(*file)
    step(first)
    for file in refused:
        step(*file)
    small_listed(2.0, 4.0, 3.0, 8.0, 2.0)
    step(second)
    for file in refused:
        step(*file)
    second_listed()
    title("# the same two alone, and the second alone")
    build(SMALL)
    step(first)
    step(second)
    second_listed()
    build(SMALL)
    step(second)
    second_listed()


# ---- the calling program's refusals, on the store of SMALL


def short_runs():
    title("# 16: each run one short, the store's nine and the work run; before 17 and before the file; nothing is written")
    build(SMALL)
    step(small())
    for k in range(10):
        step(small(first=(1.0, 1.0, 2.0)), "N 16 0", short=k)
    small_listed(0.0, 9.0, 0.0, 9.0)
    change("shape", 0, 0, 2)
    for k in range(10):
        step(b"", "N 16 0", short=k)
    step(b"", "N 17 0")


def misshapen():
    def changed(run, at, old, new, file=small(), answer="N 17 0"):
        change(run, at, old, new)
        step(file, answer)
        change(run, at, new, old)

    title("# 17: the kept sentinel is the other, and neither")
    build(SMALL)
    step(small())
    changed("shape", 0, 0, 1, answer="A")
    changed("shape", 0, 0, 2)
    changed("shape", 0, 0, 65535)
    title("# 17: counts at their ceilings and over: nodes, edges, sets, node rows, aggregates, virtual storages")
    nodes, groups, stores = node_step(0.0, 0.0, 9.0), aggregate_step(0.0, 9.0), storage_step(0.0, 10.0, 4.0)

    def counted(n=2, g=1, v=1):
        return date(5, 1, 1.0) + nodes * n + groups * g + stores * v

    changed("shape", 1, 2, 256, counted(n=256), "A")
    changed("shape", 1, 2, 257, counted(n=257))
    changed("shape", 2, 1, 512, answer="A")
    changed("shape", 2, 1, 513)
    changed("shape", 4, 1, 128, answer="A")
    changed("shape", 4, 1, 129)
    changed("shape", 8, 3, 4352, answer="A")
    changed("shape", 8, 3, 4353)
    changed("shape", 9, 1, 64, counted(g=64), "A")
    changed("shape", 9, 1, 65, counted(g=65))
    changed("shape", 10, 1, 32, counted(v=32), "A")
    changed("shape", 10, 1, 33, counted(v=33))
    title("# 17: edge columns at their ceiling, with the set's column behind them, and over")
    for count, answer in ((512, "A"), (513, "N 17 0")):
        for at in (2, 4, 6):
            change("column", at, 1, count)
        changed("shape", 3, 1, count, answer=answer)
        for at in (2, 4, 6):
            change("column", at, count, 1)
    title("# 17: too many rows and elements")
    for at, old, new in ((5, 4, 1024), (6, 1, 1021), (6, 1, 65535), (7, 7, 4097)):
        changed("shape", at, old, new)
    title("# 17: row starts not from 0, falling, not ending at the element count")
    for at, old, new in ((0, 0, 1), (1, 1, 4), (2, 3, 0), (5, 7, 6), (5, 7, 8)):
        changed("start", at, old, new)
    changed("shape", 7, 7, 6)
    changed("shape", 7, 7, 8)
    changed("shape", 6, 1, 0)
    title("# 17: columns out of range, and not rising in a row; what stands behind the last row is not read")
    for at, old, new in ((0, 0, 2), (2, 1, 2), (1, 0, 1), (6, 1, 65535)):
        changed("column", at, old, new)
    changed("column", 7, 0, 65535, answer="A")
    title("# 17: a kind; a flag; an edge's nodes and column; a node row's node, row, type and set; an aggregate's row; a virtual storage's row and flag")
    for at, old, new in (
        (11, 0, 4),
        (12, 0, 2),
        (523, 0, 2),
        (524, 1, 2),
        (525, 0, 1),
        (2059, 0, 2),
        (2060, 0, 4),
        (2061, 0, 3),
        (2066, 0, 1),
        (19467, 0, 4),
        (19531, 3, 4),
        (19532, 1, 2),
    ):
        changed("shape", at, old, new)
    changed("shape", 2062, 0, 1, answer="A")  # the set of a row without a set is not read
    title("# 17: an integer column absent from its row")
    changed("shape", 2064, 1, 0)
    title("# 17 before the file; the store as it was built takes a step")
    changed("shape", 11, 0, 4, b"")
    step(small((2.0, 1.0, 5.0)))
    small_listed(1.0, 5.0, 0.0, 9.0, 2.0)


def steps():
    title("# steps: each refusal, each limit, short runs, misshapen stores")
    clear()
    misshapen()  # first, since behind each table of SMALL it counts on the zeros of a store that has held nothing else
    for part in (short_runs, marks, values, crossed, intervals, constant, volumes, costs, periods, exclusive, step_lists):
        part()
