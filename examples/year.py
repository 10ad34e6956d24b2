#!/usr/bin/env python3
# Writes the example year: twelve monthly step files for intake.network (flows in Ml/d, volumes in Ml).
#   year.py           writes year/01.step .. year/12.step
#   year.py --dump    prints the records in hexadecimal, each with what it is
#   year.py --check   reads the written files by rules 12 to 14 and 21 and says what they hold
import itertools
import math
import sys

from make import INTAKE, Refused, here, print_records, read
from steps import AGGREGATE, EXCLUSIVITY, MASS, NODE, VIRTUAL_STORAGE
from steps import aggregate_step, by, column_costs, date, is_active, node_step, programme_text, read_step, storage_interval, storage_step
from steps import tightened, virtual_interval

NAMES = ["river intake", "catchment inflow", "reservoir", "pump 1", "pump 2", "raw water main", "aqueduct", "treatment works"]
NAMES += ["trunk main", "service reservoir", "town demand", "industrial demand", "compensation flow and spill"]
COSTS = [0.0, 0.0, 0.5, 3.0, 4.5, 0.0, 1.0, 6.0, 0.0, 0.25, -100.0, -60.0, 0.0]
WINTER = {3: 5.0, 4: 6.5}  # a unit of power costs the pumps more from November to February
NO_LIMIT = math.inf

# days, inflow, reservoir, service reservoir, least and most of the works, of the town, what the pumps may take, left of the annual and of the summer licence
YEAR = [
    (31, 78.0, 3700.0, 62.0, (0.0, 55.0), (22.0, 31.0), NO_LIMIT, 1900.0, 1200.0),
    (28, 64.5, 3850.0, 60.0, (0.0, 55.0), (22.0, 31.0), NO_LIMIT, 1260.0, 1200.0),
    (31, 52.0, 3900.0, 58.0, (0.0, 30.0), (22.0, 30.5), NO_LIMIT, 930.0, 1200.0),
    (30, 38.0, 3800.0, 61.0, (0.0, 55.0), (21.0, 30.0), NO_LIMIT, 9000.0, 1200.0),
    (31, 27.5, 3600.0, 60.0, (0.0, 55.0), (22.0, 32.5), NO_LIMIT, 8400.0, 1200.0),
    (30, 16.0, 3200.0, 55.0, (0.0, 55.0), (24.0, 36.0), NO_LIMIT, 7750.0, 1200.0),
    (31, 9.5, 2700.0, 48.0, (12.0, 55.0), (26.0, 38.0), 25.0, 7000.0, 930.0),
    (31, 4.0, 2200.0, 44.0, (12.0, 55.0), (26.0, 24.0), 18.0, 6100.0, 620.0),
    (30, 12.0, 1850.0, 46.0, (12.0, 55.0), (24.0, 33.0), 25.0, 5250.0, 600.0),
    (31, 41.0, 1900.0, 55.0, (0.0, 55.0), (22.0, 31.0), NO_LIMIT, 4600.0, 1200.0),
    (30, 69.0, 2500.0, 60.0, (0.0, 55.0), (22.0, 31.0), NO_LIMIT, 4050.0, 1200.0),
    (31, 82.0, 3200.0, 62.0, (0.0, 55.0), (22.0, 32.0), NO_LIMIT, 3550.0, 1200.0),
]


def costs(month):
    return [WINTER[n] if n in WINTER and month in (11, 12, 1, 2) else cost for n, cost in enumerate(COSTS)]


def records(month, limits={}):  # each record with what it is; limits: lower and upper of pumps that vary, by node
    days, inflow, reservoir, service, works, town, pumps, annual, summer = YEAR[month - 1]
    varying = {1: (inflow, inflow, 0.0), 2: (500.0, 4000.0, reservoir), 7: (*works, 0.0), 9: (20.0, 80.0, service), 10: (*town, 0.0)}
    varying.update({n: (*pair, 0.0) for n, pair in limits.items()})
    yield "%02d-01, %d days" % (month, days), date(month, 1, float(days))
    for n, cost in enumerate(costs(month)):
        yield "node %d, %s" % (n, NAMES[n]), node_step(cost, *varying.get(n, ()))
    yield "aggregate 0, the pumps", aggregate_step(0.0, pumps)
    yield "aggregate 1, all raw water", aggregate_step(10.0, 60.0)
    yield "virtual storage 0, left of the annual licence", storage_step(0.0, 9000.0, annual)
    yield "virtual storage 1, left of the summer licence", storage_step(0.0, 1200.0, summer)


def step_file(month, make_records=records):
    return b"".join(record for _, record in make_records(month))


# The programme of intake.network: the column of each edge, the varying rows' elements, the fixed rows, who made the rows
EDGE_COLUMNS = [0, 1, 0, 1, 2, 3, 4, 4, 5, 6, 6, 7, 8]
VARYING = [{3: 1.0}, {3: 1.0, 4: -1.0, 5: -1.0}, {6: 1.0}, {6: 1.0, 7: -1.0, 8: -1.0}, {7: 1.0}]  # nodes 1, 2, 7, 9, 10
VARYING += [{0: 1.0, 1: 1.0}, {2: 1.0, 4: 1.0}, {0: -1.0, 1: -1.0}]  # the aggregates, and both virtual storages
FIXED = [(0.0, 0.0, {0: 1.0, 1: 1.0, 2: -1.0}), (0.0, 0.0, {2: 1.0, 4: 1.0, 6: -1.0})]  # mass of the raw water main, of the works
FIXED += [(0.0, 48.5, {0: 1.0, 1: 1.0}), (0.0, NO_LIMIT, {0: -1.0, 9: 30.0})]  # intake, pump 1
FIXED += [(0.0, NO_LIMIT, {1: -1.0, 10: 20.0}), (0.0, NO_LIMIT, {1: 1.0, 10: -4.0})]  # pump 2
FIXED += [(0.0, 45.0, {2: 1.0}), (0.0, 25.0, {4: 1.0}), (0.0, 60.0, {6: 1.0}), (0.0, 12.0, {8: 1.0}), (2.0, NO_LIMIT, {5: 1.0})]
FIXED += [(0.0, 1.0, {9: 1.0, 10: 1.0})]  # at most one pump
MAKERS = [by(NODE, n) for n in (1, 2, 7, 9, 10)] + [by(AGGREGATE, 0), by(AGGREGATE, 1), by(VIRTUAL_STORAGE, 0, 2)]
MAKERS += [by(MASS, 5), by(MASS, 7)] + [by(NODE, n) for n in (0, 3, 4, 4, 5, 6, 8, 11, 12)] + [by(EXCLUSIVITY, 0)]
PERIODS = [((4, 1), (3, 31)), ((6, 1), (9, 30))]
NETWORK = read(b"".join(record for _, record in INTAKE))
KINDS = [kind for kind, _, _ in NETWORK[0]]
VARYING_NODES = 1, 2, 7, 9, 10
EXCLUSIVE = [n for listed in NETWORK[2] for n in listed]


def read_month(data, varying=VARYING_NODES):
    nodes = [(kind, n not in varying) for n, kind in enumerate(KINDS)]
    return read_step(nodes, 2, 2, data, EXCLUSIVE)


def rows(step):  # the varying and the fixed rows after an accepted step
    day, days, nodes, aggregates, storages = step
    pair = [n[1:3] for n in nodes]
    bounds = [pair[1], storage_interval(*nodes[2][1:], days), pair[7], storage_interval(*nodes[9][1:], days), pair[10], *aggregates]
    licence = -math.inf, math.inf
    for period, volumes in zip(PERIODS, storages):
        if is_active(period, day):
            licence = tightened(licence, virtual_interval(*volumes, days))
    varying = [(*b, row, maker) for b, row, maker in zip([*bounds, licence], VARYING, MAKERS)]
    return varying, [(*row, maker) for row, maker in zip(FIXED, MAKERS[len(VARYING) :])]


def programme(step, make_rows=rows):  # the text after an accepted step
    edges = [(*edge, column) for edge, column in zip(NETWORK[1], EDGE_COLUMNS)]
    edge_costs = column_costs(KINDS, edges, [n[0] for n in step[2]])
    return programme_text(9, [*edge_costs, 0.0, 0.0], *make_rows(step))


def answer(data, varying=VARYING_NODES, make_rows=rows):
    try:
        return programme(read_month(data, varying), make_rows)
    except Refused as refused:
        return ["N %d %d" % refused.args]


def listing(make_records=records, find_answer=answer):  # what the stepper writes of the twelve files
    return [line for month in range(1, 13) for line in ["S %d" % (month - 1), *find_answer(step_file(month, make_records))]]


def check(month, data, make_records=records, find_answer=answer):
    name = "%02d.step" % month
    assert data == step_file(month, make_records), name + " is not what this script writes"
    starts = [0, *itertools.accumulate(len(record) for _, record in make_records(month))]
    for start, end in zip(starts, starts[1:]):  # cut inside a record, the file is refused with 12 there
        assert all(find_answer(data[:cut]) == ["N 12 %d" % start] for cut in range(start, end))
    assert find_answer(data + b"\0") == ["N 12 %d" % len(data)]  # and with a byte left over
    lines = find_answer(data)
    print("%s: %d bytes; %s" % (name, len(data), "accepted" if len(lines) > 1 else "refused, " + lines[0]))


def dump(make_records=records):
    for month in range(1, 13):
        print("# %02d.step" % month)
        print_records(make_records(month))


def write(folder, make_records=records):
    folder.mkdir(parents=True, exist_ok=True)
    for month in range(1, 13):
        (folder / ("%02d.step" % month)).write_bytes(step_file(month, make_records))


if __name__ == "__main__":
    if "--dump" in sys.argv:
        dump()
    elif "--check" in sys.argv:
        for month in range(1, 13):
            check(month, (here / "year" / ("%02d.step" % month)).read_bytes())
    else:
        write(here / "year")
