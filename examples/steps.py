# Step files as document 01 has them: their records, a reader by rules 12 to 14 and 21, and the text of a programme. Used by year.py, pumps.py, returns.py
# and for the cases of crates/test_cases.
import math
import struct

from make import LINK, STORAGE, ask

LARGEST = struct.unpack("<d", struct.pack("<Q", 0x7FEFFFFFFFFFFFFF))[0]
DAYS_IN = (31, 29, 31, 30, 31, 30, 31, 31, 30, 31, 30, 31)  # 02-29 always exists


def date(month, day, days):
    return b"ST" + struct.pack("<BBd", month, day, days)


def node_step(cost=0.0, low=0.0, high=0.0, volume=0.0):
    return b"NB" + struct.pack("<dddd", cost, low, high, volume)


def aggregate_step(low, high):
    return b"GB" + struct.pack("<dd", low, high)


def storage_step(low, high, volume):
    return b"VB" + struct.pack("<ddd", low, high, volume)


def is_small(x):  # costs and volumes
    return abs(x) <= 1e12


def is_number(x):  # flow bounds
    return x == x


def storage_interval(low, high, volume, days):
    return -(volume - low) / days, (high - volume) / days


def virtual_interval(low, high, volume, days):
    return -max(volume - low, 0.0) / days, max(high - volume, 0.0) / days


def is_active(period, day):  # pairs of month and day, ends included
    start, end = period
    return start <= day <= end if start <= end else start <= day or day <= end


def tightened(held, by):  # larger lower, smaller upper
    return max(held[0], by[0]), min(held[1], by[1])


def exclusive_rows(row, column, interval, maker, high=math.inf):
    # a varying node's upper and lower row for a set's column, with the interval whose bounds stand; (1.0, 1.0) gives a fresh build's
    least, most = interval
    upper = {**{c: -x for c, x in row.items()}, column: most}
    lower = {**row, column: -least}
    return [(0.0, high, elements, maker) for elements in (upper, lower)]


def read_step(nodes, aggregates, storages, data, exclusive=()):
    # (kind, constant) of each node, the other counts and a file, the nodes that exclusive sets list: the file's date, days, and the fields of its
    # records, or Refused(number, place) under the infinite sentinel.
    # 15 is retired: minus a number that is at least 0, over days, is not over one that is at least 0, over days
    at = place = 0

    def mark(letters):
        nonlocal at, place
        place = at
        ask(data[at : at + 2] == letters, 12, place)
        at += 2

    def field(form, fits=lambda x: True):
        nonlocal at
        ask(at + struct.calcsize(form) <= len(data), 12, place)
        (x,) = struct.unpack_from(form, data, at)
        at += struct.calcsize(form)
        ask(fits(x), 13, place)
        return x

    mark(b"ST")
    month = field("B", lambda x: 1 <= x <= 12)
    day = field("B", lambda x: 1 <= x <= DAYS_IN[month - 1])
    days = field("<d", lambda x: 1 / 1024 <= x <= 366)
    records = [], [], []
    for kind, constant in nodes:
        mark(b"NB")
        bound = (lambda x: True) if constant else is_small if kind == STORAGE else is_number
        volume = is_small if kind == STORAGE else lambda x: True
        records[0].append((field("<d", is_small), field("<d", bound), field("<d", bound), field("<d", volume)))
    for _ in range(aggregates):
        mark(b"GB")
        records[1].append((field("<d", is_number), field("<d", is_number)))
    for _ in range(storages):
        mark(b"VB")
        records[2].append((field("<d", is_small), field("<d", is_small), field("<d", is_small)))
    ask(at == len(data), 12, at)
    for n, ((kind, constant), (_, low, high, volume)) in enumerate(zip(nodes, records[0])):
        low, high = storage_interval(low, high, volume, days) if kind == STORAGE else (low, high)
        ask(constant or low <= high, 14, n)
        ask(constant or n not in exclusive or math.isfinite(low) and math.isfinite(high), 21, n)
    return ((month, day), days, *records)


def edge_cost(kinds, costs, start, end):
    out = costs[start] / 2 if kinds[start] == LINK else -costs[start] if kinds[start] == STORAGE else costs[start]
    into = costs[end] / 2 if kinds[end] == LINK else costs[end]
    return out + into


def downstream(kinds, ends):  # the numbers of the edges (from, to) in flow order: the paths from their first edges, then closed rings from their lowest
    after = {}  # of an edge that enters a link with one edge in and one out, the edge that leaves it
    for n, kind in enumerate(kinds):
        into, out = ([e for e, edge in enumerate(ends) if edge[k] == n] for k in (1, 0))
        if kind == LINK and len(into) == len(out) == 1:
            after[into[0]] = out[0]
    order = []
    for edge in [e for e in range(len(ends)) if e not in after.values()] + list(range(len(ends))):
        while edge is not None and edge not in order:
            order.append(edge)
            edge = after.get(edge)
    return order


def column_costs(kinds, edges, costs):  # edges: (from, to, column); added downstream from 0.0
    sums = [0.0] * (1 + max(column for _, _, column in edges))
    for e in downstream(kinds, [edge[:2] for edge in edges]):
        start, end, column = edges[e]
        sums[column] += edge_cost(kinds, costs, start, end)
    return sums


def bits(x):
    return struct.pack(">d", x).hex()


MASS, NODE, AGGREGATE, VIRTUAL_STORAGE, EXCLUSIVITY = range(5)  # who makes rows


def by(kind, index, shared_by=1):  # a row's first maker, and how many makers share the row
    return kind, index, shared_by


def row_text(number, varying, low, high, elements, maker):  # elements: the value by column
    lines = ["R %d %d %s %s %d %d %d %d" % (number, varying, bits(low), bits(high), len(elements), *maker)]
    return lines + ["E %d %s" % (column, bits(x)) for column, x in sorted(elements.items())]


def programme_text(edge_columns, costs, varying, fixed, high=math.inf):
    # a cost for each column, the edge columns first; a row is lower, upper, elements and maker
    rows = [(1, *row) for row in varying] + [(0, *row) for row in fixed]
    lines = ["P %d %d %d %d" % (len(costs), len(rows), len(varying), sum(len(row[3]) for row in rows))]
    for column, cost in enumerate(costs):
        kind, upper = ("c", high) if column < edge_columns else ("i", 1.0)
        lines.append("C %d %s %s %s %s" % (column, kind, bits(0.0), bits(upper), bits(cost)))
    for number, row in enumerate(rows):
        lines += row_text(number, *row)
    return lines
