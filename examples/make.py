#!/usr/bin/env python3
# Writes the example network files beside this script (flows in Ml/d).
#   make.py           writes worked.network, supply.network, returns.network, intake.network, pumps.network, a chain keyed in two orders,
#                     chain_downstream.network and chain_by_age.network, and refused/ with slips in intake.network
#   make.py --dump    prints the records of the first seven in hexadecimal, each with what it is
#   make.py --check   reads the written files by the rules and says what they hold, or how they are refused
import itertools
import math
import pathlib
import struct
import sys

INPUT, OUTPUT, LINK, STORAGE = 0, 1, 2, 3
MARKS = (b"ND", b"ED", b"AG", b"VS")
MOST = (256, 512, 64, 32)


def node(kind, bounds=None):  # bounds: (min, max) of a constant node, nothing of a varying one
    low, high = bounds or (0.0, 0.0)
    return b"ND" + struct.pack("<BBdd", kind, bounds is not None, low, high)


def edge(start, end):
    return b"ED" + struct.pack("<HH", start, end)


def aggregate(sets, active=None):  # active: (min_active, max_active) of an exclusive aggregate, nothing of a plain one
    least, most = active or (0, 0)
    head = b"AG" + struct.pack("<BBII", active is not None, len(sets), least, most)
    return head + b"".join(struct.pack("<B%dH" % len(s), len(s), *s) for s in sets)


def virtual_storage(parts, period=None):  # parts: (node, factor); period: start month, start day, end month, end day
    head = b"VS" + struct.pack("<BBBBBB", period is not None, *(period or (0, 0, 0, 0)), len(parts))
    return head + b"".join(struct.pack("<Hd", n, factor) for n, factor in parts)


# each record with what it is
WORKED = [
    ("node 0, an input whose bounds vary", node(INPUT)),
    ("node 1, an output, 0 to 48.5", node(OUTPUT, (0.0, 48.5))),
    ("edge 0, input to output", edge(0, 1)),
]
SUPPLY = [
    ("node 0, river intake, varying: its licence", node(INPUT)),
    ("node 1, main, varying", node(LINK)),
    ("node 2, reservoir", node(STORAGE)),
    ("node 3, town demand, 0 to 30", node(OUTPUT, (0.0, 30.0))),
    ("edge 0, intake to main", edge(0, 1)),
    ("edge 1, main to reservoir", edge(1, 2)),
    ("edge 2, reservoir to town", edge(2, 3)),
]
RETURNS = [
    ("node 0, river intake, 0 to 120", node(INPUT, (0.0, 120.0))),
    ("node 1, paper mill, 0 to 120", node(LINK, (0.0, 120.0))),
    ("node 2, return to the river", node(OUTPUT, (0.0, math.inf))),
    ("node 3, water in the product, 0 to 30", node(OUTPUT, (0.0, 30.0))),
    ("edge 0, intake to mill", edge(0, 1)),
    ("edge 1, mill to return", edge(1, 2)),
    ("edge 2, mill to product", edge(1, 3)),
    ("virtual storage 0, a licence: a litre taken counts 1, a litre returned -0.75", virtual_storage([(0, 1.0), (2, -0.75)])),
]
INTAKE = [
    ("node 0, river intake, licensed at 48.5", node(INPUT, (0.0, 48.5))),
    ("node 1, catchment inflow, varying", node(INPUT)),
    ("node 2, reservoir", node(STORAGE)),
    ("node 3, pump 1, 0 to 30", node(LINK, (0.0, 30.0))),
    ("node 4, pump 2, 4 to 20 when on", node(LINK, (4.0, 20.0))),
    ("node 5, raw water main, 0 to 45", node(LINK, (0.0, 45.0))),
    ("node 6, aqueduct, 0 to 25", node(LINK, (0.0, 25.0))),
    ("node 7, treatment works, varying", node(LINK)),
    ("node 8, trunk main, 0 to 60", node(LINK, (0.0, 60.0))),
    ("node 9, service reservoir", node(STORAGE)),
    ("node 10, town demand, varying", node(OUTPUT)),
    ("node 11, industrial demand, 0 to 12", node(OUTPUT, (0.0, 12.0))),
    ("node 12, compensation flow and spill, at least 2", node(OUTPUT, (2.0, math.inf))),
    ("edge 0, intake to pump 1", edge(0, 3)),
    ("edge 1, intake to pump 2", edge(0, 4)),
    ("edge 2, pump 1 to raw water main", edge(3, 5)),
    ("edge 3, pump 2 to raw water main", edge(4, 5)),
    ("edge 4, raw water main to treatment works", edge(5, 7)),
    ("edge 5, catchment inflow to reservoir", edge(1, 2)),
    ("edge 6, reservoir to aqueduct", edge(2, 6)),
    ("edge 7, aqueduct to treatment works", edge(6, 7)),
    ("edge 8, reservoir to compensation flow and spill", edge(2, 12)),
    ("edge 9, treatment works to trunk main", edge(7, 8)),
    ("edge 10, trunk main to service reservoir", edge(8, 9)),
    ("edge 11, service reservoir to town demand", edge(9, 10)),
    ("edge 12, service reservoir to industrial demand", edge(9, 11)),
    ("aggregate 0, at most one of the pumps", aggregate([[3], [4]], active=(0, 1))),
    ("aggregate 1, all raw water: main and aqueduct", aggregate([[5], [6]])),
    ("virtual storage 0, annual licence from 04-01 to 03-31 on the intake", virtual_storage([(0, 1.0)], (4, 1, 3, 31))),
    ("virtual storage 1, summer licence from 06-01 to 09-30 on the intake", virtual_storage([(0, 1.0)], (6, 1, 9, 30))),
]
# intake.network with pumps whose limits each step brings
PUMPS = INTAKE[:3] + [("node 3, pump 1, varying", node(LINK)), ("node 4, pump 2, varying", node(LINK))] + INTAKE[5:]
# one chain, its pipes keyed downstream and in the order in which they were laid
CHAIN_NODES = [
    ("node 0, spring, varying", node(INPUT)),
    ("node 1, collecting main, 0 to 25", node(LINK, (0.0, 25.0))),
    ("node 2, treatment works, 0 to 20", node(LINK, (0.0, 20.0))),
    ("node 3, trunk main, 0 to 30", node(LINK, (0.0, 30.0))),
    ("node 4, village, varying", node(OUTPUT)),
]
CHAIN_PIPES = [
    ("spring to collecting main", edge(0, 1)),
    ("collecting main to treatment works", edge(1, 2)),
    ("treatment works to trunk main", edge(2, 3)),
    ("trunk main to village", edge(3, 4)),
]


def keyed(*order):
    return CHAIN_NODES + [("edge %d, %s" % (number, CHAIN_PIPES[k][0]), CHAIN_PIPES[k][1]) for number, k in enumerate(order)]


# intake.network with one edge keyed wrongly: its number, its record, and the number of the refusal
SLIPS = {
    "into_input": (5, edge(2, 1), 5),  # catchment inflow to reservoir, turned round
    "out_of_output": (11, edge(10, 9), 5),  # service reservoir to town demand, turned round
    "to_itself": (2, edge(3, 3), 19),  # pump 1 to the raw water main
    "repeated_pair": (1, edge(0, 3), 20),  # intake to pump 2
}


def keyed_wrongly(number, wrong):  # the file with this record for edge `number`, and where the record's `from` field stands
    records = [record for _, record in INTAKE]
    at = [what.startswith("edge %d," % number) for what, _ in INTAKE].index(True)
    before = b"".join(records[:at])
    return before + wrong + b"".join(records[at + 1 :]), len(before) + 2


class Refused(Exception):
    pass


def ask(ok, number, place):
    if not ok:
        raise Refused(number, place)


def read(data):  # what a network file holds, or Refused(number, place) for 1 to 10, 19 and 20; 11 is the build's
    nodes, edges, aggregates, storages = found = [], [], [], []
    at = place = stage = 0  # the next byte, the record's first byte, the rank of the record before

    def field(form, fits, number=3):
        nonlocal at
        ask(at + struct.calcsize(form) <= len(data), 1, place)
        (x,) = struct.unpack_from(form, data, at)
        at += struct.calcsize(form)
        ask(fits(x), number, place)
        return x

    def index():
        return field("<H", lambda x: x < len(nodes), 4)

    while at < len(data):
        place = at
        rank = MARKS.index(field("2s", lambda x: x in MARKS[stage:], 2))
        ask(len(found[rank]) < MOST[rank], 6, place)
        stage = rank
        if MARKS[rank] == b"ND":
            kind = field("B", lambda x: x <= 3)
            constant = field("B", lambda x: x <= (0 if kind == STORAGE else 1))
            form, fits = ("<d", lambda x: x == x) if constant else ("<Q", lambda x: x == 0)
            nodes.append((kind, field(form, fits), field(form, fits)))
        elif MARKS[rank] == b"ED":
            from_field = at
            start, end = index(), index()
            ask(nodes[end][0] != INPUT and nodes[start][0] != OUTPUT, 5, from_field)
            ask(start != end, 19, from_field)
            ask((start, end) not in edges, 20, from_field)
            edges.append((start, end))
        elif MARKS[rank] == b"AG":
            exclusive = field("B", lambda x: x <= 1)
            count = field("B", lambda x: 1 <= x <= 16)
            least = field("<I", lambda x: exclusive or x == 0)
            field("<I", lambda x: least <= x and (exclusive or x == 0))
            listed = [index() for _ in range(count) for _ in range(field("B", lambda x: 1 <= x <= 16))]
            aggregates.append(listed if exclusive else [])
        else:
            period = field("B", lambda x: x <= 1)
            for last in (12, 31, 12, 31):
                field("B", lambda x: 1 <= x <= last if period else x == 0)
            count = field("B", lambda x: 1 <= x <= 64)
            storages.append([(index(), field("<d", lambda x: abs(x) <= 1e12)) for _ in range(count)])
    ask(edges, 7, 0)
    for n, (kind, low, high) in enumerate(nodes):
        ask(kind != LINK or n in [e for s, e in edges] and n in [s for s, e in edges], 8, n)
    for n, (kind, low, high) in enumerate(nodes):
        ask(low <= high, 9, n)
        ask(not any(n in a for a in aggregates) or (low < math.inf and high > -math.inf), 10, n)
    return found


def answer(data):
    try:
        return tuple(len(x) for x in read(data))
    except Refused as refused:
        return refused.args


def check(name, records, data):
    assert data == b"".join(record for _, record in records), name + " is not what this script writes"
    starts = [0, *itertools.accumulate(len(record) for _, record in records)]
    for start, end in zip(starts, starts[1:]):  # cut inside a record, the file is refused with 1 there
        assert all(answer(data[:cut]) == (1, start) for cut in range(start + 1, end))
    assert len(answer(data)) == 4, answer(data)
    counts = "nodes %d, edges %d, aggregates %d, virtual storages %d" % answer(data)
    print("%s: %d bytes; %s" % (name, len(data), counts))


def print_records(records):  # in hexadecimal, each with its offset and what it is
    at = 0
    for what, record in records:
        print("# %d: %s\n%s" % (at, what, record.hex(" ")))
        at += len(record)


here = pathlib.Path(__file__).resolve().parent
NETWORKS = {"worked": WORKED, "supply": SUPPLY, "returns": RETURNS, "intake": INTAKE, "pumps": PUMPS}
NETWORKS |= {"chain_downstream": keyed(0, 1, 2, 3), "chain_by_age": keyed(1, 3, 2, 0)}
if __name__ == "__main__":
    for name, records in NETWORKS.items():
        name += ".network"
        if "--dump" in sys.argv:
            print("# " + name)
            print_records(records)
        elif "--check" in sys.argv:
            check(name, records, (here / name).read_bytes())
        else:
            (here / name).write_bytes(b"".join(record for _, record in records))
    for name, (number, wrong, refusal) in SLIPS.items():
        data, from_field = keyed_wrongly(number, wrong)
        path = here / "refused" / (name + ".network")
        if "--check" in sys.argv:
            assert path.read_bytes() == data, name + " is not what this script writes"
            assert answer(data) == (refusal, from_field), answer(data)
            print("refused/%s: %d bytes; refused with %d at %d" % (path.name, len(data), refusal, from_field))
        elif "--dump" not in sys.argv:
            path.parent.mkdir(exist_ok=True)
            path.write_bytes(data)
