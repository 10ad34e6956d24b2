#!/usr/bin/env python3
# What a chain costs, added as a reviewer reads it, from source to sink: a step for chain_downstream.network and chain_by_age.network, which are one chain keyed
# in two orders.
#   chain.py            writes chain.step, and chain.listing with what the stepper writes of it on either network
#   chain.py --dump     prints the step's records in hexadecimal, each with what it is
#   chain.py --check    reads the written step by rules 12 to 14 and 21
#   chain.py --costs    prints the pipes downstream with what each costs and the sum so far, then the sum in the order in which each person keyed them
import sys

from make import CHAIN_PIPES, LINK, NETWORKS, here, print_records, read
from steps import NODE, bits, by, column_costs, date, downstream, edge_cost, node_step, programme_text, read_step

STEP = [
    ("06-01, 1 day", date(6, 1, 1.0)),
    ("node 0, spring: 0.1 a unit, at most 18", node_step(0.1, 0.0, 18.0)),
    ("node 1, collecting main: 0.2", node_step(0.2)),
    ("node 2, treatment works: 0.3", node_step(0.3)),
    ("node 3, trunk main: 0.4", node_step(0.4)),
    ("node 4, village: 0.5, at least 5", node_step(0.5, 5.0, 12.0)),
]
KEYED = {name: read(b"".join(record for _, record in NETWORKS[name])) for name in ("chain_downstream", "chain_by_age")}
NODES = KEYED["chain_downstream"][0]
KINDS = [kind for kind, _, _ in NODES]  # the links are the constant nodes


def step_file():
    return b"".join(record for _, record in STEP)


def costs_in(data):
    return [node[0] for node in read_step([(kind, kind == LINK) for kind in KINDS], 0, 0, data)[2]]


def programme(data, name):  # the text after the step: one column, the row that spring and village share, the constant nodes' rows
    ends = KEYED[name][1]
    costs = column_costs(KINDS, [(*edge, 0) for edge in ends], costs_in(data))
    fixed = [(low, high, {0: 1.0}, by(NODE, n)) for n, (kind, low, high) in enumerate(NODES) if kind == LINK]
    return programme_text(1, costs, [(5.0, 12.0, {0: 1.0}, by(NODE, 0, 2))], fixed)


def print_costs(data):
    costs, ends = costs_in(data), KEYED["chain_by_age"][1]
    names = [what for what, _ in CHAIN_PIPES]  # of pipe k, which leaves node k
    total = 0.0
    for e in downstream(KINDS, ends):
        cost = edge_cost(KINDS, costs, *ends[e])
        total += cost
        print("%s: %s, together %s" % (names[ends[e][0]], cost, total))
    print("the column: %s, %s" % (total, bits(total)))
    for name, (_, keyed, _, _) in KEYED.items():
        total = 0.0
        for edge in keyed:
            total += edge_cost(KINDS, costs, *edge)
        print("as %s has them: %s, %s" % (name, total, bits(total)))


if __name__ == "__main__":
    if "--dump" in sys.argv:
        print_records(STEP)
    elif "--check" in sys.argv:
        data = (here / "chain.step").read_bytes()
        assert data == step_file(), "chain.step is not what this script writes"
        for name in KEYED:
            assert (here / "chain.listing").read_text().splitlines() == ["S 0", *programme(data, name)], "chain.listing is not what this script writes"
        print("chain.step: %d bytes; accepted" % len(data))
    elif "--costs" in sys.argv:
        print_costs((here / "chain.step").read_bytes())
    else:
        (here / "chain.step").write_bytes(step_file())
        (here / "chain.listing").write_text("".join(line + "\n" for line in ["S 0", *programme(step_file(), "chain_by_age")]))
