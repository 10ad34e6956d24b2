#!/usr/bin/env python3
# A licence that counts a returned litre as three quarters: a step of one day for returns.network, and plans on the licence's bound and beside it (Ml/d).
#   returns.py            writes returns.step, and returns.listing with what the stepper writes of it
#   returns.py --dump     prints the step's records in hexadecimal, each with what it is
#   returns.py --check    reads the written step by rules 12 to 14 and 21
#   returns.py --plans    prints what the licence counts under each plan, and whether the network allows it, in exact arithmetic
import sys
from fractions import Fraction

from make import OUTPUT, RETURNS, here, print_records, read
from steps import MASS, NODE, VIRTUAL_STORAGE, by, column_costs, date, node_step, programme_text, read_step, storage_step, virtual_interval

NODES, EDGES, _, STORAGES = read(b"".join(record for _, record in RETURNS))
KINDS = [kind for kind, _, _ in NODES]
STEP = [
    ("06-01, 1 day", date(6, 1, 1.0)),
    ("node 0, river intake", node_step(1.0)),
    ("node 1, paper mill", node_step()),
    ("node 2, return to the river", node_step()),
    ("node 3, water in the product", node_step(-10.0)),
    ("virtual storage 0, 40 left of a licence of 100", storage_step(0.0, 100.0, 40.0)),
]
SMALLEST = Fraction(1, 2**1074)  # the smallest amount that a plan can differ by
PLANS = [  # taken, returned, in the product
    ("on the bound", (100, 80, 20)),
    ("1 less returned", (100, 79, 21)),
    ("1 more returned", (100, 81, 19)),
    ("2^-1074 more taken and kept", (100 + SMALLEST, 80, 20 + SMALLEST)),
]


def step_file():
    return b"".join(record for _, record in STEP)


def read_returns(data):
    return read_step([(kind, True) for kind in KINDS], 0, 1, data)


def programme(data):  # the text after the step: a column for each edge, the licence's row, the mill's mass balance, the four nodes
    _, days, nodes, _, (volumes,) = read_returns(data)
    costs = column_costs(KINDS, [(*edge, column) for column, edge in enumerate(EDGES)], [n[0] for n in nodes])
    licence = (*virtual_interval(*volumes, days), {0: -1.0, 1: 0.75}, by(VIRTUAL_STORAGE, 0))
    fixed = [(0.0, 0.0, {0: 1.0, 1: -1.0, 2: -1.0}, by(MASS, 1))]
    rows = ({0: 1.0}, {1: 1.0, 2: 1.0}, {1: 1.0}, {2: 1.0})
    fixed += [(low, high, row, by(NODE, n)) for n, ((_, low, high), row) in enumerate(zip(NODES, rows))]
    return programme_text(3, costs, [licence], fixed)


def node_amount(plan, n):  # input and link by outgoing edges, output by incoming; no storage here
    end = 1 if KINDS[n] == OUTPUT else 0
    return sum(amount for amount, edge in zip(plan, EDGES) if edge[end] == n)


def licence_counts(plan):
    return sum(Fraction(factor) * node_amount(plan, n) for n, factor in STORAGES[0])


def allowed(plan, data):
    _, days, _, _, (volumes,) = read_returns(data)
    low, high = virtual_interval(*volumes, days)
    balanced = plan[0] == plan[1] + plan[2]
    within = all(low <= node_amount(plan, n) <= high for n, (_, low, high) in enumerate(NODES))
    return balanced and within and Fraction(low) <= -licence_counts(plan) <= Fraction(high)


def print_plans(data):
    for what, plan in PLANS:
        counts = licence_counts(plan)
        rest = counts - Fraction(float(counts))  # what the nearest double leaves
        shown = "%.17g" % float(counts) + {0: "", SMALLEST: " and 2^-1074"}.get(rest, ", rounded")
        print("%s: the licence counts %s; %s" % (what, shown, "allowed" if allowed(plan, data) else "not allowed"))


if __name__ == "__main__":
    if "--dump" in sys.argv:
        print_records(STEP)
    elif "--check" in sys.argv:
        data = (here / "returns.step").read_bytes()
        assert data == step_file(), "returns.step is not what this script writes"
        assert (here / "returns.listing").read_text().splitlines() == ["S 0", *programme(data)], "returns.listing is not what this script writes"
        print("returns.step: %d bytes; accepted" % len(data))
    elif "--plans" in sys.argv:
        print_plans((here / "returns.step").read_bytes())
    else:
        (here / "returns.step").write_bytes(step_file())
        (here / "returns.listing").write_text("".join(line + "\n" for line in ["S 0", *programme(step_file())]))
