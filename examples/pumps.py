#!/usr/bin/env python3
# Two pumps of which one may run, with limits that each month brings: twelve step files for pumps.network, the year's (year.py) with the pumps' limits (Ml/d).
#   pumps.py                     writes pumps/01.step .. pumps/12.step, and pumps.listing with what the stepper writes of them
#   pumps.py --dump              prints the records in hexadecimal, each with what it is
#   pumps.py --check             reads the written files by rules 12 to 14 and 21 and says what they hold
#   pumps.py --plans [LISTING]   says which plans the programme admits after February and July, by a listing of the stepper (pumps.listing), and which it
#                                admitted when a step left the pumps' rows at the sentinels; in exact arithmetic
import itertools
import math
import pathlib
import struct
import sys
from fractions import Fraction

import year
from make import PUMPS, here, read
from steps import NODE, by, exclusive_rows

USUAL = {3: (0.0, 30.0), 4: (4.0, 20.0)}  # lower and upper of pump 1 and pump 2 while they run
CHANGED = {2: {3: (0.0, 0.0)}, 5: {3: (0.0, math.inf)}, 7: {4: (4.0, 12.0)}}  # pump 1 serviced; a limit forgotten; low river at pump 2
COLUMNS = {3: (0, 9), 4: (1, 10)}  # of each pump: its water's column and its set's
VARYING_NODES = *year.VARYING_NODES, *COLUMNS
assert read(b"".join(record for _, record in PUMPS))[1:] == year.NETWORK[1:]  # edges, aggregates and virtual storages are intake.network's


def limits(month):
    return {**USUAL, **CHANGED.get(month, {})}


def records(month):
    return year.records(month, limits(month))


# ---- the programme: the pumps' rows stand behind those of nodes 1 and 2, and are not among the fixed ones


def is_pump_row(row):
    kind, index, _ = row[3]
    return kind == NODE and index in COLUMNS


def pump_rows(n, interval):
    water, on = COLUMNS[n]
    return exclusive_rows({water: 1.0}, on, interval, by(NODE, n))


def rows(step):
    varying, fixed = year.rows(step)
    pumps = [row for n in COLUMNS for row in pump_rows(n, step[2][n][1:3])]
    return varying[:2] + pumps + varying[2:], [row for row in fixed if not is_pump_row(row)]


def answer(data):
    return year.answer(data, VARYING_NODES, rows)


def listing():
    return year.listing(records, answer)


# ---- plans

WORDS = "mass balance of node", "node", "aggregate", "virtual storage", "exclusivity of aggregate"  # who makes rows
# by month: what the works give the town, and what the reservoir gives aqueduct and river; with these the rest of each plan is within the month's bounds
REST = {2: (22, 60), 7: (27, 29)}
PLANS = [  # the month, what pump 1 and pump 2 give, which of them are on
    (2, (0, 0), ()),
    (2, (0, 12), (4,)),
    (2, (8, 0), (3,)),
    (2, (5, 12), (4,)),
    (7, (20, 0), (3,)),
    (7, (0, 12), (4,)),
    (7, (0, 13), (4,)),
    (7, (0, 3), (4,)),
    (7, (0, 12), ()),
    (7, (10, 8), (3, 4)),
    (7, (10, 8), (3,)),
    (7, (10, 8), ()),
]


def edge_amounts(month, pumps):  # by edge; industry gets none
    town, reservoir = REST[month]
    main = sum(pumps)
    aqueduct = town - main
    inflow = Fraction(year.YEAR[month - 1][1])
    return [*pumps, *pumps, main, inflow, aqueduct, aqueduct, reservoir - aqueduct, town, town, town, 0]


def column_amounts(edges, on):
    amounts = {}
    for column, amount in zip(year.EDGE_COLUMNS, edges):
        assert amounts.setdefault(column, amount) == amount  # edges of a column carry equal amounts
    return {**amounts, **{column: int(n in on) for n, (_, column) in COLUMNS.items()}}


def double(digits):
    return struct.unpack(">d", bytes.fromhex(digits))[0]


def programme_after(month, lines):  # from a listing: bounds of the columns; bounds, elements and maker of the rows
    columns, rows = [], []
    start = lines.index("S %d" % (month - 1)) + 1
    for letter, *words in map(str.split, itertools.takewhile(lambda line: line[0] != "S", lines[start:])):
        if letter == "C":
            columns.append((double(words[2]), double(words[3])))
        elif letter == "R":
            rows.append((double(words[2]), double(words[3]), {}, tuple(map(int, words[5:]))))
        elif letter == "E":
            rows[-1][2][int(words[0])] = double(words[1])
    assert rows, "no programme after %02d.step" % month
    return columns, rows


def before_the_request(row):  # a step left both bounds of a pump's rows at the sentinels
    return (-math.inf, math.inf, *row[2:]) if is_pump_row(row) else row


def verdict(columns, rows, amounts):  # fractions and doubles are compared exactly
    missed = ["column %d" % c for c, (low, high) in enumerate(columns) if not low <= amounts[c] <= high]
    for number, (low, high, elements, (kind, index, _)) in enumerate(rows):
        total = sum(Fraction(x) * amounts[column] for column, x in elements.items())
        if not low <= total <= high:
            missed.append("row %d: %s %d" % (number, WORDS[kind], index))
    return "not admitted (%s)" % "; ".join(missed) if missed else "admitted"


def print_plans(lines):
    for month, pumps, on in PLANS:
        columns, rows = programme_after(month, lines)
        amounts = column_amounts(edge_amounts(month, pumps), on)
        said = ["%s %s, gives %d" % (year.NAMES[n], "on" if n in on else "off", amount) for n, amount in zip(COLUMNS, pumps)]
        now, before = (verdict(columns, version, amounts) for version in (rows, map(before_the_request, rows)))
        print("%02d: %s: %s; before: %s" % (month, "; ".join(said), now, before))


if __name__ == "__main__":
    if "--dump" in sys.argv:
        year.dump(records)
    elif "--check" in sys.argv:
        for month in range(1, 13):
            year.check(month, (here / "pumps" / ("%02d.step" % month)).read_bytes(), records, answer)
        assert (here / "pumps.listing").read_text().splitlines() == listing(), "pumps.listing is not what this script writes"
    elif "--plans" in sys.argv:
        named = sys.argv[sys.argv.index("--plans") + 1 :] or [here / "pumps.listing"]
        print_plans(pathlib.Path(named[0]).read_text().splitlines())
    else:
        year.write(here / "pumps", records)
        (here / "pumps.listing").write_text("".join(line + "\n" for line in listing()))
