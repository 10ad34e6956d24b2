#!/usr/bin/env python3
# Writes the hand-made cases of this test program: its commands (../stdin) and the lines that it must write (../stdout).
# What stands behind them, a sample that the reference's program `cases` writes, is kept.
import pathlib
import struct
import sys

FOLDER = pathlib.Path(__file__).resolve().parent.parent
sys.path.append(str(FOLDER.parent.parent / "examples"))  # the records of network and step files: make.py, steps.py, returns.py

from build_cases import CASES
from commands import build, commands, counted, expected, title
from cost_cases import costs_downstream
from exclusive_cases import exclusives
from factor_cases import factors
from maker_cases import makers
from step_cases import steps
from union_cases import unions

MARK = "# reference"


def builds():
    for case in CASES:
        if isinstance(case, str):
            title(case)
        elif case[1].startswith("P"):
            build(case[0])
            counted(case[1])
        else:
            build(case[0], answer=case[1])


def sample_of(data):  # from the title that starts with the mark
    at = 0
    while at < len(data):
        length = struct.unpack("<H", data[at + 3 : at + 5])[0] if data[at : at + 1] in (b"T", b"B", b"S") else 0
        if data[at : at + 1] == b"T" and data[at + 5 :].startswith(MARK.encode()):
            break
        at += 5 + length
    return data[at:]


builds()
steps()
makers()
factors()
exclusives()
unions()
costs_downstream()
stdin, stdout = FOLDER / "stdin", FOLDER / "stdout"
lines = stdout.read_text().splitlines(keepends=True)
kept = next((k for k, line in enumerate(lines) if line.startswith(MARK)), len(lines))
stdin.write_bytes(b"".join(commands) + sample_of(stdin.read_bytes()))
stdout.write_text("".join(line + "\n" for line in expected) + "".join(lines[kept:]))
