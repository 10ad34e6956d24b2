#!/usr/bin/env python3
# Writes what the stepper is run on, the example year (../args, ../data), and the text that it must write (../stdout).
import pathlib
import sys

FOLDER = pathlib.Path(__file__).resolve().parent.parent
sys.path.append(str(FOLDER.parent.parent / "examples"))  # the network and the year: make.py, year.py

from make import INTAKE
from year import listing, write

write(FOLDER / "data" / "year")
(FOLDER / "data" / "intake.network").write_bytes(b"".join(record for _, record in INTAKE))
(FOLDER / "args").write_text("intake.network\n" + "".join("year/%02d.step\n" % month for month in range(1, 13)))
(FOLDER / "stdout").write_text("".join(line + "\n" for line in listing()))
