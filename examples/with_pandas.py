#!/usr/bin/env python3
"""Reads the boards of a level as a frame of pandas, and counts them by their values and plans.

    python3 examples/with_pandas.py FOLDER LEVEL

prints a row for each value and a column for each pit that is a plan; `-` is for boards whose play has
ended. AWARI names another program than ./awari.
"""
import io
import os
import subprocess
import sys
from pathlib import Path

import pandas

AWARI = os.environ.get("AWARI") or Path(__file__).resolve().parent.parent / "awari"


def main(folder, level):
    done = subprocess.run([AWARI, "boards", folder, level, "--csv"], stdout=subprocess.PIPE, text=True, check=False)
    if done.returncode:
        sys.exit(done.stdout.strip() or done.returncode)
    boards = pandas.read_csv(io.StringIO(done.stdout), dtype={"plan": str})
    plans = boards["plan"].fillna("-")
    print(pandas.crosstab(boards["value"], plans, margins=True, margins_name="all").to_string())


if __name__ == "__main__":
    if len(sys.argv) != 3:
        sys.exit(__doc__)
    main(*sys.argv[1:])
