#!/usr/bin/env python3
"""Makes an instance of a planner's sheets, and a sheet of the plan that comes of it: `./dualoc sheets`, in `planner/sheets.py`."""
import os
import sys

sys.path.insert(0, os.path.dirname(os.path.dirname(os.path.realpath(__file__))))
from planner.cells import run
from planner.sheets import main

if __name__ == "__main__":
    run(main)
