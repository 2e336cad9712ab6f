#!/usr/bin/env python3
"""Draws a cost curve as an SVG picture: `./dualoc chart`, in `planner/chart.py`."""
import os
import sys

sys.path.insert(0, os.path.dirname(os.path.dirname(os.path.realpath(__file__))))
from planner.cells import run
from planner.chart import main

if __name__ == "__main__":
    run(main)
