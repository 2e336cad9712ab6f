#!/usr/bin/env python3
"""Draws the map of a plan as an SVG picture: `./dualoc draw`, in `planner/draw.py`."""
import os
import sys

sys.path.insert(0, os.path.dirname(os.path.dirname(os.path.realpath(__file__))))
from planner.cells import run
from planner.draw import main

if __name__ == "__main__":
    run(main)
