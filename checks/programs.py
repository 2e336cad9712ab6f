"""Builds programs for checks alone, over a copy of this repository's crates and without their proofs."""
import importlib.machinery
import importlib.util
import os
import re
import shutil
import sys

TOP = os.path.dirname(os.path.dirname(os.path.abspath(__file__)))


def copied(folder):
    """A copy of the repository, below the folder, that has the crates and what builds them."""
    top = os.path.join(folder, "repository")
    left_out = shutil.ignore_patterns("out", "must-fail", "proofs")
    for crate in os.listdir(f"{TOP}/crates"):
        shutil.copytree(f"{TOP}/crates/{crate}", f"{top}/crates/{crate}", ignore=left_out)
    os.mkdir(f"{top}/.git")
    for name in "HANDLES", "crates.txt", "dualoc":
        shutil.copy2(f"{TOP}/{name}", top)
    return top


def change(top, name, pattern, new):
    """Has another text stand in a file of the copy, in the place of what the pattern is found in once."""
    with open(f"{top}/{name}") as file:
        text, count = re.subn(pattern, new, file.read())
    if count != 1:
        sys.exit(f"check: {name} has {count} times what is to be changed: {pattern}")
    with open(f"{top}/{name}", "w") as file:
        file.write(text)


def built(top):
    """The path of the copy's program, which the script of the repository builds."""
    loader = importlib.machinery.SourceFileLoader("script", f"{top}/dualoc")
    script = importlib.util.module_from_spec(importlib.util.spec_from_loader("script", loader))
    loader.exec_module(script)
    if not script.build(script.MAIN, script.crates_below(script.MAIN)):
        sys.exit("check: the program of a check can't be built")
    return script.unproved(script.MAIN)
