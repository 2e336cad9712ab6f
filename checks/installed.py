"""Installs the package `planner` as people do, `pip install ./planner`, into a fresh environment: `installed.py`, which needs no program.

There it is imported from elsewhere, has its page and its command, and makes an instance of the towns. No network is asked: where this
python3 can't make an environment, or has no setuptools to build with, that is said, and nothing is tested.
"""
import importlib.util
import os
import shutil
import subprocess
import sys
import tempfile

from crates import ROOT

TOWNS = ROOT / "examples" / "towns"
LOOKS = "import os, planner; at = os.path.dirname(planner.__file__); print(at, len(os.listdir(f'{at}/page')), planner.Session.__name__)"


def run(*words, **how):
    """What the words print; a failure ends the check."""
    ran = subprocess.run([*map(str, words)], stdout=subprocess.PIPE, stderr=subprocess.STDOUT, text=True, **how)
    if ran.returncode:
        sys.exit(f"check: {words}: it ends with {ran.returncode}, and prints {ran.stdout[-2000:]}")
    return ran.stdout


def missing():
    """What this python3 lacks for it."""
    return [name for name in ("venv", "ensurepip", "pip", "setuptools", "wheel") if not importlib.util.find_spec(name)]


def main():
    if missing():
        print(f"installed: SKIPPED, since this python3 has no {', '.join(missing())}")
        return
    with tempfile.TemporaryDirectory() as folder:
        # A copy, since a build leaves its folders beside the sources.
        shutil.copytree(ROOT / "planner", f"{folder}/planner", ignore=shutil.ignore_patterns("__pycache__", "build", "*.egg-info"))
        run(sys.executable, "-m", "venv", "--system-site-packages", f"{folder}/fresh")
        python, elsewhere = f"{folder}/fresh/bin/python", {"cwd": f"{folder}/fresh", "env": {**os.environ, "PYTHONPATH": ""}}
        run(python, "-m", "pip", "install", "--quiet", "--no-index", "--no-build-isolation", f"{folder}/planner", **elsewhere)
        at, pages, name = run(python, "-c", LOOKS, **elsewhere).split()
        sources = len([it for it in os.listdir(ROOT / "planner" / "page") if it.endswith((".html", ".css", ".js"))])
        if not os.path.realpath(at).startswith(os.path.realpath(f"{folder}/fresh")) or int(pages) != sources or name != "Session":
            sys.exit(f"check: what was installed is {at}, with {pages} files of the page, and {sources} are due")
        said = run(f"{folder}/fresh/bin/dualoc-planner", "sheets", "own", TOWNS / "sites.csv", TOWNS / "customers.csv", "towns.own", "names.csv",
                   "--rate", "0.25", "--detour", "1.25", **elsewhere)
        if not said.startswith("sites 40, ") or "; customers 300, " not in said:
            sys.exit(f"check: the towns are {said!r}")
        run(python, "-m", "planner", "--help", **elsewhere)
    print(f"installed: pip makes a package of planner/, with {pages} files of its page, which reads the towns from anywhere")


if __name__ == "__main__":
    main()
