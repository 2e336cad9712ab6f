"""A board on the region of the examples, and windows of a headless Chromium that look at it: what checks/boards.py stands on."""
import csv
import http.client
import io
import os
import re
import shlex
import shutil
import signal
import subprocess
import sys
import time
from decimal import Decimal
from urllib.parse import urlsplit

from common import PATIENCE
from crates import ROOT

SHEETS = ROOT / "examples/sheets"
EVIL = '<b>Old</b> <img src=x onerror="document.title=1"> & Mill'
OUTLINE = '{"type": "Feature", "properties": {}, "geometry": {"type": "Polygon", "coordinates": [[[0, 0], [99, 0], [99, 99], [0, 0]]]}}'
# The edge of the map in pixels, as page/view.js has it.
EDGE = 34


def wrong(what, found):
    sys.exit(f"check: the board: {what}: {found!r}")


def due(what, found, expected):
    if found != expected:
        wrong(what, (found, expected))


class Scene:
    """A folder with an instance, and the board on it."""

    def __init__(self, program, desk):
        self.program, self.folder = program, program.folder
        self.script = program.at("run")
        with open(self.script, "w") as file:
            file.write(f'#!/bin/sh\n[ "$1" = desk ] && shift && exec {shlex.quote(os.path.abspath(desk))} "$@"\n'
                       f'exec {shlex.quote(program.path)} "$@"\n')
        os.chmod(self.script, 0o755)
        os.makedirs(program.at("tmp"))
        self.environment = {**os.environ, "DUALOC": self.script, "PYTHONPATH": str(ROOT), "TMPDIR": program.at("tmp")}
        self.make()
        self.begin()

    def at(self, name):
        return self.program.at(name)

    def run(self, *words):
        ran = subprocess.run([sys.executable, "-m", "planner", *words], cwd=self.folder, env=self.environment, capture_output=True, text=True)
        if ran.returncode:
            wrong(words, ran.stderr)
        return ran.stdout

    def make(self):
        """The region of the examples, in which a site and a customer have names that are HTML."""
        for name, old in ("sites", "Old Mill"), ("lanes", "Old Mill"), ("customers", None):
            rows = list(csv.reader(io.StringIO((SHEETS / f"{name}.csv").read_text(encoding="utf-8-sig"))))
            rows = [[EVIL if it == old else it for it in row] for row in rows]
            with open(self.at(f"{name}.csv"), "w", newline="") as file:
                csv.writer(file).writerows(rows)
        self.program.write("outline.json", OUTLINE.encode())
        self.run("sheets", "own", "sites.csv", "customers.csv", "region.own", "names.csv", "--lanes", "lanes.csv")

    def begin(self):
        words = [sys.executable, "-m", "planner", "board", "region.own", "names.csv", "plans.db", "--unit", "km", "--background", "outline.json"]
        self.board = subprocess.Popen(words, cwd=self.folder, env=self.environment, stdout=subprocess.PIPE, text=True)
        self.address = self.board.stdout.readline().strip()
        if not re.fullmatch(r"http://127\.0\.0\.1:[0-9]+/[\w-]{20,}/", self.address):
            wrong("its address", self.address)

    def get(self, path, method="GET", body=None, **headers):
        """What the server answers to a request: its status and its bytes."""
        parts = urlsplit(self.address)
        host = http.client.HTTPConnection(parts.hostname, parts.port, timeout=PATIENCE)
        host.request(method, path, body, headers)
        answer = host.getresponse()
        return answer.status, answer.read()

    def file(self, name):
        status, body = self.get(f"{urlsplit(self.address).path}files/{name}")
        if status != 200:
            wrong(name, (status, body))
        return body

    def solve(self, name):
        """What the program says of an instance, in one line."""
        said, _ = self.program.ask("solve", "own", self.at(name), self.at("plan"), self.at("proof"))
        return said.split()[1].rstrip("0").rstrip(".")

    def end(self):
        """Ends the board as a system does, and looks at what it leaves."""
        self.board.send_signal(signal.SIGTERM)
        due("its status", self.board.wait(PATIENCE), 128 + signal.SIGTERM)
        left = [it for it in os.listdir(self.at("tmp")) if it.startswith(("dualoc-", "tmp", "board"))]
        due("what it leaves", left, [])


class Window:
    """A window of a browser with the page."""

    def __init__(self, scene, wide=1280, high=860):
        from selenium import webdriver
        from selenium.webdriver.chrome.service import Service
        options = webdriver.ChromeOptions()
        options.binary_location = shutil.which("chromium")
        for word in "--headless=new", "--no-sandbox", "--disable-gpu", "--disable-dev-shm-usage", f"--window-size={wide},{high}":
            options.add_argument(word)
        options.set_capability("goog:loggingPrefs", {"browser": "ALL"})
        self.driver = webdriver.Chrome(options=options, service=Service(shutil.which("chromedriver")))
        self.driver.get(scene.address)
        self.wait("the page", lambda: self.text("title") == "region")

    def find(self, name):
        return self.driver.find_element("id", name)

    def text(self, name):
        return self.script("const it = document.getElementById(arguments[0]); return it ? it.textContent : null", name)

    def click(self, name):
        self.script("document.getElementById(arguments[0]).click()", name)

    def script(self, code, *words):
        return self.driver.execute_script(code, *words)

    def wait(self, what, holds, seconds=PATIENCE):
        """Waits until it holds, and says how long that took."""
        begun = time.monotonic()
        while not holds():
            if time.monotonic() - begun > seconds:
                wrong(what, (self.text("said"), self.text("answer-body")))
            time.sleep(0.005)
        return time.monotonic() - begun

    def state(self):
        return self.script("return fetch('state').then((it) => it.json())")["state"]

    def spot(self, kind, key):
        """Where a site or a customer is on the canvas, from the canvas' middle."""
        state, canvas = self.state(), self.find("canvas")
        places = [it["at"] for those in (state["sites"], state["customers"]) for it in those.values()]
        xs, ys = zip(*places)
        wide, high = canvas.size["width"], canvas.size["height"]
        scale = min((wide - 2 * EDGE) / (max(xs) - min(xs)), (high - 2 * EDGE) / (max(ys) - min(ys)))
        x, y = state[kind][key]["at"]
        return (x - (min(xs) + max(xs)) / 2) * scale, -(y - (min(ys) + max(ys)) / 2) * scale

    def point(self, kind, key, is_click=True):
        """Moves the mouse there, and clicks."""
        from selenium.webdriver import ActionChains
        chain = ActionChains(self.driver).move_to_element_with_offset(self.find("canvas"), *map(round, self.spot(kind, key)))
        (chain.click() if is_click else chain).perform()

    def press(self, keys, name=None):
        if name:
            self.find(name).send_keys(keys)
        else:
            from selenium.webdriver import ActionChains
            ActionChains(self.driver).send_keys(keys).perform()

    def picture(self):
        return self.script("return document.getElementById('canvas').toDataURL()")

    def solve(self):
        """Presses Solve, and waits for an answer that stands."""
        self.click("solve")
        self.wait("a solve", lambda: (it := self.state())["work"] is None and it["answer"] and not it["answer"]["isStale"])
        cost = self.state()["answer"]["cost"]
        self.wait("the cost shown", lambda: self.cost() == Decimal(cost))
        return cost

    def cost(self):
        """The cost as the page shows it."""
        found = re.sub("[^0-9.]", "", self.text("cost") or "")
        return Decimal(found) if found else None

    def quit(self):
        faults = [it["message"] for it in self.driver.get_log("browser") if it["level"] == "SEVERE" and "favicon" not in it["message"]
                  and "409" not in it["message"]]
        self.driver.quit()
        due("what the browser complains of", faults, [])
