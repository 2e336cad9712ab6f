"""Looks at the board as a planner does, in a headless Chromium: `boards.py PROGRAM [DESK]`.

A site is closed by a click on the map, and what then comes is what the program itself says: the solve, the plan that changed, undo,
what is kept and compared, the curve, the break-even, the downloads, which `check` accepts. Two windows see each other's edits, what
doesn't know the token gets the status 403, names that are HTML are shown as text, all goes by keyboard and on a small window, and
a board that is ended leaves nothing behind. Without chromium, chromedriver or selenium it says so and skips all that.
"""
import csv
import io
import json
import os
import shutil
import sys
import time
from decimal import Decimal
from urllib.parse import urlsplit

from common import main
from crates import ROOT
from windows import EVIL, Scene, Window, due, wrong

# The distribution's selenium belongs to the distribution's python.
OTHER = "/usr/bin/python3"
DESK = ROOT / "crates/dualoc_desk/out/dualoc_desk"
# A click is answered within so many seconds, also where the machine has more to do.
SOON = 3.0


def closes(scene, one, two):
    """A click on the map closes an open site, and both windows show it at once. What is solved then is what the program says."""
    cost = one.solve()
    due("the first cost", cost, scene.solve("region.own"))
    state, before = one.state(), one.picture()
    [site] = [key for key in state["loads"] if state["sites"][key]["name"] == EVIL] or [max(state["loads"], key=int)]
    name = state["sites"][site]["name"]
    one.point("sites", site)
    one.wait("what is chosen", lambda: one.text("chosen-head") == f"{name}, site")
    begun = time.monotonic()
    one.click("status-closed")
    one.wait("the edit", lambda: one.text("edits-count") == "1", SOON)
    took = time.monotonic() - begun
    two.wait("the edit in the other window", lambda: two.text("edits-count") == "1", SOON)
    dearer = one.solve()
    scene_own(scene)
    due("the cost without the site", dearer, scene.solve("now.own"))
    if Decimal(dearer) <= Decimal(cost) or one.picture() == before:
        wrong("the new answer", (cost, dearer))
    if name not in one.text("against-body") or "Go:" not in one.text("against-body"):
        wrong("what differs from the base", one.text("against-body"))
    two.wait("the other window's answer", lambda: two.cost() == Decimal(dearer))
    return site, cost, dearer, took


def scene_own(scene):
    """Takes the downloads, and has the program judge them."""
    for name, to in ("instance.own", "now.own"), ("proof.txt", "now.cert"):
        scene.program.write(to, scene.file(name))
    said, status = scene.program.ask("check", "own", scene.at("now.own"), scene.at("now.cert"))
    if status or not said.startswith("yes optimal"):
        wrong("the certificate that is downloaded", said)
    return said.strip()


def keeps(one, two, cost, dearer):
    """What is checked, kept, undone, compared, and loaded again."""
    one.click("check")
    one.wait("what check says", lambda: "check says: yes optimal" in (one.text("answer-body") or ""))
    one.find("keep-name").send_keys("without")
    one.script("document.getElementById('keep').requestSubmit()")
    one.wait("what is kept", lambda: "without" in one.text("scenarios-body"))
    two.click("undo")
    one.wait("undo in the other window", lambda: one.text("edits-count") == "0", SOON)
    due("the cost after undo", one.solve(), cost)
    for it in "tick-base", "tick-without":
        one.click(it)
    one.click("compare")
    one.wait("both side by side", lambda: one.text("compared"))
    rows = {it["name"]: it["cost"] for it in one.state()["scenarios"]["compared"]}
    due("both side by side", rows, {"base": cost, "without": dearer})
    one.click("load-without")
    one.wait("what is loaded", lambda: one.text("edits-count") == "1")
    due("the cost of what is loaded", one.solve(), dearer)
    one.click("undo")
    one.wait("undo of what was loaded", lambda: one.text("edits-count") == "0", SOON)


def asks(scene, one, cost):
    """Break-even, curve and downloads, of the instance without edits."""
    due("the cost again", one.solve(), cost)
    one.click("breakeven")
    one.wait("the break-even", lambda: one.text("even"))
    due("the edits after the break-even", one.text("edits-count"), "0")
    one.script("document.getElementById('curve').open = true; document.getElementById('curve-last').value = 6")
    one.script("document.getElementById('draw').requestSubmit()")
    one.wait("the curve", lambda: (it := one.state())["work"] is None and it["curve"] and len(it["curve"]["entries"]) == 6)
    due("the least of the curve", min(Decimal(it["high"]) for it in one.state()["curve"]["entries"] if it["high"]), Decimal(cost))
    rows = list(csv.reader(io.StringIO(scene.file("result.csv").decode("utf-8-sig"))))
    due("the sheet's total", [it[4] for it in rows if it[0] == "total"], [cost])
    for name, begins in ("map.svg", b"<svg"), ("curve.svg", b"<svg"), ("report.html", b"<!doctype html>"), ("plan.txt", b"dualoc-plan 1"):
        if not scene.file(name).startswith(begins):
            wrong(name, scene.file(name)[:80])


def amounts(one):
    """Amounts that are changed, and those that are refused, with their words."""
    customer = min(one.state()["customers"], key=int)
    one.point("customers", customer)
    one.wait("what is chosen", lambda: (one.text("chosen-head") or "").endswith(", customer"))
    for word, is_taken in ("12.5", True), ("a dozen", False), ("-3", False), ("0.0000001", False):
        before = one.text("edits-count")
        field = one.find("amount-demand")
        field.clear()
        field.send_keys(word + "\n")
        if is_taken:
            one.wait("a demand", lambda: one.state()["customers"][customer]["demand"] == word)
        else:
            one.wait("a refusal", lambda: word in one.text("said") or word.lstrip("-") in one.text("said"))
            due("the edits after a refusal", one.text("edits-count"), before)
    one.click("undo")
    one.wait("undo", lambda: one.text("edits-count") == "0")


def by_keyboard(one):
    """From the page's top to a solve without a mouse."""
    one.driver.refresh()
    one.wait("the page", lambda: one.text("title") == "region")
    one.press("n")
    one.wait("the first site", lambda: (one.text("chosen-head") or "").endswith(", site"))
    for key, status in ("x", "closed"), ("o", "open"), ("f", "free"):
        one.press(key)
        one.wait(f"the key {key}", lambda: status in {it["status"] for it in one.state()["sites"].values()})
    one.press("/")
    one.press("old")
    one.wait("what is found", lambda: EVIL in one.text("found"))
    one.press("\n")
    one.wait("what is chosen", lambda: one.text("chosen-head") == f"{EVIL}, site")
    one.press("u")
    one.press("s")
    one.wait("a solve by its key", lambda: (it := one.state())["work"] is None and not it["answer"]["isStale"])
    while one.text("edits-count") != "0":
        before = one.text("edits-count")
        one.click("undo")
        one.wait("undo", lambda: one.text("edits-count") != before)


def is_shut(scene):
    """Who doesn't know the token, or comes from elsewhere, learns nothing."""
    path = urlsplit(scene.address).path
    asked = json.dumps({"do": "undo"})
    json_type = {"Content-Type": "application/json"}
    for where, method, body, headers in (
            ("/", "GET", None, {}), ("/wrong/", "GET", None, {}), (f"{path[:-2]}/state", "GET", None, {}), ("/wrong/do", "POST", asked, json_type),
            (path, "GET", None, {"Host": "evil.example"}), (f"{path}do", "POST", asked, {**json_type, "Origin": "http://evil.example"})):
        status, said = scene.get(where, method, body, **headers)
        if status != 403 or b"region" in said:
            wrong(where, (status, said))
    for body, headers, status in ((asked, {}, 400), ("{", json_type, 400), ("[]", json_type, 409), ('{"do": "erase"}', json_type, 409),
                                  ('{"do": "close", "id": "1"}', json_type, 409), ('{"do": "close", "id": 99}', json_type, 409)):
        due(body, scene.get(f"{path}do", "POST", body, **headers)[0], status)
    for name in "page/../board.py", "page/..%2fboard.py", "files/none", "none":
        if scene.get(path + name)[0] not in (404, 409):
            wrong(name, scene.get(path + name))


def shows_text(one):
    """A name that is HTML is text."""
    due("the title", one.text("title"), "region")
    due("the outline", one.state()["outline"], [[[0, 0], [99, 0], [99, 99], [0, 0]]])
    due("elements of a name", one.script("return document.querySelectorAll('img[src=x], #panel b').length"), 0)


def fits(scene):
    """On a small window nothing is wider than it is."""
    small = Window(scene, 390, 700)
    wide = small.script("return [document.documentElement.scrollWidth, window.innerWidth]")
    if wide[0] > wide[1]:
        wrong("its width on a small window", wide)
    small.quit()


def check(program, desk=str(DESK)):
    scene = Scene(program, desk)
    try:
        is_shut(scene)
        one, two = Window(scene), Window(scene)
        site, cost, dearer, took = closes(scene, one, two)
        shows_text(one)
        keeps(one, two, cost, dearer)
        asks(scene, one, cost)
        amounts(one)
        by_keyboard(one)
        fits(scene)
        one.quit()
        two.quit()
    finally:
        if scene.board.poll() is None:
            scene.end()
    return f"boards: in two windows of Chromium what is clicked, solved, kept and compared is what the program says; a click took {1000 * took:.0f} ms"


def lacks():
    """What is missing for this check."""
    missing = [it for it in ("chromium", "chromedriver") if not shutil.which(it)]
    try:
        import selenium
    except ImportError:
        missing.append("selenium")
    return missing


if __name__ == "__main__":
    if lacks() == ["selenium"] and sys.executable != OTHER and os.path.exists(OTHER):
        os.execv(OTHER, [OTHER, *sys.argv])
    if lacks():
        print(f"boards: SKIPPED, since there is no {' and no '.join(lacks())}")
    else:
        main(check)
