"""A plain reading of the site tables and the JSON texts of docs/FORMATS.md, for `sessions.py`."""
import json
import shutil
import subprocess

from common import money

WHOLE = 1000


def table_of(inst, plan):
    """The site table of a plan, which is its open sites and the site of each customer, or of none."""
    lines = []
    if plan:
        opened, places = plan
        by_id, demands = {s: (cost, cap) for s, cost, cap, _ in inst.sites}, dict(inst.customers)
        served = {s: [c for c in places if places[c] == s] for s in opened}
        costs = {s: by_id[s][0] + sum(inst.lanes[s, c] for c in served[s]) for s in opened}
        for s in sorted(opened):
            load, cap = sum(demands[c] for c in served[s]), by_id[s][1]
            spare = "none" if cap is None else money(cap - load)
            share = WHOLE * costs[s] // sum(costs.values()) if sum(costs.values()) else 0
            lines.append(f"site {s} customers {len(served[s])} load {money(load)} spare {spare} cost {money(costs[s])} share {share}\n")
    return "".join(lines) + "end\n"


def is_spaced(text, shown):
    """Whether the text is one line of the value, without spaces and with its keys in order."""
    return text == json.dumps(shown, separators=(",", ":"), sort_keys=True) + "\n"


def plan_text_in(inst, text):
    """The plan text that says what a text of JSON does; nothing where that has another shape."""
    shown = json.loads(text)
    keys = {"optimal": ["answer", "cost", "sites"], "infeasible": ["answer"], "bracket": ["answer", "cost", "low", "sites"]}
    if not is_spaced(text, shown) or [*shown] != keys[shown["answer"]]:
        return None
    claim = {"optimal": "optimal {cost}", "infeasible": "infeasible", "bracket": "bracket {low} {cost}"}[shown["answer"]]
    ends = {key: shown.get(key) or "none" for key in ("cost", "low")}
    sites = shown.get("sites", [])
    places = {c: it["id"] for it in sites for c in it["customers"]}
    is_ordered = all([*it] == ["customers", "fixed", "id"] and it["customers"] == sorted(it["customers"]) for it in sites)
    if not is_ordered or not {(s, c) for c, s in places.items()} <= {*inst.lanes} or not {*places} <= {*dict(inst.customers)}:
        return None
    lines = ["dualoc-plan 1", claim.format(**ends), *[f"site {it['id']} {it['fixed']}" for it in sites],
             *[f"serve {c} {places[c]} {money(inst.lanes[places[c], c])}" for c, _ in inst.customers if c in places], "end", ""]
    return "\n".join(lines)


def agree_with_jq(texts):
    """Whether `jq`, where there is one, prints each text of JSON as it is; and how many it was asked about."""
    if not texts or not shutil.which("jq"):
        return True, 0
    run = subprocess.run(["jq", "-c", "-S", "."], input="".join(texts), capture_output=True, text=True, check=False)
    return (run.returncode, run.stdout) == (0, "".join(texts)), len(texts)
