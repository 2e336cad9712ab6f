// Lists beside the map: edits in force, what differs from the base, open sites.

import { at, el, grouped, plural, table } from "./dom.js";
import { colours } from "./colours.js";

const MOST_MOVES = 300;

export function showEdits({ edits }) {
  at("edits-count").textContent = edits.length;
  at("edits-list").replaceChildren(...edits.map((it) => el("li", {}, it)));
  at("edits-list").scrollTop = 1e6;
}

function name(text, kind, id, choose) {
  return el("button", { className: "name", onclick: () => choose({ kind, id }, true) }, text);
}

// Open sites, those of most customers first.
export function showSites(state, choose) {
  const { loads, sites } = state, shown = colours(new Set(loads.keys()), sites);
  at("sites-count").textContent = loads.size;
  const rows = [...loads].sort(([, a], [, b]) => b.customers - a.customers).map(([id, it]) => {
    const key = el("span", { className: "key" }), bar = el("div", { className: "bar" }, el("div"));
    key.style.background = shown.get(id);
    bar.firstChild.style.width = `${Math.min(it.full ?? 0, 1000) / 10}%`;
    if (it.full > 950) bar.firstChild.className = "full";
    const full = it.full === null ? "" : el("div", { title: `${it.full / 10} %` }, bar);
    return [el("span", {}, key, name(sites.get(id)?.name ?? "", "sites", id, choose)), [String(it.customers)], [grouped(it.load)], full];
  });
  at("sites-body").replaceChildren(el("div", { className: "scroll" }, table(["site", ["customers"], ["load"], "full"], rows)));
}

const signed = (amount) => (amount.startsWith("-") || amount === "0" ? grouped(amount) : `+${grouped(amount)}`);

export function showAgainst({ against, edits }, choose, ask) {
  const body = at("against-body");
  if (!against) {
    const why = edits.length ? "The base isn't solved yet." : "This is the base: what changes is told against its first answer.";
    return body.replaceChildren(el("p", { className: "pale" }, why, " ", edits.length ? el("button", { onclick: () => ask("base") }, "Solve the base") : ""));
  }
  const line = (what, those) => those.length ? el("p", {}, `${what}: `, ...those.flatMap(([id, text], k) => [k ? ", " : "", id === null ? text : name(text, "sites", id, choose)])) : null;
  const moves = against.moved.slice(0, MOST_MOVES).map(([id, customer, from, to]) => [id === null ? customer : name(customer, "customers", id, choose), from ?? "new", to ?? "gone"]);
  const parts = [
    el("p", { id: "difference" }, `Cost ${signed(against.cost)}: sites ${signed(against.leases)}, transport ${signed(against.transport)}.`),
    line("Come", against.opened), line("Go", against.closed),
    el("p", {}, against.moved.length ? `${plural(against.moved.length, "customer")} ${against.moved.length === 1 ? "moves" : "move"}:` : "No customer moves."),
    moves.length && el("div", { className: "scroll" }, table(["customer", "from", "to"], moves)),
  ];
  body.replaceChildren(...parts.filter(Boolean));
}
