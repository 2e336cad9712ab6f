// Scenarios under names, side by side; the cost curve; and downloads.

import { at, el, grouped, table } from "./dom.js";

const ticked = new Set();

function row(name, edits, mark, ask) {
  const tick = el("input", {
    type: "checkbox", id: `tick-${name}`, checked: ticked.has(name), "aria-label": `Compare ${name}`,
    onchange: (event) => { if (event.target.checked) ticked.add(name); else ticked.delete(name); },
  });
  const button = (what, says) => el("button", { id: `${what}-${name}`, "aria-label": `${says} ${name}`, onclick: () => ask(what, { name }) }, says);
  return [tick, name + mark, [edits], el("span", {}, button("load", "Load"), " ", name === "base" ? "" : button("forget", "Forget"))];
}

export function showScenarios({ scenarios, work }, ask) {
  const { kept, name, isChanged, compared } = scenarios, known = new Set(["base", ...kept.map((it) => it.name)]);
  for (const it of ticked) if (!known.has(it)) ticked.delete(it);
  const here = (it) => (it === name ? (isChanged ? " (here, changed)" : " (here)") : "");
  const rows = [row("base", "", "", ask), ...kept.map((it) => row(it.name, String(it.edits), here(it.name), ask))];
  const compare = el("button", { id: "compare", disabled: Boolean(work), onclick: () => ask("compare", { names: [...known].filter((it) => ticked.has(it)) }) },
    "Compare what is ticked");
  at("scenarios-body").replaceChildren(...[kept.length && table(["", "name", ["edits"], ""], rows), kept.length && compare, compared && sideBySide(compared)].filter(Boolean));
}

// Scenarios side by side, against the first of them.
function sideBySide(compared) {
  const shown = (it) => [it === null ? "" : grouped(it)];
  const rows = compared.map((it) => [it.name, [it.cost === null ? it.kind : grouped(it.cost)], shown(it.difference), [String(it.sites ?? "")],
    shown(it.farthest), shown(it.mean), [String(it.moved ?? "")], it.said.split(" ").slice(0, 2).join(" ")]);
  return el("div", { className: "scroll", id: "compared" },
    table(["scenario", ["cost"], ["difference"], ["sites"], ["farthest"], ["mean"], ["moved"], "check says"], rows));
}

export function showCurve({ curve, sites }) {
  if (!at("curve-first").value) [at("curve-first").value, at("curve-last").value] = [1, Math.min(sites.size, 12)];
  if (!curve) return at("curve-body").replaceChildren();
  const costs = (it) => (it.low === null ? "no plan" : it.low === it.high ? grouped(it.low) : `${grouped(it.low)} to ${it.high === null ? "?" : grouped(it.high)}`);
  const rows = curve.entries.map((it) => [[String(it.count)], [costs(it)]]);
  at("curve-body").replaceChildren(...[
    curve.entries.length && el("img", { src: `files/curve.svg?of=${curve.mark}`, alt: "The cost curve, whose numbers stand below" }),
    el("p", { className: "pale" }, curve.isStale ? "Of before the last edits." : curve.text),
    rows.length && el("div", { className: "scroll" }, table([["sites"], ["cost"]], rows)),
  ].filter(Boolean));
}

export function showFiles({ files }) {
  at("files-list").replaceChildren(...files.map(([name, what, is]) => el("li", {}, is ? el("a", { href: `files/${name}`, download: name }, name) : el("span", { className: "pale" }, name), ` ${what}`)));
}
