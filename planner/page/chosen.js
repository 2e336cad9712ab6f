// What is chosen, a site or a customer, with what may be changed of it.

import { at, el, grouped } from "./dom.js";

const SAYS = { open: "must be open", closed: "must stay closed", free: "free" };

// A field for an amount, with a button that changes it. What is typed goes to the board as it is.
function field(name, title, value, change) {
  const input = el("input", { id: `amount-${name}`, value: value ?? "none", inputMode: "decimal", autocomplete: "off" });
  return el("form", { onsubmit: (event) => { event.preventDefault(); change(input.value.trim()); } },
    el("label", {}, title, input), el("button", {}, "Change"));
}

function before(now, was) {
  return was !== undefined && was !== now ? el("span", { className: "pale" }, ` (base: ${grouped(was)})`) : null;
}

function siteNow(state, id) {
  const it = state.sites.get(id), load = state.loads.get(id);
  if (!state.answer || state.answer.cost === null) return "";
  if (!load) return "In the answer it is closed.";
  const room = load.full === null ? "" : `, ${load.full / 10} % of its capacity`;
  return `In the answer it is open: it serves ${load.customers} customers, ${grouped(load.load)} units${room}, for ${grouped(it.fixed)} and ${grouped(load.lanes)} of transport.`;
}

function site(state, id, ask) {
  const it = state.sites.get(id), even = state.breakeven[id];
  const button = (status, key, does) => el("button", {
    id: `status-${status}`, "aria-pressed": String(it.status === status), title: `Key: ${key}`, onclick: () => ask(does, { id }),
  }, SAYS[status]);
  return [
    el("div", { className: "buttons", role: "group", "aria-label": "Status" }, button("open", "O", "open"), button("closed", "X", "close"), button("free", "F", "free")),
    field("fixed", "Lease", it.fixed, (amount) => ask("fixed", { id, amount })), before(it.fixed, it.was?.fixed),
    field("capacity", "Capacity", it.capacity, (amount) => ask("capacity", { id, amount })), before(it.capacity, it.was?.capacity),
    el("p", {}, siteNow(state, id)),
    el("p", {}, el("button", { id: "breakeven", disabled: Boolean(state.work), onclick: () => ask("breakeven", { id }) }, "Break-even of the lease")),
    even ? el("p", { id: "even" }, even) : null,
  ];
}

function customer(state, id, ask) {
  const it = state.customers.get(id), from = state.sites.get(state.plan.get(id));
  return [
    field("demand", "Demand", it.demand, (amount) => ask("demand", { id, amount })), before(it.demand, it.was?.demand),
    from ? el("p", {}, `In the answer it is served from ${from.name}.`) : null,
  ];
}

export function showChosen(state, chosen, ask) {
  const it = chosen && state[chosen.kind].get(chosen.id);
  at("chosen").hidden = !it;
  if (!it) return;
  const kept = document.activeElement?.id, typed = document.activeElement?.value;
  at("chosen-head").textContent = `${it.name}, ${chosen.kind === "sites" ? "site" : "customer"}`;
  at("chosen-body").replaceChildren(...(chosen.kind === "sites" ? site : customer)(state, chosen.id, ask).filter(Boolean));
  // The focus stays where it was, with what was typed and isn't sent yet.
  const again = kept && at("chosen-body").querySelector(`#${CSS.escape(kept)}`);
  if (!again) return;
  again.focus();
  if (again.matches("input") && document.hasFocus() && again.dataset.sent !== typed) again.value = typed;
}

// What the mouse points at.
export function told(state, { kind, id }) {
  const it = state[kind].get(id);
  if (kind === "customers") {
    const from = state.sites.get(state.plan.get(id));
    return `${it.name}\ndemand ${grouped(it.demand)}${from ? `, from ${from.name}` : ""}`;
  }
  const load = state.loads.get(id), full = load && load.full !== null ? `, ${load.full / 10} % full` : "";
  const now = load ? `\nopen: ${load.customers} customers, load ${grouped(load.load)}${full}` : "";
  return `${it.name}: ${SAYS[it.status]}\nlease ${grouped(it.fixed)}, capacity ${grouped(it.capacity)}${now}`;
}
