// The answer: what it costs, what is proved of it, and how a solve goes on.

import { at, el, grouped, plural } from "./dom.js";

// What is proved of an answer, in a sentence.
function claim({ kind, cost, low, gap }) {
  if (kind === "optimal") return el("span", { className: "good" }, "Optimal: no plan costs less.");
  if (kind === "infeasible") return el("span", { className: "bad" }, "There is no plan: capacities, statuses, missing lanes or the number of sites leave none.");
  if (cost === null) return el("span", { className: "open-claim" }, `No plan was found yet. None costs less than ${grouped(low)}.`);
  return el("span", { className: "open-claim" }, `Open: no plan costs less than ${grouped(low)}, a gap of ${gap} %.`);
}

function split({ leases, transport, share }) {
  const bar = el("div", { className: "split" }, el("div", { className: "leases" }), el("div", { className: "lanes" }));
  bar.children[0].style.width = `${share / 10}%`;
  bar.children[1].style.width = `${100 - share / 10}%`;
  return [bar, el("div", { className: "pale" }, `${grouped(leases)} for sites, ${grouped(transport)} for transport`)];
}

function distances({ farthest, mean }, unit) {
  if (!farthest) return null;
  return el("div", { className: "pale" }, `Farthest: ${farthest.customer} from ${farthest.site}, ${grouped(farthest.distance)} ${unit}. Mean: ${grouped(mean)} ${unit}.`);
}

export function showAnswer(state, ask) {
  const { answer } = state, body = at("answer-body");
  if (!answer) return body.replaceChildren(el("p", { className: "pale" }, "Not solved yet. Solve finds the cheapest plan, and proves it."));
  const stale = answer.isStale && el("p", { className: "open-claim" }, "Of before the last edits: solve again.");
  const checked = answer.checked
    ? el("p", {}, el("span", { className: answer.checked.startsWith("yes") ? "good" : "bad" }, `check says: ${answer.checked}`))
    : el("p", {}, el("button", { id: "check", disabled: answer.isStale || Boolean(state.work), onclick: () => ask("check") }, "Have it checked"));
  body.replaceChildren(...[
    stale || null,
    answer.cost !== null && el("div", { className: "cost", id: "cost" }, grouped(answer.cost)),
    el("div", { id: "claim" }, claim(answer)),
    ...(answer.cost !== null ? split(answer) : []),
    answer.cost !== null && el("div", { className: "pale" }, `${plural(state.loads.size, "site")} of ${state.sites.size} open, ${plural(state.customers.size, "customer")}`),
    distances(answer, state.head.unit),
    checked,
  ].filter(Boolean));
}

let ticking = null;

// What is under way, told as it goes. Seconds are counted here, since a slice of a large instance takes a while.
export function showWork({ work }) {
  const progress = at("progress");
  clearInterval(ticking);
  progress.hidden = !work;
  at("solve").disabled = at("undo").disabled = Boolean(work);
  at("stop").disabled = !work;
  at("stop").textContent = work?.isStopping ? "Stop at once" : "Stop";
  if (!work) return;
  const seconds = el("span", { className: "pale" }), stopping = work.isStopping ? "Stopping behind the slice that is under way." : "";
  const tick = () => { seconds.textContent = ` ${Math.max(0, Math.round(Date.now() / 1000 - work.begun))} s`; };
  progress.replaceChildren(el("strong", {}, `${work.what} …`), seconds, el("div", { id: "live" }, work.text), el("div", {}, stopping));
  tick();
  ticking = setInterval(tick, 1000);
}
