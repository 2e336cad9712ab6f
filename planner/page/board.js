// The board: what of the page is shown anew when a part of the state changes, and what buttons and keys ask for.

import { at, isTyping } from "./dom.js";
import { ask, follow, state } from "./net.js";
import { RegionMap } from "./map.js";
import { Finder } from "./find.js";
import { showAnswer, showWork } from "./answer.js";
import { showChosen, told } from "./chosen.js";
import { showAgainst, showEdits, showSites } from "./lists.js";
import { showCurve, showFiles, showScenarios } from "./scenarios.js";

let chosen = null, map = null;

function say(text, isRefused = false) {
  at("said").textContent = text;
  at("said").classList.toggle("refused", isRefused);
}

// Asks for something, and says what is refused.
async function tell(what, words) {
  try {
    const { said } = await ask(what, words);
    say(said ?? "");
  } catch (refused) {
    say(refused.message, true);
  }
}

function choose(it, isShown = false) {
  chosen = it;
  map.chosen = it;
  if (isShown) map.show(it);
  else map.paint();
  showChosen(state, chosen, tell);
}

// Which sections of the state each part of the page shows.
const PARTS = [
  [["head"], () => { document.title = state.head.title; at("title").textContent = state.head.title; at("keep").hidden = !state.head.hasStore; }],
  [["answer", "loads", "work", "customers"], () => showAnswer(state, tell)],
  [["work"], () => showWork(state)],
  [["edits"], () => showEdits(state)],
  [["against", "edits"], () => showAgainst(state, choose, tell)],
  [["loads", "sites"], () => showSites(state, choose)],
  [["scenarios", "work"], () => showScenarios(state, tell)],
  [["curve"], () => showCurve(state)],
  [["files"], () => showFiles(state)],
  [["sites", "customers", "loads", "plan", "answer", "breakeven", "work"], () => showChosen(state, chosen, tell)],
];

function changed(sections) {
  for (const [of, show] of PARTS) if (of.some((it) => sections.includes(it))) show();
  if (["sites", "customers", "plan", "loads", "answer", "outline"].some((it) => sections.includes(it))) map.update(sections);
  if (sections.includes("said") && state.said) say(state.said.text, state.said.isRefused);
}

// The next or previous of all sites or customers, by their ids.
function step(kind, by) {
  const ids = [...state[kind].keys()].sort((a, b) => a - b), place = chosen?.kind === kind ? ids.indexOf(chosen.id) : by > 0 ? -1 : 0;
  choose({ kind, id: ids[(place + by + ids.length) % ids.length] }, true);
  const it = state[kind].get(chosen.id);
  say(told(state, chosen).replaceAll("\n", ", ") || it.name);
}

const onSite = (what) => { if (chosen?.kind === "sites") tell(what, { id: chosen.id }); };

function escape() {
  if (state.work) return tell("stop");
  choose(null);
  at("canvas").focus();
}

const KEYS = {
  s: () => tell("solve"), u: () => tell("undo"), Escape: escape, "/": () => at("find-name").focus(), "?": () => at("help").showModal(),
  n: () => step("sites", 1), p: () => step("sites", -1), c: () => step("customers", 1), v: () => step("customers", -1),
  o: () => onSite("open"), x: () => onSite("close"), f: () => onSite("free"), e: () => at("chosen-body").querySelector("input")?.select(),
};

document.addEventListener("keydown", (event) => {
  if (event.ctrlKey || event.metaKey || event.altKey || at("help").open) return;
  if (isTyping(event.target) && event.key !== "Escape") return;
  const does = KEYS[event.key.length === 1 ? event.key.toLowerCase() : event.key];
  if (!does) return;
  event.preventDefault();
  does();
});

at("solve").onclick = () => tell("solve");
at("stop").onclick = () => tell("stop");
at("undo").onclick = () => tell("undo");
at("keys").onclick = () => at("help").showModal();
at("keep").onsubmit = (event) => { event.preventDefault(); tell("keep", { name: at("keep-name").value }); };
at("draw").onsubmit = (event) => { event.preventDefault(); tell("curve", { first: Number(at("curve-first").value), last: Number(at("curve-last").value) }); };

map = new RegionMap(state, (it) => choose(it), (it) => told(state, it));
new Finder(state, choose);
follow(changed, (isLost) => { if (isLost) say("The board doesn't answer. It shows what was so last.", true); else if (at("said").classList.contains("refused")) say(""); });
