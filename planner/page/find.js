// The field that finds sites and customers by their names, by keyboard or mouse.

import { at, el } from "./dom.js";

const SHOWN = 12;

export class Finder {
  constructor(state, choose) {
    Object.assign(this, { state, choose, found: [], place: 0 });
    const field = at("find-name");
    field.addEventListener("input", () => this.look(field.value));
    field.addEventListener("keydown", (event) => this.key(event));
    field.addEventListener("blur", () => setTimeout(() => this.show([]), 150));
    at("find").addEventListener("submit", (event) => {
      event.preventDefault();
      this.take(this.found[this.place]);
    });
  }

  look(text) {
    const words = text.trim().toLowerCase(), found = [[], []];
    for (const kind of words ? ["sites", "customers"] : [])
      for (const [id, it] of this.state[kind]) {
        const place = it.name.toLowerCase().indexOf(words);
        if (place >= 0) found[place ? 1 : 0].push({ kind, id, name: it.name });
      }
    this.show(found.flat().slice(0, SHOWN));
  }

  show(found) {
    [this.found, this.place] = [found, 0];
    const list = at("found");
    list.hidden = !found.length;
    at("find-name").setAttribute("aria-expanded", String(found.length > 0));
    list.replaceChildren(...found.map((it, place) => el("li", {
      role: "option", id: `found-${place}`, onmousedown: (event) => { event.preventDefault(); this.take(it); },
    }, `${it.name} `, el("span", { className: "pale" }, it.kind === "sites" ? "site" : "customer"))));
    this.mark();
  }

  mark() {
    [...at("found").children].forEach((it, place) => it.setAttribute("aria-selected", String(place === this.place)));
    if (this.found.length) at("find-name").setAttribute("aria-activedescendant", `found-${this.place}`);
    else at("find-name").removeAttribute("aria-activedescendant");
  }

  key(event) {
    const by = { ArrowDown: 1, ArrowUp: -1 }[event.key];
    if (event.key === "Escape") {
      at("find-name").value = "";
      this.show([]);
      event.stopPropagation();
    }
    if (!by || !this.found.length) return;
    event.preventDefault();
    this.place = (this.place + by + this.found.length) % this.found.length;
    this.mark();
  }

  take(it) {
    if (!it) return;
    at("find-name").value = "";
    this.show([]);
    this.choose({ kind: it.kind, id: it.id }, true);
    // So that the keys of the board mean what is chosen, and no further letters of a name.
    at("canvas").focus();
  }
}
