// The map: what is drawn anew when something changes, and what mouse, fingers and keys do there.

import { at } from "./dom.js";
import { Picture, sizes } from "./marks.js";
import { STEP, View } from "./view.js";

const NEAR = 12, MOVE = 60;
// A map of more marks than these is drawn only so many milliseconds after its last movement.
const MOST_DRAWN = 1000, REST = 120;

export class RegionMap {
  // `choose` is called with the kind and the id of what is clicked on, or nothing; `tell` gives the text of what is pointed at.
  constructor(state, choose, tell) {
    Object.assign(this, { state, choose, tell, view: new View(), chosen: null, isDue: false, mark: 0, pointers: new Map() });
    this.canvas = at("canvas");
    this.context = this.canvas.getContext("2d");
    new ResizeObserver(() => this.resize()).observe(this.canvas);
    this.listen();
  }

  listen() {
    const on = (name, does) => this.canvas.addEventListener(name, does);
    on("pointerdown", (event) => this.press(event));
    on("pointermove", (event) => this.drag(event));
    on("pointerup", (event) => this.release(event));
    on("pointercancel", (event) => this.pointers.delete(event.pointerId));
    on("pointerleave", () => this.point(null));
    on("wheel", (event) => {
      event.preventDefault();
      this.zoom(-Math.sign(event.deltaY), ...this.place(event));
    });
    on("keydown", (event) => this.key(event));
    at("nearer").onclick = () => this.zoom(2);
    at("farther").onclick = () => this.zoom(-2);
    at("all").onclick = () => this.fit();
  }

  resize() {
    const by = window.devicePixelRatio || 1, { clientWidth: wide, clientHeight: high } = this.canvas;
    [this.canvas.width, this.canvas.height] = [Math.round(wide * by), Math.round(high * by)];
    this.context.setTransform(by, 0, 0, by, 0, 0);
    this.view.resize(wide, high);
    this.paint();
  }

  // What was sent anew: where sites or customers came, the whole is seen again unless the map was moved.
  update(sections) {
    const { sites, customers } = this.state;
    if (sections.includes("sites") || sections.includes("customers")) {
      const count = sites.size + customers.size;
      if (count !== this.count) this.view.show([...sites.values(), ...customers.values()].filter((it) => it.at).map((it) => it.at));
      this.count = count;
      at("unplaced").hidden = this.view.bounds !== null;
      this.mark += 1;
    }
    this.paint();
  }

  // Draws before the browser's next picture, once whatever asks for it.
  paint() {
    if (this.isDue || !this.view.bounds) return;
    this.isDue = true;
    requestAnimationFrame(() => {
      this.isDue = false;
      clearTimeout(this.rest);
      new Picture(this.context, this.state, this.view, this.chosen, this.mark).draw();
      this.drawn = { ...this.view };
      this.canvas.style.transform = "";
    });
  }

  // While the map moves, one of many marks is moved as the picture that it is, and drawn anew once it rests.
  glide() {
    if (this.count <= MOST_DRAWN || !this.drawn) return this.paint();
    const { scale, left, top } = this.drawn, by = this.view.scale / scale;
    this.canvas.style.transform = `translate(${this.view.left - left * by}px, ${this.view.top - top * by}px) scale(${by})`;
    clearTimeout(this.rest);
    this.rest = setTimeout(() => this.paint(), REST);
  }

  show(chosen) {
    this.chosen = chosen;
    const place = chosen && this.state[chosen.kind].get(chosen.id)?.at;
    if (place) this.view.reach(place);
    this.paint();
  }

  fit() {
    this.view.fit();
    this.paint();
  }

  zoom(steps, x, y) {
    this.view.zoom(steps, x, y);
    this.point(null);
    this.glide();
  }

  move(across, along) {
    this.view.move(across, along);
    this.glide();
  }

  // The site or customer that is nearest to a point, sites before customers; nothing where none is near.
  find(x, y) {
    for (const kind of ["sites", "customers"]) {
      let best = null, away = Math.max(NEAR, sizes(this.state, this.view).half + 3);
      for (const [id, it] of this.state[kind]) {
        if (!it.at) continue;
        const [a, b] = this.view.spot(it.at), distance = Math.hypot(a - x, b - y);
        if (distance < away) [best, away] = [{ kind, id }, distance];
      }
      if (best) return best;
    }
    return null;
  }

  // Where an event is on the map, also while the canvas is moved.
  place(event) {
    const { left, top } = at("map").getBoundingClientRect();
    return [event.clientX - left, event.clientY - top];
  }

  press(event) {
    const [x, y] = this.place(event);
    this.pointers.set(event.pointerId, { x, y, moved: 0 });
    this.canvas.setPointerCapture(event.pointerId);
  }

  drag(event) {
    const held = this.pointers.get(event.pointerId), [x, y] = this.place(event);
    if (!held) return this.point(this.find(x, y), x, y);
    const across = x - held.x, along = y - held.y;
    held.moved += Math.abs(across) + Math.abs(along);
    if (this.pointers.size === 2) this.pinch(x, y, event.pointerId, held);
    else if (held.moved > 4) this.move(across, along);
    [held.x, held.y] = [x, y];
  }

  // Two fingers zoom by how far they are apart.
  pinch(x, y, id, held) {
    const [[, other]] = [...this.pointers].filter(([it]) => it !== id);
    const before = Math.hypot(held.x - other.x, held.y - other.y), after = Math.hypot(x - other.x, y - other.y);
    if (before && after) this.zoom(Math.log(after / before) / Math.log(STEP), (x + other.x) / 2, (y + other.y) / 2);
  }

  release(event) {
    const held = this.pointers.get(event.pointerId);
    this.pointers.delete(event.pointerId);
    if (held && held.moved <= 4) this.choose(this.find(...this.place(event)));
  }

  point(found, x, y) {
    const tip = at("tip");
    tip.hidden = !found;
    this.canvas.style.cursor = found ? "pointer" : "grab";
    if (!found) return;
    tip.textContent = this.tell(found);
    tip.style.left = `${Math.min(x + 14, this.view.wide - 220)}px`;
    tip.style.top = `${Math.min(y + 14, this.view.high - 70)}px`;
  }

  key(event) {
    const does = {
      ArrowLeft: () => this.move(MOVE, 0), ArrowRight: () => this.move(-MOVE, 0), ArrowUp: () => this.move(0, MOVE),
      ArrowDown: () => this.move(0, -MOVE), "+": () => this.zoom(1), "=": () => this.zoom(1), "-": () => this.zoom(-1), 0: () => this.fit(),
    }[event.key];
    if (!does || event.ctrlKey || event.metaKey || event.altKey) return;
    event.preventDefault();
    does();
  }
}
