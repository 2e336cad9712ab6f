// What is drawn on the map: the outline, lanes, customers as large as their demands, and sites.

import { colours } from "./colours.js";
import { Labels } from "./labels.js";

const MOST_NAMES = 140;
// More marks than these are drawn in the quickest way.
const MOST_ROUND = 600;
// The colours of sites that are closed in the answer, by what they are to be.
const STATUS = { free: "#777", closed: "#c33", open: "#1f6fb4" };

// The sizes of marks in pixels: less where there are many, more the nearer the map is.
export function sizes(state, view) {
  const near = Math.sqrt(Math.min(view.nearness(), 6));
  return {
    half: Math.max(3.5, Math.min(8, 60 / Math.sqrt(state.sites.size))) * Math.min(near, 1.5),
    largest: Math.max(3, Math.min(11, 130 / Math.sqrt(state.customers.size))) * near,
  };
}

const most = new WeakMap();

// The greatest demand. A demand is a text, and a number only for the size of a mark.
function greatest(customers, mark) {
  if (most.get(customers)?.mark !== mark) {
    let found = 0;
    for (const it of customers.values()) found = Math.max(found, Number(it.demand));
    most.set(customers, { mark, found });
  }
  return most.get(customers).found;
}

export function radius(demand, greatest, largest) {
  return greatest ? largest * Math.max(0.28, Math.sqrt(Number(demand) / greatest)) : largest / 2;
}

export class Picture {
  constructor(context, state, view, chosen, mark) {
    Object.assign(this, { context, state, view, chosen });
    this.open = new Set(state.loads.keys());
    this.colours = colours(this.open, state.sites);
    this.sizes = sizes(state, view);
    this.greatest = greatest(state.customers, mark);
  }

  draw() {
    this.context.clearRect(0, 0, this.view.wide, this.view.high);
    this.outline();
    this.lanes();
    this.customers();
    this.closed();
    this.openSites();
    this.names();
    this.ring();
    this.scale();
  }

  outline() {
    const { context, view, state } = this;
    context.beginPath();
    for (const line of state.outline ?? []) line.forEach((place, k) => (k ? context.lineTo(...view.spot(place)) : context.moveTo(...view.spot(place))));
    context.strokeStyle = "#b9b6a8";
    context.lineWidth = 1;
    context.stroke();
  }

  // The customers of each open site together, so that a colour is set once: those without a site come under 0.
  groups() {
    if (!this.found) {
      this.found = new Map();
      for (const [id, it] of this.state.customers) {
        const site = this.state.plan.get(id) ?? 0;
        if (!this.found.has(site)) this.found.set(site, []);
        if (it.at) this.found.get(site).push([id, it]);
      }
    }
    return this.found;
  }

  lanes() {
    const { context, view, state } = this;
    context.lineWidth = 1;
    context.globalAlpha = state.answer?.isStale ? 0.25 : 0.55;
    for (const [site, those] of this.groups()) {
      const from = state.sites.get(site)?.at;
      if (!from) continue;
      context.beginPath();
      for (const [, it] of those) {
        context.moveTo(...view.spot(from));
        context.lineTo(...view.spot(it.at));
      }
      context.strokeStyle = this.colours.get(site) ?? "#999";
      context.stroke();
    }
    context.globalAlpha = 1;
  }

  customers() {
    const { context, view } = this, isEdged = this.state.customers.size <= MOST_ROUND;
    context.strokeStyle = "white";
    context.lineWidth = 0.7;
    for (const [site, those] of this.groups()) {
      context.fillStyle = this.colours.get(site) ?? "#8d8d86";
      for (const [, it] of those) {
        const spot = view.spot(it.at), r = radius(it.demand, this.greatest, this.sizes.largest);
        if (this.isSeen(spot)) this.dot(...spot, r, isEdged);
      }
    }
  }

  // A circle, or where it is small and one of many a square, which takes a third of the time.
  dot(x, y, r, isEdged) {
    const { context } = this;
    if (!isEdged && r < 3.5) return context.fillRect(Math.round(x - r), Math.round(y - r), Math.round(2 * r), Math.round(2 * r));
    context.beginPath();
    context.arc(x, y, r, 0, 7);
    context.fill();
    if (isEdged) context.stroke();
  }

  closed() {
    const { context, view, state } = this, half = this.sizes.half * 0.7, isFew = state.sites.size <= MOST_ROUND;
    context.lineWidth = Math.max(1.5, half / 3);
    for (const [id, it] of state.sites) {
      const spot = it.at && !this.open.has(id) && view.spot(it.at);
      if (!spot || !this.isSeen(spot)) continue;
      context.strokeStyle = context.fillStyle = STATUS[it.status];
      if (isFew) this.cross(...spot, half);
      else this.plus(Math.round(spot[0]), Math.round(spot[1]), Math.round(half));
    }
  }

  cross(x, y, half) {
    const { context } = this;
    context.beginPath();
    context.moveTo(x - half, y - half); context.lineTo(x + half, y + half);
    context.moveTo(x - half, y + half); context.lineTo(x + half, y - half);
    context.stroke();
  }

  plus(x, y, half) {
    this.context.fillRect(x - half, y, 2 * half + 1, 1);
    this.context.fillRect(x, y - half, 1, 2 * half + 1);
  }

  openSites() {
    const { context, view, state } = this, half = this.sizes.half;
    for (const id of this.open) {
      const it = state.sites.get(id);
      if (!it?.at) continue;
      const [x, y] = view.spot(it.at);
      context.fillStyle = this.colours.get(id);
      context.fillRect(x - half, y - half, 2 * half, 2 * half);
      // A site that must stay closed from now on, and is open in the answer of before, has a red edge.
      context.strokeStyle = { open: "#111", closed: "#d00", free: "white" }[it.status];
      context.lineWidth = it.status === "free" ? 1.2 : 2;
      context.strokeRect(x - half, y - half, 2 * half, 2 * half);
    }
  }

  isSeen([x, y]) {
    return x > 0 && y > 0 && x < this.view.wide && y < this.view.high;
  }

  names() {
    const { view, state } = this, { half, largest } = this.sizes;
    const labels = new Labels(this.context, view.wide, view.high);
    const seen = (those) => [...those].filter(([, it]) => it.at && this.isSeen(view.spot(it.at)));
    const sites = seen(state.sites), open = sites.filter(([id]) => this.open.has(id)), customers = seen(state.customers);
    const isFew = sites.length - open.length <= MOST_NAMES;
    for (const [, it] of isFew ? sites : open) labels.mark(...view.spot(it.at), half);
    const put = ([, it], gap, ...how) => labels.put(...view.spot(it.at), gap, it.name, ...how);
    for (const it of open.slice(0, MOST_NAMES)) put(it, half + 4, 12, "#222", "bold");
    for (const it of isFew ? sites : []) if (!this.open.has(it[0])) put(it, half + 3, 11, "#666", "");
    for (const it of customers.length <= MOST_NAMES ? customers : [])
      put(it, radius(it[1].demand, this.greatest, largest) + 3, 10, "#555", "");
  }

  ring() {
    const { chosen, state, view, context } = this;
    const it = chosen && state[chosen.kind].get(chosen.id);
    if (!it?.at) return;
    context.beginPath();
    context.arc(...view.spot(it.at), this.sizes.half + 6, 0, 7);
    context.strokeStyle = "#e39b2d";
    context.lineWidth = 3;
    context.stroke();
  }

  // A scale of a round length: 1, 2 or 5 with zeros.
  scale() {
    const { context, view, state } = this, most = 140 / view.scale, ten = 10 ** Math.floor(Math.log10(most));
    const length = [5, 2, 1].find((it) => it * ten <= most) * ten, y = view.high - 16;
    context.beginPath();
    context.moveTo(14, y - 5); context.lineTo(14, y); context.lineTo(14 + length * view.scale, y); context.lineTo(14 + length * view.scale, y - 5);
    context.strokeStyle = "#222";
    context.lineWidth = 1;
    context.stroke();
    context.font = '11px "DejaVu Sans", Verdana, sans-serif';
    context.fillStyle = "#222";
    context.fillText(`${Number(length.toPrecision(1))} ${state.head.unit}`.trim(), 20 + length * view.scale, y + 3);
  }
}
