// Where the places of the map are on the canvas. The second coordinate goes up.

const EDGE = 34, NEAREST = 400;
// A step of the zoom.
export const STEP = 1.25;

export class View {
  constructor() {
    this.wide = this.high = 1;
    this.bounds = null;
    this.scale = 1;
    this.left = this.top = 0;
    this.isFit = true;
  }

  // The places that are to be seen.
  show(places) {
    let [x1, y1, x2, y2] = [Infinity, Infinity, -Infinity, -Infinity];
    for (const [x, y] of places) {
      x1 = Math.min(x1, x); x2 = Math.max(x2, x);
      y1 = Math.min(y1, y); y2 = Math.max(y2, y);
    }
    this.bounds = x1 <= x2 ? [x1, y1, x2, y2] : null;
    if (this.isFit) this.fit();
  }

  resize(wide, high) {
    [this.wide, this.high] = [wide, high];
    if (this.isFit) this.fit();
  }

  // The scale at which all places are seen.
  whole() {
    const [x1, y1, x2, y2] = this.bounds;
    const across = (this.wide - 2 * EDGE) / (x2 - x1), along = (this.high - 2 * EDGE) / (y2 - y1);
    const found = Math.max(Math.min(across, along), 0);
    return Number.isFinite(found) && found > 0 ? found : 1;
  }

  fit() {
    if (!this.bounds) return;
    const [x1, y1, x2, y2] = this.bounds;
    this.scale = this.whole();
    this.left = this.wide / 2 - ((x1 + x2) / 2) * this.scale;
    this.top = this.high / 2 + ((y1 + y2) / 2) * this.scale;
    this.isFit = true;
  }

  spot([x, y]) {
    return [this.left + x * this.scale, this.top - y * this.scale];
  }

  move(across, along) {
    this.left += across;
    this.top += along;
    this.isFit = false;
  }

  // Zooms by steps, with what is at the point staying there.
  zoom(steps, x = this.wide / 2, y = this.high / 2) {
    if (!this.bounds) return;
    const least = this.whole() / 4;
    const scale = Math.min(Math.max(this.scale * STEP ** steps, least), least * 4 * NEAREST), by = scale / this.scale;
    this.left = x - (x - this.left) * by;
    this.top = y - (y - this.top) * by;
    this.scale = scale;
    this.isFit = false;
  }

  // How much nearer than the whole map this is.
  nearness() {
    return this.bounds ? this.scale / this.whole() : 1;
  }

  // Moves a place to the middle where it is outside.
  reach(place) {
    const [x, y] = this.spot(place);
    if (x < EDGE || y < EDGE || x > this.wide - EDGE || y > this.high - EDGE) this.move(this.wide / 2 - x, this.high / 2 - y);
  }
}
