// Names beside marks, where there is room: those of open sites first, and more of them the nearer the map is.

const CELL = 24;

export class Labels {
  constructor(context, wide, high) {
    Object.assign(this, { context, wide, high, taken: new Map() });
  }

  // The cells of a coarse grid that a box touches.
  * cells([left, top, right, foot]) {
    for (let x = Math.floor(left / CELL); x <= Math.floor(right / CELL); x++)
      for (let y = Math.floor(top / CELL); y <= Math.floor(foot / CELL); y++) yield x * 10000 + y;
  }

  isFree(box) {
    const [left, top, right, foot] = box;
    if (left < 0 || top < 0 || right > this.wide || foot > this.high) return false;
    for (const cell of this.cells(box))
      for (const [a, b, c, d] of this.taken.get(cell) ?? []) if (a < right && c > left && b < foot && d > top) return false;
    return true;
  }

  take(box) {
    for (const cell of this.cells(box)) {
      if (!this.taken.has(cell)) this.taken.set(cell, []);
      this.taken.get(cell).push(box);
    }
  }

  mark(x, y, half) {
    this.take([x - half, y - half, x + half, y + half]);
  }

  // Writes a name at one of four places beside a mark, if one is free.
  put(x, y, gap, text, size, colour, font) {
    this.context.font = `${font} ${size}px "DejaVu Sans", Verdana, sans-serif`;
    const wide = this.context.measureText(text).width;
    const spots = [[x + gap, y - size / 2], [x - gap - wide, y - size / 2], [x - wide / 2, y - gap - size], [x - wide / 2, y + gap]];
    for (const [left, top] of spots) {
      const box = [left, top, left + wide, top + size];
      if (!this.isFree(box)) continue;
      this.take(box);
      this.context.strokeStyle = "#ffffffdd";
      this.context.lineWidth = 3;
      this.context.strokeText(text, left, top + 0.82 * size);
      this.context.fillStyle = colour;
      this.context.fillText(text, left, top + 0.82 * size);
      return;
    }
  }
}
