// A colour for each open site: of all the one whose nearest use is farthest away, so that neighbours differ.

const COLOURS = ["#1f6fb4", "#e07b00", "#2a9d4a", "#c8323c", "#7d54b2", "#8a5a3c", "#d45ca8", "#5f7f00", "#009aa6", "#b59000", "#34479e", "#7f2a5b"];

const chosen = new Map();

// Colours of the sites, which keep theirs as long as they are open.
export function colours(open, sites) {
  for (const id of chosen.keys()) if (!open.has(id)) chosen.delete(id);
  for (const id of open) {
    if (chosen.has(id)) continue;
    const nearest = new Map(COLOURS.map((colour) => [colour, Infinity]));
    const spot = sites.get(id)?.at;
    for (const [other, colour] of chosen) {
      const at = sites.get(other)?.at;
      const away = spot && at ? Math.hypot(spot[0] - at[0], spot[1] - at[1]) : 0;
      nearest.set(colour, Math.min(nearest.get(colour), away));
    }
    chosen.set(id, COLOURS.reduce((best, colour) => (nearest.get(colour) > nearest.get(best) ? colour : best)));
  }
  return chosen;
}
