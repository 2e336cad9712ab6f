// Elements of the page. All text is set as text, so that a name is never read as HTML.

export const at = (id) => document.getElementById(id);

// An element with its properties and what is in it: texts, elements, or nothing.
export function el(name, properties = {}, ...inner) {
  const made = document.createElement(name);
  for (const [key, value] of Object.entries(properties)) {
    if (key.startsWith("on")) made.addEventListener(key.slice(2), value);
    else if (key in made) made[key] = value;
    else made.setAttribute(key, value);
  }
  made.append(...inner.filter((it) => it !== null && it !== undefined && it !== ""));
  return made;
}

// A table of rows of cells. A cell is a text, an element, or a number's text within a list: ["12.5"].
export function table(titles, rows) {
  const cell = (kind, it) => (Array.isArray(it) ? el(kind, { className: "number" }, ...it) : el(kind, {}, it));
  return el("table", {},
    el("thead", {}, el("tr", {}, ...titles.map((it) => cell("th", it)))),
    el("tbody", {}, ...rows.map((row) => el("tr", {}, ...row.map((it) => cell("td", it))))));
}

// An amount with commas between thousands. Amounts stay texts: no float touches one.
export function grouped(amount) {
  if (amount === null || amount === undefined) return "none";
  const [whole, part] = amount.split(".");
  return whole.replace("-", "−").replace(/\B(?=(\d{3})+$)/g, ",") + (part ? `.${part}` : "");
}

export const plural = (many, what) => `${many} ${what}${many === 1 ? "" : "s"}`;

// Whether the words go to a field that is being typed into.
export const isTyping = (target) => target.matches("input, select, textarea");
