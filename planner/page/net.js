// The state that the board shows. The server sends it whole once, and then only what changes of it.

export const state = {};
// These sections go by ids, and of them only the rows that changed are sent.
const KEYED = new Set(["sites", "customers", "plan", "loads"]);

let version = 0;

function take(change) {
  for (const [name, value] of Object.entries(change)) {
    if (!KEYED.has(name)) {
      state[name] = value;
      continue;
    }
    const rows = state[name];
    for (const [id, row] of Object.entries(value)) {
      if (row === null) rows.delete(Number(id));
      else rows.set(Number(id), row);
    }
  }
}

async function whole() {
  const answer = await fetch("state");
  const found = await answer.json();
  version = found.version;
  for (const name of KEYED) state[name] = new Map();
  take(found.state);
  return Object.keys(found.state);
}

// Follows the state, and calls `changed` with the names of the sections that did. `lost` tells whether the board answers no more.
export async function follow(changed, lost) {
  changed(await whole());
  const events = new EventSource(`events?after=${version}`);
  events.onmessage = (event) => {
    const change = JSON.parse(event.data);
    version = Number(event.lastEventId);
    take(change);
    changed(Object.keys(change));
  };
  events.addEventListener("whole", async () => changed(await whole()));
  events.onopen = () => lost(false);
  events.onerror = () => lost(true);
}

// Asks the board to do something. What it refuses is thrown, in its words.
export async function ask(what, words = {}) {
  const answer = await fetch("do", {
    method: "POST",
    headers: { "Content-Type": "application/json" },
    body: JSON.stringify({ do: what, ...words }),
  });
  const said = await answer.json();
  if (!answer.ok) throw new Error(said.refused);
  return said;
}
