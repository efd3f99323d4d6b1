// The list below the picture: each refusal and each change of sets, with its reason where one is told.

const MOST_LISTED = 200;

// A question by which libcap finds the last capability: it asks for numbers until one is none.
function isProbe(model, at) {
  return / ask \S+ (bset|ambis) [0-9]+ -> einval$/.test(model.text(at));
}

// What the filters leave of them, in their order.
function listed(view) {
  const { model } = view;
  const places = new Set([...model.refusals, ...model.changes.keys(), ...model.why.keys()]);
  const left = (at) => isShown(view, model.rowOf(at)) && !isProbe(model, at) &&
    (!view.marked || view.marked.has(at));
  return [...places].filter(left).sort((one, other) => one - other);
}

function listLines(model, at) {
  const where = "line " + model.line(at) + ", " + model.rowOf(at).name + ": ";
  const change = model.changes.get(at);
  const moved = change ? changeParts(change, SET_NAMES) : [];
  const reasons = (model.why.get(at) || []).map((reason) => ["why", reason]);
  const head = model.kind(at) === "x" ? "bad" : "head";
  return [[head, where + shortOf(model, at)], ...moved, ...reasons];
}

// Refusals, losses and gains are told apart by the line at their left.
function markOf(model, at) {
  if (model.kind(at) === "x") return "refusal";
  const change = model.changes.get(at);
  const kinds = change ? changeParts(change).map(([kind]) => kind) : [];
  return kinds.includes("went") ? "loss" : kinds.includes("came") ? "gain" : "";
}

// Each is a button, which has the entry come into view.
function listItem(view, at) {
  const item = document.createElement("li");
  const button = document.createElement("button");
  button.type = "button";
  button.className = markOf(view.model, at);
  tell(button, listLines(view.model, at));
  button.addEventListener("click", () => choose(view, at));
  item.append(button);
  return item;
}

function fillList(view) {
  const places = listed(view);
  const items = places.slice(0, MOST_LISTED).map((at) => listItem(view, at));
  if (places.length > MOST_LISTED) {
    const rest = document.createElement("li");
    rest.className = "less";
    rest.textContent = "and " + (places.length - MOST_LISTED) + " more refusals and changes";
    items.push(rest);
  }
  view.list.replaceChildren(...items);
}
