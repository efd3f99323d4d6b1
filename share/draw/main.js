// The page comes to life: the data are read, and the controls do what they say.

function byId(id) {
  return document.getElementById(id);
}

function count(number, one, many) {
  return number + " " + (number === 1 ? one : many);
}

function summary(model) {
  const tasks = model.rows.filter((row) => /^t[0-9]/.test(row.name)).length;
  const part = model.count < model.total
    ? `entries ${model.first} to ${model.last} of ${model.total}`
    : count(model.count, "entry", "entries");
  return [
    part, count(tasks, "task", "tasks"),
    count(model.credentials.length, "credential", "credentials"),
    count(model.refusals.length, "refusal", "refusals"),
  ].join(", ");
}

// Which entries the filters leave: those that tell of the capability.
function filter(view) {
  const hits = view.cap < 0 ? null : placesOfCap(view.model, view.cap);
  view.hits = hits && hits.filter((at) => hasColumn(view.model, at));
  view.marked = view.hits && new Set(view.hits);
  byId("hits").hidden = hits === null;
  if (hits) byId("hitcount").textContent = count(view.hits.length, "entry", "entries");
  fillList(view);
  refresh(view, true);
}

// The next of these entries that is shown, or the one before.
function step(view, places, forward) {
  const { model } = view;
  const here = (place) => isShown(view, model.rowOf(place)) && hasColumn(model, place);
  const shown = places.filter(here);
  const from = view.picked || (forward ? view.firstShown() - 1 : view.lastShown() + 1);
  const at = forward ? lastUpTo(shown, from, itself) + 1 : lastUpTo(shown, from - 1, itself);
  if (shown[at] !== undefined) choose(view, shown[at]);
}

function everyEntry(view) {
  return { length: view.model.count, filter: (keep) => {
    const kept = [];
    for (let at = view.model.first; at <= view.model.last; at++) if (keep(at)) kept.push(at);
    return kept;
  } };
}

function onKey(view, event) {
  if (event.ctrlKey || event.altKey || event.metaKey) return;
  const near = view.hits || everyEntry(view);
  const keys = {
    ArrowRight: () => step(view, near, true),
    ArrowLeft: () => step(view, near, false),
    Home: () => choose(view, view.model.places[0]),
    End: () => choose(view, view.model.places[view.model.places.length - 1]),
    r: () => step(view, view.model.refusals, true),
    R: () => step(view, view.model.refusals, false),
    n: () => step(view, view.model.news, true),
    N: () => step(view, view.model.news, false),
    "+": () => zoom(view, 1.5),
    "-": () => zoom(view, 1 / 1.5),
  };
  if (!keys[event.key]) return;
  keys[event.key]();
  event.preventDefault();
}

// Beside the pointer, and within the window.
function showTip(view, event, lines) {
  const { tip } = view;
  tip.hidden = lines === null;
  if (lines === null) return;
  tell(tip, lines);
  const [wide, tall] = [tip.offsetWidth, tip.offsetHeight];
  const left = Math.min(event.clientX + 14, window.innerWidth - wide - 6);
  const below = event.clientY + 18;
  const top = below + tall > window.innerHeight ? event.clientY - tall - 12 : below;
  tip.style.left = Math.max(left, 6) + "px";
  tip.style.top = Math.max(top, 6) + "px";
}

function onPoint(view, event) {
  const hit = found(view, event.offsetX, event.offsetY);
  const at = hit ? hit.at : 0;
  showTip(view, event, hit && hit.lines);
  if (at !== view.hover) {
    view.hover = at;
    refresh(view, false);
  }
}

function onPick(view, event) {
  const hit = found(view, event.offsetX, event.offsetY);
  if (!hit) return;
  view.picked = hit.at;
  tell(view.panel, hit.lines);
  refresh(view, false);
}

// Where all rows are on the screen, a turn of the wheel goes along the entries.
function turn(view, event) {
  const { scroller } = view;
  if (event.shiftKey || event.deltaX !== 0 || view.height > view.tall) return;
  scroller.scrollLeft += event.deltaY;
  event.preventDefault();
}

function connectPointer(view) {
  const { canvas, scroller, overview } = view;
  canvas.addEventListener("pointermove", (event) => onPoint(view, event));
  canvas.addEventListener("pointerleave", () => {
    view.tip.hidden = true;
    view.hover = 0;
    refresh(view, false);
  });
  canvas.addEventListener("click", (event) => onPick(view, event));
  scroller.addEventListener("scroll", () => {
    view.tip.hidden = true;
    refresh(view, false);
  });
  scroller.addEventListener("wheel", (event) => {
    if (!event.ctrlKey) return turn(view, event);
    event.preventDefault();
    const left = event.clientX - scroller.getBoundingClientRect().left;
    zoom(view, event.deltaY < 0 ? 1.25 : 0.8, left);
  }, { passive: false });
  scroller.addEventListener("keydown", (event) => onKey(view, event));
  const jump = (event) => {
    const part = event.offsetX / overview.clientWidth;
    const all = view.model.places.length * view.w;
    scroller.scrollLeft = part * all - (view.width - view.left) / 2;
  };
  overview.addEventListener("pointerdown", jump);
  overview.addEventListener("pointermove", (event) => event.buttons & 1 && jump(event));
}

function connectControls(view) {
  const { model } = view;
  const press = (id, act) => byId(id).addEventListener("click", act);
  byId("bar").addEventListener("submit", (event) => event.preventDefault());
  byId("tasks").addEventListener("input", (event) => {
    view.tasks = event.target.value.split(/[\s,]+/).filter((word) => word !== "");
    filter(view);
  });
  CAPS.forEach((name, number) => byId("cap").append(new Option(name, number)));
  byId("cap").addEventListener("change", (event) => {
    view.cap = event.target.value === "" ? -1 : Number(event.target.value);
    filter(view);
  });
  byId("holds").checked = view.holds;
  byId("holds").addEventListener("change", (event) => {
    view.holds = event.target.checked;
    fold(model, !view.holds);
    view.w = 0;
    filter(view);
  });
  for (const id of ["slots", "fold"]) {
    byId(id).checked = view[id];
    byId(id).addEventListener("change", (event) => {
      view[id] = event.target.checked;
      refresh(view, true);
    });
  }
  press("hitback", () => step(view, view.hits, false));
  press("hiton", () => step(view, view.hits, true));
  press("refusalback", () => step(view, model.refusals, false));
  press("refusalon", () => step(view, model.refusals, true));
  press("in", () => zoom(view, 1.5));
  press("out", () => zoom(view, 1 / 1.5));
  press("fit", () => zoom(view, 0));
  byId("refusals").hidden = model.refusals.length === 0;
  byId("refusalcount").textContent = count(model.refusals.length, "refusal", "refusals");
}

function start() {
  const data = JSON.parse(byId("data").textContent);
  const model = readModel(data);
  const view = newView(model);
  for (const name of data.shown || []) view[name] = true;
  fold(model, !view.holds);
  byId("sum").textContent = summary(model);
  readTheme(view);
  connectControls(view);
  connectPointer(view);
  const hint = "Point at an entry, or choose one, to read it with its sets as names.";
  tell(view.panel, [["faint", hint]]);
  fillList(view);
  window.addEventListener("resize", () => refresh(view, true));
  window.matchMedia("(prefers-color-scheme: dark)").addEventListener("change", () => {
    readTheme(view);
    refresh(view, true);
  });
  view.resized = true;
  draw(view);
  // How long it took from the start of loading, for whoever measures.
  document.documentElement.dataset.opened = String(Math.round(performance.now()));
}

start();
