// What the page shows, from the data that stand in it: rows, spans, entries by their numbers.

const BAND = 0;
const HOLD = 1;
const PREPARED = 2;
const OVERRIDE = 3;
const FILE = 4;

// The place of the last of these whose number isn't above a bound; -1 where there is none.
function lastUpTo(list, bound, number) {
  let low = 0;
  let high = list.length;
  while (low < high) {
    const middle = (low + high) >> 1;
    if (number(list[middle]) <= bound) low = middle + 1;
    else high = middle;
  }
  return low - 1;
}

const itself = (number) => number;
const startOf = (span) => span.start;

// What of a list, in the order of its starts, may meet the entries from one to another. Spans of
// one list don't overlap, so that at most one begins before them.
function* meeting(list, from, to) {
  for (let at = Math.max(lastUpTo(list, from, startOf), 0); at < list.length; at++) {
    if (list[at].start > to) return;
    yield list[at];
  }
}

function put(lists, level, item) {
  while (lists.length <= level) lists.push([]);
  lists[level].push(item);
}

function readCredentials(data) {
  return data.credentials.map(([name, slot, start, given, swept, reused, told]) => ({
    name, slot, start, given, swept, reused, told, number: Number(name.slice(1)),
    sets: told.caps ? told.caps.split(" ") : null,
  }));
}

function readSpans(data, model) {
  const { kind, label, cred, start, end, kept, row, level, held } = data.spans;
  for (let at = 0; at < kind.length; at++) {
    const span = {
      kind: kind[at], label: label[at], cred: model.credentials[cred[at]] || null,
      start: start[at], end: end[at], kept: kept[at], row: model.rows[row[at]],
    };
    const folds = span.kind === HOLD || span.kind === PREPARED;
    if (span.kind === BAND) span.row.bands.push(span);
    else put(folds ? span.row.held : span.row.lasting, level[at], span);
    if (span.cred && held[at] >= 0) put(model.slots[span.cred.slot].levels, held[at], span);
    if (span.kept >= 0) model.slots[span.kept].kept.push(span);
  }
}

function readRows(data, model) {
  data.of.forEach((row, at) => model.rows[row].all.push(model.first + at));
  for (const change of data.changes) {
    const [place, row, since, sets, asked, gain] = change;
    const told = { place, row: model.rows[row], since, sets, asked, gain };
    model.changes.set(place, told);
    told.row.changes.push(place);
  }
  for (const life of model.credentials) model.slots[life.slot].lives.push(life);
  for (const slot of model.slots) slot.lives.sort((one, other) => one.start - other.start);
}

function newRow(name, note, place) {
  return {
    name, note, place, all: [], entries: [], bands: [], lasting: [], held: [], levels: [],
    changes: [], y: -1, band: 0,
  };
}

// What a line takes and prepares for itself has no column where holds are folded.
function fold(model, folded) {
  model.folded = folded;
  const isMinor = (place) => model.kinds[place - model.first] === "m";
  model.places = [];
  model.columns = new Int32Array(model.count + 1);
  for (let at = 0; at < model.count; at++) {
    model.columns[at] = model.places.length;
    if (!folded || model.kinds[at] !== "m") model.places.push(model.first + at);
  }
  // A part of a report may have nothing else.
  if (model.places.length === 0) return fold(model, false);
  model.columns[model.count] = model.places.length;
  for (const row of model.rows) {
    row.entries = folded ? row.all.filter((place) => !isMinor(place)) : row.all;
    row.levels = folded ? row.lasting : [...row.lasting, ...row.held];
  }
}

// The column of an entry; one that has none begins where the next one does.
function columnOf(model, at) {
  const place = at - model.first;
  return place < 0 ? place : model.columns[Math.min(place, model.count)];
}

function hasColumn(model, at) {
  return model.places[columnOf(model, at)] === at;
}

function readModel(data) {
  useTables(data.caps, data.flags);
  const texts = data.texts.split("\n");
  const model = {
    first: data.first, last: data.last, total: data.total, count: texts.length, texts,
    kinds: data.kinds, sweeps: data.sweeps, changes: new Map(), why: new Map(data.why),
    lines: texts.map((text) => parseInt(text, 10)),
    rows: data.rows.map(([name, process], place) => newRow(name, process, place)),
    slots: data.slots.map((name) => ({ name, lives: [], kept: [], levels: [], y: -1 })),
    credentials: readCredentials(data),
  };
  model.rowOf = (place) => model.rows[data.of[place - model.first]];
  model.text = (place) => texts[place - model.first];
  model.kind = (place) => (data.kinds[place - model.first]).replace("m", "o");
  model.line = (place) => model.lines[place - model.first];
  model.links = data.links.map(([kind, start, row, end, to]) => ({
    kind, start, row: model.rows[row], end, to: model.rows[to],
  }));
  readSpans(data, model);
  readRows(data, model);
  fold(model, true);
  model.refusals = placesOf(model, "x");
  model.news = placesOf(model, "n");
  return model;
}

// The entries of a kind.
function placesOf(model, kind) {
  const found = [];
  for (let at = model.kinds.indexOf(kind); at >= 0; at = model.kinds.indexOf(kind, at + 1)) {
    found.push(model.first + at);
  }
  return found;
}

// Whether an entry tells of a capability: it asks or names it, or lists sets, or it came or went.
function tellsOf(model, place, cap) {
  const change = model.changes.get(place);
  if (change) {
    const moved = change.sets.some(([, came, went]) => has(came, cap) || has(went, cap));
    const asked = change.asked.some(([, sign, hex]) => sign === "=" || has(hex, cap));
    if (moved || asked || change.gain.some((hex) => has(hex, cap))) return true;
  }
  const words = model.text(place).split(" ");
  if (words[1] !== "ask" && words[1] !== "change") return false;
  if (["caps", "capset", "ambclear"].includes(words[3])) return true;
  return OF_ONE.test(words[3]) && words[4] === String(cap);
}

function placesOfCap(model, cap) {
  const found = [];
  for (let place = model.first; place <= model.last; place++) {
    if (tellsOf(model, place, cap)) found.push(place);
  }
  return found;
}
