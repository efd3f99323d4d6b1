// Where the rows stand, one below the other, in pixels from the top of all.

const AXIS = 32;
const LABEL_LINE = 15;
const BAND_HEIGHT = 20;
const CHANGE_LINE = 14;
const LEVEL = 15;
const GAP = 9;
const HEAD = 26;

// Of more levels than these the last ones aren't drawn; a line in their place says how many.
const MOST_LEVELS = 12;
const MOST_HOLDERS = 6;

function drawnLevels(count, most) {
  return count <= most ? count : most - 1;
}

// How many levels are drawn: all, or those up to the last that has a span between two entries.
function levelsShown(view, levels, from, to) {
  let count = levels.length;
  while (view.fold && count > 0) {
    const list = levels[count - 1];
    const span = list[lastUpTo(list, to, startOf)];
    if (span && (span.end === 0 || span.end >= from)) break;
    count--;
  }
  return count;
}

function isShown(view, row) {
  return view.tasks.length === 0 || view.tasks.includes(row.name) || view.tasks.includes(row.note);
}

// Whether a row has an entry or a span between two entries.
function isThere(row, from, to) {
  const entry = row.entries[lastUpTo(row.entries, to, itself)];
  if (entry >= from) return true;
  return [row.bands, ...row.levels].some((list) => {
    const span = list[lastUpTo(list, to, startOf)];
    return span && (span.end === 0 || span.end >= from);
  });
}

// What was given up and not swept yet is left out here.
function slotIsThere(slot, from, to) {
  const life = slot.lives[lastUpTo(slot.lives, to, startOf)];
  const kept = slot.kept[lastUpTo(slot.kept, to, startOf)];
  return Boolean(life && (life.given === 0 || life.given >= from) ||
    kept && (kept.end === 0 || kept.end >= from));
}

function taskRow(view, row, y, count) {
  row.y = y;
  row.band = y + LABEL_LINE;
  row.under = row.band + BAND_HEIGHT + 2;
  row.below = row.under + (row.changes.length > 0 ? CHANGE_LINE : 0);
  row.height = row.below - y + Math.min(count, MOST_LEVELS) * LEVEL + GAP;
  view.items.push({ kind: "task", row, y, height: row.height });
  return y + row.height;
}

function slotRow(view, slot, y, count) {
  slot.y = y;
  slot.band = y + 2;
  slot.below = slot.band + BAND_HEIGHT - 2;
  slot.height = slot.below - y + Math.min(count, MOST_HOLDERS) * LEVEL + GAP - 3;
  view.items.push({ kind: "slot", slot, y, height: slot.height });
  return y + slot.height;
}

// A slot is shown where a task that is shown refers to what stands in it.
function slotIsShown(view, slot) {
  if (view.tasks.length === 0) return true;
  return slot.levels.some((list) => list.some((span) => isShown(view, span.row)));
}

// All rows that are shown. Where rows are folded, those of the entries that are in view.
function lay(view) {
  const { model } = view;
  view.items = [];
  for (const row of model.rows) row.y = -1;
  for (const slot of model.slots) slot.y = -1;
  const [from, to] = [view.firstShown(), view.lastShown()];
  let y = AXIS + 4;
  for (const row of model.rows) {
    if (!isShown(view, row) || view.fold && !isThere(row, from, to)) continue;
    y = taskRow(view, row, y, levelsShown(view, row.levels, from, to));
  }
  if (view.slots && model.slots.length > 0) {
    view.items.push({ kind: "head", text: "slots", y, height: HEAD });
    y += HEAD;
    for (const slot of model.slots) {
      if (!slotIsShown(view, slot) || view.fold && !slotIsThere(slot, from, to)) continue;
      y = slotRow(view, slot, y, levelsShown(view, slot.levels, from, to));
    }
  }
  view.height = y + 4;
}

// The items that meet a part of the height.
function* itemsBetween(view, top, bottom) {
  const { items } = view;
  for (let at = Math.max(lastUpTo(items, top, (item) => item.y), 0); at < items.length; at++) {
    if (items[at].y > bottom) return;
    yield items[at];
  }
}
