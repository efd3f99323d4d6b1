// What is on the screen: the place, the width of an entry, what is pointed at.

// The narrowest and the widest an entry is drawn; and how wide a box browsers let one scroll.
const LEAST = 0.004;
const WIDEST = 240;
const LONGEST = 8000000;

// An entry that is so wide has room for a word.
const LEGIBLE = 64;

// Where there are more rows than these, only those in view are shown at first.
const MANY = 24;

function newView(model) {
  const view = {
    model, items: [], tasks: [], cap: -1, slots: false, holds: false,
    fold: model.rows.length > MANY || model.slots.length > MANY,
    marked: null, hits: null, hover: 0, picked: 0, w: 0, scrollX: 0, scrollY: 0,
  };
  for (const id of ["canvas", "scroller", "spacer", "overview", "panel", "list", "tip"]) {
    view[id] = document.getElementById(id);
  }
  view.ctx = view.canvas.getContext("2d");
  view.firstShown = () => {
    const column = Math.floor(view.scrollX / view.w);
    return model.places[Math.min(Math.max(column, 0), model.places.length - 1)];
  };
  view.lastShown = () => {
    const reach = Math.ceil((view.scrollX + view.width - view.left) / view.w);
    return reach < model.places.length ? model.places[reach] : model.last;
  };
  return view;
}

function readTheme(view) {
  const style = getComputedStyle(document.documentElement);
  view.theme = {};
  const names = ["paper", "raised", "ink", "faint", "line", "bad", "came", "went", "pick",
    "saturation", "lightness"];
  for (const name of names) view.theme[name] = style.getPropertyValue("--" + name).trim();
  view.hatch = pattern(view, (ctx) => {
    for (const from of [-6, 0, 6]) {
      ctx.moveTo(from, 6);
      ctx.lineTo(from + 6, 0);
    }
    ctx.stroke();
  });
  view.dots = pattern(view, (ctx) => {
    ctx.arc(3, 3, 1, 0, 7);
    ctx.fill();
  });
  view.ctx.font = FONT;
  view.charWidth = view.ctx.measureText("0000000000").width / 10;
}

// What is given up is hatched; what isn't told is dotted.
function pattern(view, paintTile) {
  const tile = document.createElement("canvas");
  tile.width = tile.height = 6;
  const ctx = tile.getContext("2d");
  ctx.strokeStyle = ctx.fillStyle = view.theme.faint;
  ctx.beginPath();
  paintTile(ctx);
  return view.ctx.createPattern(tile, "repeat");
}

// The size of the canvas is that of the box; the spacer makes the box scroll.
function measure(view) {
  view.ratio = window.devicePixelRatio || 1;
  view.left = Math.min(window.innerWidth < 600 ? 58 : 92, Math.max(58, longestName(view)));
  view.width = view.scroller.clientWidth;
  if (view.w === 0) view.w = startWidth(view);
  const wide = view.model.places.length * view.w;
  view.overview.hidden = wide <= view.width - view.left + 1;
  lay(view);
  view.scroller.style.flexBasis = Math.max(view.height + 18, 140) + "px";
  view.width = view.scroller.clientWidth;
  view.tall = view.scroller.clientHeight;
  view.canvas.width = Math.round(view.width * view.ratio);
  view.canvas.height = Math.round(view.tall * view.ratio);
  view.canvas.style.width = view.width + "px";
  view.canvas.style.height = view.tall + "px";
  view.spacer.style.width = Math.max(view.left + wide, view.width) + "px";
  view.spacer.style.height = Math.max(view.height, view.tall) + "px";
}

function longestName(view) {
  const wide = (row) => row.name.length + (row.note ? row.note.length + 1 : 0);
  const names = view.model.rows.slice(0, 200).map(wide);
  return Math.min(Math.max(...names), 12) * view.charWidth + 18;
}

// All entries, where each has room for some words; else so that some words fit.
function startWidth(view) {
  const columns = view.model.places.length;
  const all = (view.width - view.left) / columns;
  return Math.min(Math.max(all, LEGIBLE), view.holds ? 116 : WIDEST, LONGEST / columns);
}

// Draws again, once however often it is asked for before the screen is.
function refresh(view, sizes) {
  view.resized = view.resized || sizes;
  if (view.waits) return;
  view.waits = true;
  requestAnimationFrame(() => {
    view.waits = false;
    draw(view);
  });
}

function draw(view) {
  view.scrollX = view.scroller.scrollLeft;
  view.scrollY = view.scroller.scrollTop;
  if (view.resized || view.fold) measure(view);
  view.resized = false;
  paint(view);
  if (!view.overview.hidden) paintOverview(view);
}

// Another width of entries; what stands at this place of the screen stays there.
function zoom(view, times, at) {
  const { model } = view;
  const middle = at === undefined ? (view.width - view.left) / 2 : Math.max(at - view.left, 0);
  const entry = (view.scrollX + middle) / view.w;
  const columns = model.places.length;
  const all = (view.width - view.left) / columns;
  const least = Math.max(Math.min(all, LEGIBLE), LEAST);
  view.w = Math.min(Math.max(view.w * times, least), WIDEST, LONGEST / columns);
  measure(view);
  view.scroller.scrollLeft = entry * view.w - middle;
  refresh(view, true);
}

// An entry comes into view, and is chosen.
function choose(view, at) {
  const { model, scroller } = view;
  if (at < model.first || at > model.last) return;
  view.picked = at;
  const left = columnOf(model, at) * view.w;
  const room = view.width - view.left;
  if (left < scroller.scrollLeft || left + Math.min(view.w, room) > scroller.scrollLeft + room) {
    scroller.scrollLeft = left - room / 3;
  }
  view.scrollX = scroller.scrollLeft;
  if (view.fold) measure(view);
  const row = model.rowOf(at);
  const [top, end] = [row.y - AXIS, row.y + (row.height || 0)];
  if (row.y >= 0 && (top < scroller.scrollTop || end > scroller.scrollTop + view.tall)) {
    scroller.scrollTop = top - 20;
  }
  tell(view.panel, entryLines(view, at));
  refresh(view, false);
}

// Lines of text into an element; nothing of them is read as HTML.
function tell(element, lines) {
  element.replaceChildren(...lines.map(([kind, text]) => {
    const line = document.createElement("div");
    line.className = kind;
    line.textContent = text;
    return line;
  }));
}

// What stands at a place of the canvas: an entry, a span or a credential in its slot.
function found(view, left, top) {
  if (left < view.left || top < AXIS) return null;
  const at = view.model.places[Math.floor((view.scrollX + left - view.left) / view.w)];
  const y = top + view.scrollY;
  const item = view.items[lastUpTo(view.items, y, (one) => one.y)];
  if (at === undefined || !item || y > item.y + item.height) return null;
  if (item.kind === "head") return null;
  const holder = item.row || item.slot;
  const level = Math.floor((y - holder.below) / LEVEL);
  const list = holder.levels[level];
  if (y >= holder.below) {
    const span = list && list[lastUpTo(list, at, startOf)];
    return span && (span.end === 0 || span.end >= at) ? { at, lines: spanLines(view, span) } : null;
  }
  if (item.slot) {
    const life = item.slot.lives[lastUpTo(item.slot.lives, at, startOf)];
    const there = life && (life.swept === 0 || life.swept >= at);
    return there ? { at, lines: lifeLines(view, life) } : null;
  }
  return foundInRow(view, item.row, left, at);
}

// The nearest entry of the row; where none is near, its current credential there.
function foundInRow(view, row, left, at) {
  const near = lastUpTo(row.entries, at, itself);
  const places = [row.entries[near], row.entries[near + 1]].filter((place) => place !== undefined);
  const far = (place) => Math.abs(markX(view, place) - left);
  places.sort((one, other) => far(one) - far(other));
  if (places.includes(at) && view.w > NARROW) return { at, entry: at, lines: entryLines(view, at) };
  if (places.length > 0 && far(places[0]) < 6) {
    return { at: places[0], entry: places[0], lines: entryLines(view, places[0]) };
  }
  const band = bandAt(row, at);
  return band ? { at, lines: spanLines(view, band) } : null;
}
