// What stands around the rows: lines between them, the axis, the rows' names, the overview.

// The lines of broadcasts go from the call to the thread that follows; those of forks, signals and
// opened files go down within one entry's column.
function paintLink(view, link) {
  const { ctx, theme } = view;
  const [fromX, toX] = [markX(view, link.start), markX(view, link.end)];
  const middleOf = (row) => row.band + BAND_HEIGHT / 2 - view.scrollY;
  const [fromY, toY] = [middleOf(link.row), middleOf(link.to)];
  const down = toY > fromY ? 1 : -1;
  const tip = toY - down * (link.kind === "follows" ? 7 : 11);
  ctx.strokeStyle = link.kind === "signals" ? theme.faint : theme.ink;
  ctx.fillStyle = ctx.strokeStyle;
  ctx.lineWidth = 1.3;
  ctx.setLineDash(link.kind === "follows" ? [] : link.kind === "signals" ? [2, 2] : [5, 2]);
  ctx.beginPath();
  ctx.moveTo(fromX, fromY + down * 6);
  const middle = (fromY + tip) / 2;
  ctx.bezierCurveTo(fromX, middle, toX, middle, toX, tip);
  ctx.stroke();
  ctx.setLineDash([]);
  ctx.beginPath();
  ctx.moveTo(toX, tip + down * 2);
  ctx.lineTo(toX - 3.5, tip - down * 4);
  ctx.lineTo(toX + 3.5, tip - down * 4);
  ctx.fill();
}

function paintLinks(view) {
  if (view.w < 3) return;
  const [from, to] = [view.firstShown(), view.lastShown()];
  for (const link of view.model.links) {
    if (link.start > to) continue;
    if (link.end < from || link.row.y < 0 || link.to.y < 0 || link.row === link.to) continue;
    const dim = view.marked && !view.marked.has(link.end) && !view.marked.has(link.start);
    view.ctx.globalAlpha = dim ? DIM : 0.75;
    paintLink(view, link);
  }
  view.ctx.globalAlpha = 1;
}

// A step between numbers that leaves room for them: 1, 2, 5, 10, 20 and so on.
function stepFor(view, room) {
  const least = room / view.w;
  for (let power = 1; ; power *= 10) {
    for (const times of [1, 2, 5]) if (power * times >= least) return power * times;
  }
}

// The entries on the screen that one line of the script makes together: the first, and the room.
function* groups(view) {
  const { model } = view;
  const to = view.lastShown();
  let start = view.firstShown();
  for (let at = start; at <= to; at++) {
    if (at < to && model.line(at) === model.line(at + 1)) continue;
    const left = Math.max(x(view, start), view.left);
    yield [start, left, x(view, at + 1) - left];
    start = at + 1;
  }
}

// Where one line of the script ends and the next begins.
function paintGrid(view) {
  if (view.w <= 2) return;
  for (const [start, left, room] of groups(view)) {
    if (room > 10 && x(view, start) >= view.left) {
      rect(view, Math.round(left), 0, Math.round(left) + 1, view.tall, view.theme.line);
    }
  }
}

function paintLines(view) {
  const { ctx, model } = view;
  for (const [start, left, room] of groups(view)) {
    const whole = "line " + model.line(start);
    const text = room - 8 >= whole.length * view.charWidth ? whole : String(model.line(start));
    if (text.length * view.charWidth < room - 5) ctx.fillText(text, left + 4, 9);
  }
}

// Above the rows: the lines of the script, and the entries' numbers.
function paintAxis(view) {
  const { ctx, model, theme } = view;
  const [from, to] = [view.firstShown(), view.lastShown()].map((at) => columnOf(model, at));
  rect(view, view.left, 0, view.width, AXIS - 2, theme.paper);
  rect(view, view.left, AXIS - 2, view.width, 1, theme.line);
  ctx.font = FONT;
  ctx.fillStyle = theme.ink;
  if (view.w > 2) paintLines(view);
  const step = stepFor(view, (String(model.last).length + 2) * view.charWidth);
  ctx.fillStyle = theme.faint;
  // Where each entry has a column, their numbers are round ones.
  const offset = model.places.length === model.count ? model.first : 0;
  for (let at = Math.ceil((from + offset) / step) * step - offset; at <= to; at += step) {
    const place = model.places[at];
    const left = view.w > NARROW ? x(view, place) + 4 : markX(view, place);
    if (left >= view.left) ctx.fillText(String(place), left, 22);
  }
}

function paintName(view, top, name, note) {
  const { ctx, theme } = view;
  ctx.font = BOLD;
  ctx.fillStyle = theme.ink;
  const width = fitted(view, name, 6, top, view.left - 8);
  ctx.font = FONT;
  ctx.fillStyle = theme.faint;
  fitted(view, note, 6 + width + view.charWidth, top, view.left - 14 - width);
}

function paintNames(view, items) {
  const { ctx, theme, scrollY } = view;
  rect(view, 0, 0, view.left - 1, view.tall, theme.paper);
  rect(view, view.left - 1, 0, view.left, view.tall, theme.line);
  for (const item of items) {
    if (item.kind === "head") {
      const top = item.y - scrollY;
      rect(view, 0, top + 2, view.width, 1, theme.line);
      ctx.font = BOLD;
      ctx.fillStyle = theme.faint;
      ctx.fillText("Slots", 6, top + 14);
    } else if (item.kind === "task") {
      paintName(view, item.row.band + BAND_HEIGHT / 2 - scrollY, item.row.name, item.row.note);
    } else paintName(view, item.slot.band + 8 - scrollY, item.slot.name, "");
  }
  rect(view, 0, 0, view.left - 1, AXIS - 2, theme.paper);
  rect(view, 0, AXIS - 2, view.left, 1, theme.line);
  ctx.font = FONT;
  ctx.fillStyle = theme.faint;
  fitted(view, "entry", 6, 22, view.left - 8);
}

// The entry that is pointed at, and the one that is chosen.
function paintColumn(view, at, strength) {
  if (at < view.firstShown() || at > view.lastShown()) return;
  view.ctx.globalAlpha = strength;
  const left = Math.max(x(view, at), view.left);
  rect(view, left, 0, Math.max(x(view, at + 1), left + 1.5), view.tall, view.theme.pick);
  view.ctx.globalAlpha = 1;
}

function paint(view) {
  const { ctx, scrollY, tall } = view;
  ctx.setTransform(view.ratio, 0, 0, view.ratio, 0, 0);
  ctx.textBaseline = "middle";
  rect(view, 0, 0, view.width, tall, view.theme.paper);
  paintGrid(view);
  const items = [...itemsBetween(view, scrollY, scrollY + tall)];
  ctx.save();
  ctx.translate(0, -scrollY);
  for (const item of items) if (item.kind === "task") paintTask(view, item);
  const slots = items.filter((item) => item.kind === "slot");
  for (const item of slots) paintSlot(view, item);
  if (slots.length > 0) {
    const end = slots[slots.length - 1];
    paintSweeps(view, slots[0].y - 2, end.y + end.height);
  }
  ctx.restore();
  paintLinks(view);
  paintAxis(view);
  if (view.hover) paintColumn(view, view.hover, 0.09);
  if (view.picked) paintColumn(view, view.picked, 0.2);
  paintNames(view, items);
}

// How many of these entries each pixel's entries have among them, as bars that stand on a line.
function overviewBars(view, ctx, width, places, [foot, tall], fill) {
  const { model } = view;
  const wide = Math.min(Math.max(width / model.places.length, 1), 3);
  const counts = new Map();
  for (const at of places) {
    const left = Math.floor((columnOf(model, at) * width) / model.places.length);
    counts.set(left, (counts.get(left) || 0) + 1);
  }
  const each = Math.max(model.places.length / width, 1);
  ctx.fillStyle = fill;
  for (const [left, found] of counts) {
    const high = Math.max(tall * Math.sqrt(Math.min(found / each, 1)), 2);
    ctx.fillRect(left, foot - high, wide, high);
  }
}

// All entries in one line: refusals above, new credentials below, and what is on the screen.
function paintOverview(view) {
  const { model, theme } = view;
  const canvas = view.overview;
  const [width, height] = [canvas.clientWidth, canvas.clientHeight];
  canvas.width = Math.round(width * view.ratio);
  canvas.height = Math.round(height * view.ratio);
  const ctx = canvas.getContext("2d");
  ctx.setTransform(view.ratio, 0, 0, view.ratio, 0, 0);
  ctx.fillStyle = theme.paper;
  ctx.fillRect(0, 0, width, height);
  const scale = width / model.places.length;
  overviewBars(view, ctx, width, model.news, [height, height - 20], theme.faint);
  overviewBars(view, ctx, width, view.hits || [], [20, 5], theme.pick);
  overviewBars(view, ctx, width, model.refusals, [13, 13], theme.bad);
  const left = (view.scrollX / view.w) * scale;
  const wide = Math.max(((view.width - view.left) / view.w) * scale, 3);
  ctx.fillStyle = theme.pick;
  ctx.globalAlpha = 0.18;
  ctx.fillRect(left, 0, wide, height);
  ctx.globalAlpha = 1;
  ctx.strokeStyle = theme.pick;
  ctx.strokeRect(left + 0.5, 0.5, wide - 1, height - 1);
}
