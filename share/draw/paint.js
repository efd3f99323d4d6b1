// The picture: what of the rows is on the screen, and no more.

const MONO = 'ui-monospace, "DejaVu Sans Mono", "Liberation Mono", Menlo, Consolas, monospace';
const FONT = "11px " + MONO;
const BOLD = "bold 11px " + MONO;

// Below this width of an entry there is room for a tick alone.
const NARROW = 7;

function x(view, at) {
  return view.left + columnOf(view.model, at) * view.w - view.scrollX;
}

// Where in its column an entry's mark stands.
function markX(view, at) {
  return x(view, at) + Math.min(view.w / 2, 8);
}

// A text in as many characters as there is room for; how wide it is.
function fitted(view, text, left, middle, room) {
  const fits = Math.floor(room / view.charWidth);
  if (fits < 2 || !text) return 0;
  const shown = text.length <= fits ? text : fits < 4 ? "" : text.slice(0, fits - 1) + "\u2026";
  view.ctx.fillText(shown, left, middle);
  return shown.length * view.charWidth;
}

// Each credential has a hue of its own; those near red are left out, which is for refusals.
function colour(view, cred) {
  if (!cred) return view.theme.line;
  const turn = (cred.number * 0.618034 + 0.55) % 1;
  return `hsl(${Math.round(35 + turn * 290)} ${view.theme.saturation} ${view.theme.lightness})`;
}

function rect(view, left, top, right, height, fill) {
  view.ctx.fillStyle = fill;
  view.ctx.fillRect(left, top, Math.max(right - left, 0.7), height);
}

function frame(view, left, top, right, height, stroke, dash) {
  const { ctx } = view;
  ctx.strokeStyle = stroke;
  ctx.lineWidth = 1;
  ctx.setLineDash(dash);
  ctx.strokeRect(left + 0.5, top + 0.5, Math.max(right - left - 1, 0), height - 1);
  ctx.setLineDash([]);
}

// The ends of a span on the screen: one that ends by an entry reaches into its column.
function ends(view, span, end) {
  const left = Math.max(x(view, span.start), view.left);
  const right = end === 0 ? x(view, view.model.last + 1) : x(view, end) + Math.min(view.w / 2, 12);
  return [left, Math.min(right, view.width)];
}

function fillOf(view, cred, left, top, right, height) {
  const { ctx } = view;
  if (view.cap < 0) return rect(view, left, top, right, height, colour(view, cred));
  const sets = cred && cred.sets;
  const inAny = sets && sets.some((hex) => has(hex, view.cap));
  ctx.globalAlpha = sets ? (has(sets[2], view.cap) ? 1 : inAny ? 0.45 : 0.06) : 0.2;
  rect(view, left, top, right, height, colour(view, cred));
  ctx.globalAlpha = 1;
  if (!sets) rect(view, left, top, right, height, view.dots);
  if (right - left > 2) frame(view, left, top, right, height, colour(view, cred), []);
}

function bandText(view, cred) {
  if (!cred) return "?";
  if (view.cap < 0) return cred.name;
  if (!cred.sets) return cred.name + " not told";
  const sets = SETS.filter((_, set) => has(cred.sets[set], view.cap));
  return cred.name + " " + (sets.join(",") || "none");
}

function paintBands(view, row) {
  const { ctx } = view;
  const { bands } = row;
  let drawn = -1;
  for (const band of meeting(bands, view.firstShown(), view.lastShown())) {
    let [left, right] = ends(view, band, band.end);
    const next = bands[lastUpTo(bands, band.start, startOf) + 1];
    if (next && next.start === band.end) right = Math.min(x(view, band.end), view.width);
    if (right <= view.left || Math.floor(right) === drawn) continue;
    drawn = Math.floor(right);
    fillOf(view, band.cred, left, row.band, right, BAND_HEIGHT);
    if (right - left < 16) continue;
    const mark = Math.min(view.w / 2, 8);
    const text = x(view, band.start) >= view.left - 1 ? left + mark + 9 : left + 5;
    ctx.fillStyle = view.theme.ink;
    ctx.font = BOLD;
    const whole = bandText(view, band.cred);
    if (!paintNumber(view, row, band, text, right, whole) && view.cap >= 0 && band.cred) {
      paintNumber(view, row, band, text, right, band.cred.name);
    }
  }
}

// A band's number stands where no mark is: right of the first one, or where there is room first.
function paintNumber(view, row, band, left, right, text) {
  const width = text.length * view.charWidth;
  const middle = row.band + BAND_HEIGHT / 2 + 0.5;
  let at = lastUpTo(row.entries, Math.max(band.start, view.firstShown()), itself);
  let room = left;
  for (; ; at++) {
    const next = row.entries[at + 1];
    const end = next === undefined ? right : Math.min(markX(view, next) - 7, right);
    if (end - room >= width + 2) {
      view.ctx.fillText(text, room, middle);
      return true;
    }
    if (end >= right) break;
    room = Math.max(room, markX(view, next) + 9);
  }
  return view.w <= NARROW && fitted(view, text, left, middle, right - left) > 0;
}

function paintCross(view, middleX, middleY) {
  const { ctx, theme } = view;
  const size = 4.5;
  ctx.fillStyle = theme.paper;
  ctx.beginPath();
  ctx.arc(middleX, middleY, size + 2.5, 0, 7);
  ctx.fill();
  ctx.strokeStyle = theme.bad;
  ctx.lineWidth = 2.2;
  ctx.beginPath();
  ctx.moveTo(middleX - size, middleY - size);
  ctx.lineTo(middleX + size, middleY + size);
  ctx.moveTo(middleX - size, middleY + size);
  ctx.lineTo(middleX + size, middleY - size);
  ctx.stroke();
}

// Where there is no room for marks: ticks; that of a refusal has a flag above the band.
function paintTick(view, kind, left, middleY) {
  const { theme } = view;
  if (kind === "x") {
    rect(view, left - 2, middleY - 16, left + 2, 5, theme.bad);
    if (view.w >= 1) rect(view, left - 0.75, middleY - 12, left + 0.75, 22, theme.bad);
  } else if (view.w >= 1) {
    const half = kind === "n" ? 7 : 2;
    rect(view, left - 0.5, middleY - half, left + 0.5, 2 * half, theme.ink);
  }
}

function paintMark(view, kind, middleX, middleY) {
  const { ctx, theme } = view;
  if (view.w <= NARROW) return paintTick(view, kind, middleX, middleY);
  if (kind === "x") return paintCross(view, middleX, middleY);
  ctx.fillStyle = theme.ink;
  ctx.beginPath();
  if (kind === "n") {
    ctx.moveTo(middleX, middleY - 5.5);
    ctx.lineTo(middleX + 5.5, middleY);
    ctx.lineTo(middleX, middleY + 5.5);
    ctx.lineTo(middleX - 5.5, middleY);
  } else ctx.arc(middleX, middleY, 3, 0, 7);
  ctx.fill();
}

const DIM = 0.22;

// Below this width of an entry what a line does for itself has no text: the others have more room.
const ROOMY = 90;

// Where the text of an entry has to end: at the mark of the next one that has a text. An entry
// without one has no room.
function nextLabelled(view, entries, at) {
  const { model } = view;
  if (view.w < ROOMY && isMinor(model, entries[at])) return 0;
  const passes = (next) => view.w < ROOMY && next < at + 6 && isMinor(model, entries[next]);
  let next = at + 1;
  while (next < entries.length && passes(next)) next++;
  return next < entries.length ? markX(view, entries[next]) : view.width;
}

// The entries of a row: marks on the band, and above it what was asked, where there is room.
function paintEntries(view, row) {
  const { ctx, model, theme } = view;
  const { entries } = row;
  const [from, to] = [view.firstShown(), view.lastShown()];
  const middle = row.band + BAND_HEIGHT / 2;
  const drawn = { o: -9, n: -9, x: -9 };
  for (let at = lastUpTo(entries, from - 1, itself) + 1; at < entries.length; at++) {
    const place = entries[at];
    if (place > to) break;
    const mark = markX(view, place);
    const kind = model.kind(place);
    if (mark < view.left - 4 || mark - drawn[kind] < 1) continue;
    drawn[kind] = mark;
    ctx.globalAlpha = view.marked && !view.marked.has(place) ? DIM : 1;
    paintMark(view, kind, mark, middle);
    const next = nextLabelled(view, entries, at);
    if (next - mark > 24) {
      ctx.font = FONT;
      ctx.fillStyle = kind === "x" ? theme.bad : theme.ink;
      fitted(view, shortOf(model, place), mark - 4, row.y + 8, next - mark - 6);
    }
  }
  ctx.globalAlpha = 1;
}

// Where sets are seen to change: a triangle below the band.
function paintFlag(view, row, at, fill) {
  const { ctx } = view;
  const [left, top] = [markX(view, at), row.under + 1];
  ctx.fillStyle = fill;
  ctx.beginPath();
  ctx.moveTo(left - 4, top + 8);
  ctx.lineTo(left, top);
  ctx.lineTo(left + 4, top + 8);
  ctx.fill();
}

// Below the band: what came into the sets and what went, as far as the report tells.
function paintChanges(view, row) {
  const { ctx, model, theme } = view;
  const places = row.changes;
  ctx.font = FONT;
  let at = Math.max(lastUpTo(places, view.firstShown(), itself), 0);
  for (; at < places.length && places[at] <= view.lastShown(); at++) {
    const parts = changeParts(model.changes.get(places[at]));
    const kinds = new Set(parts.map(([kind]) => kind));
    const next = at + 1 < places.length ? markX(view, places[at + 1]) - 6 : view.width;
    const end = Math.min(next, view.width);
    let left = markX(view, places[at]);
    if (view.marked && !view.marked.has(places[at])) ctx.globalAlpha = DIM;
    paintFlag(view, row, places[at], kinds.size === 1 && theme[[...kinds][0]] || theme.ink);
    left += 8;
    for (const [kind, text] of end - left < 4 * view.charWidth ? [] : parts) {
      ctx.fillStyle = theme[kind] || theme.ink;
      left += fitted(view, text, left, row.under + 6, end - left - 4) + view.charWidth;
    }
    ctx.globalAlpha = 1;
  }
}

const SPAN_TEXTS = {
  [HOLD]: (span, cred) => labelOf(span.label) + " holds " + cred,
  [PREPARED]: (span, cred) => labelOf(span.label) + " prepared from " + cred,
  [OVERRIDE]: (span, cred) => "acts with " + cred,
  [FILE]: (span, cred) => span.label + " " + cred,
};

function paintSpan(view, span, top, text) {
  const { theme } = view;
  const [left, right] = ends(view, span, span.end);
  if (right <= view.left) return;
  const height = LEVEL - 2;
  if (span.kind === PREPARED) {
    rect(view, left, top, right, height, theme.paper);
    if (right - left > 3) frame(view, left, top, right, height, theme.ink, [3, 2]);
    else rect(view, left, top, right, height, theme.faint);
  } else rect(view, left, top, right, height, colour(view, span.cred));
  if (span.kind === OVERRIDE && right - left > 6) {
    rect(view, left, top, left + 3, height, theme.ink);
    if (span.end !== 0) rect(view, right - 3, top, right, height, theme.ink);
  }
  view.ctx.font = FONT;
  view.ctx.fillStyle = theme.ink;
  fitted(view, text.trim(), left + 5, top + height / 2 + 0.5, right - left - 8);
}

function paintLevels(view, levels, most, below, textOf) {
  const shown = drawnLevels(levels.length, most);
  for (let level = 0; level < shown; level++) {
    let drawn = -1;
    for (const span of meeting(levels[level], view.firstShown(), view.lastShown())) {
      const right = Math.floor(x(view, (span.end || view.model.last) + 1));
      if (right === drawn) continue;
      drawn = right;
      paintSpan(view, span, below + level * LEVEL, textOf(span));
    }
  }
  if (shown === levels.length) return;
  view.ctx.font = FONT;
  view.ctx.fillStyle = view.theme.faint;
  const text = "up to " + (levels.length - shown) + " more at a time";
  fitted(view, text, view.left + 6, below + shown * LEVEL + LEVEL / 2, view.width - view.left);
}

function paintTask(view, item) {
  const { row } = item;
  paintBands(view, row);
  paintEntries(view, row);
  if (row.changes.length > 0) paintChanges(view, row);
  paintLevels(view, row.levels, MOST_LEVELS, row.below,
    (span) => SPAN_TEXTS[span.kind](span, span.cred ? span.cred.name : "?"));
}
