// The second picture: which credential stood in which slot, who referred to it, when it was swept.

// A credential's place in its slot: as long as it is referred to, and then until it is swept.
function paintLife(view, slot, life) {
  const { theme } = view;
  const height = BAND_HEIGHT - 4;
  const left = Math.max(x(view, life.start), view.left);
  const half = Math.min(view.w / 2, 12);
  const reaches = (end) => (end === 0 ? x(view, view.model.last + 1) : x(view, end) + half);
  const upTo = (end) => Math.min(reaches(end), view.width);
  // A slot that is used again is swept before that entry.
  const swept = life.reused ? Math.min(x(view, life.swept), view.width) : upTo(life.swept);
  const given = Math.min(upTo(life.given), swept);
  if (swept <= view.left) return;
  fillOf(view, life, left, slot.band, Math.max(given, left), height);
  if (life.given !== 0 && swept > given) {
    const from = Math.max(given, view.left);
    rect(view, from, slot.band + 4, swept, height - 8, view.hatch);
    if (swept - from > 2) frame(view, from, slot.band + 4, swept, height - 8, theme.line, []);
  }
  if (life.swept !== 0 && swept < view.width && view.w > 2) {
    rect(view, swept - 1.5, slot.band - 1, swept, height + 2, theme.ink);
  }
  view.ctx.font = BOLD;
  view.ctx.fillStyle = theme.ink;
  fitted(view, bandText(view, life), left + 5, slot.band + height / 2 + 0.5, given - left - 8);
}

function paintKept(view, slot, span) {
  const height = BAND_HEIGHT - 4;
  let [left, right] = ends(view, span, span.end);
  // Where it was committed, the credential stands there from then on.
  const sealed = slot.lives[lastUpTo(slot.lives, span.end, startOf)];
  if (sealed && sealed.start === span.end) right = Math.min(x(view, span.end), view.width);
  if (right <= view.left || right - left < 1) return;
  if (right - left > 3) frame(view, left, slot.band, right, height, view.theme.ink, [3, 2]);
  view.ctx.font = FONT;
  view.ctx.fillStyle = view.theme.faint;
  const text = "kept " + (labelOf(span.label) ? "for " + labelOf(span.label) : "");
  fitted(view, text, left + 5, slot.band + height / 2 + 0.5, right - left - 8);
}

function paintSlot(view, item) {
  const { slot } = item;
  const [from, to] = [view.firstShown(), view.lastShown()];
  let drawn = -1;
  for (const life of meeting(slot.lives, from, to)) {
    const left = Math.floor(x(view, life.start));
    if (left === drawn) continue;
    drawn = left;
    paintLife(view, slot, life);
  }
  if (view.w > 2) for (const span of meeting(slot.kept, from, to)) paintKept(view, slot, span);
  paintLevels(view, slot.levels, MOST_HOLDERS, slot.below, holderOf);
}

// Sweeps go down through all slots.
function paintSweeps(view, top, bottom) {
  const { ctx, theme } = view;
  const { sweeps } = view.model;
  ctx.strokeStyle = theme.faint;
  ctx.lineWidth = 1;
  ctx.setLineDash([2, 3]);
  ctx.beginPath();
  let drawn = -9;
  let at = Math.max(lastUpTo(sweeps, view.firstShown(), itself), 0);
  for (; at < sweeps.length && sweeps[at] <= view.lastShown(); at++) {
    const left = Math.round(x(view, sweeps[at]) + Math.min(view.w / 2, 12)) + 0.5;
    if (left - drawn < 2 || left < view.left) continue;
    drawn = left;
    ctx.moveTo(left, top);
    ctx.lineTo(left, bottom);
  }
  ctx.stroke();
  ctx.setLineDash([]);
}
