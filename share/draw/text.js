// What is said of an entry, a span or a credential: lines of text, each with a class of the style.

const MINUS = "\u2212";

// Labels that a line takes for itself say nothing to a reader.
function labelOf(label) {
  return /^h[0-9]{6,}$/.test(label) ? "" : label;
}

function wordsOf(text) {
  const words = text.split(" ");
  const arrow = words.lastIndexOf("->");
  return { event: words[1], words: words.slice(1, arrow), answer: words.slice(arrow + 1) };
}

const SHORT = {
  begin: (words) => words.slice(2),
  act: (words) => ["follows", "line", words[1]],
  ask: (words) => words.slice(2),
  change: (words) => words.slice(2),
  open: (words) => ["open", ...words.slice(2)],
  signal: (words) => ["signal", words[3]],
  ptrace: (words) => ["ptrace", words[1], words[4]],
  dumpable: (words) => ["dumpable", words[2]],
  dumped: () => ["dumped"],
  chown: (words) => ["chown", ...words.slice(2)],
  chmod: (words) => ["chmod", ...words.slice(2)],
  setattr: (words) => ["setattr", words[2]],
  clearattr: (words) => ["clearattr", words[2]],
  stat: (words) => ["stat", words[2]],
  raw: (words) => ["raw", ...words.slice(2)],
  init: (words) => ["init", ...words.slice(3)],
  spawn: (words) => ["spawn", words[2]],
  fork: (words) => ["fork", words[2]],
  exit: (words) => ["exit"],
  revert: (words) => ["revert"],
  override: (words) => ["override", labelOf(words[2])],
  takefile: (words) => ["take", words[2]],
  close: (words) => words,
  sweep: (words) => words,
};

const MINOR = /^(take|takereal|takefile|drop|prepare|commit|abort)$/;

// A hold or a copy that a line takes for itself, and gives up again.
function isMinor(model, place) {
  if (model.folded || model.kind(place) === "x") return false;
  const { event, words } = wordsOf(model.text(place));
  return MINOR.test(event) && labelOf(words[1]) === "";
}

// The entry whose call an entry is of: that of a commit is the change which the same line made.
function calling(model, place) {
  const { event, words } = wordsOf(model.text(place));
  if (event !== "commit" || labelOf(words[1]) !== "") return place;
  for (let at = place - 1; at >= model.first && model.line(at) === model.line(place); at--) {
    const before = wordsOf(model.text(at));
    if (before.event === "change" && before.words[1] === words[1]) return at;
  }
  return place;
}

// An entry in few words, for its place in the picture.
function shortOf(model, place) {
  const { event, words, answer } = wordsOf(named(model.text(calling(model, place))));
  const short = SHORT[event] || ((all) => [all[0], labelOf(all[1])]);
  let text = short(words).join(" ").trim();
  if (model.kind(place) === "x") return answer.join(" ") + ": " + text;
  if ((event === "ask" || event === "dumped" || event === "stat") && answer.length > 1) text += " = " + answer.slice(1).join(" ");
  if (event === "ask" && words[2] === "check") text += ": ok";
  return text;
}

// The changes of several sets that are the same stand together: "Prm,Eff -all".
function changeParts(change, names = SETS) {
  const groups = new Map();
  const add = (set, sign, hex) => {
    const key = sign + (sign === "=" ? setOf(hex) : movedOf(hex));
    if (hex !== "0" || sign === "=") groups.set(key, [...(groups.get(key) || []), names[set]]);
  };
  for (const [set, came, went] of change.sets) {
    add(set, "+", came);
    add(set, MINUS, went);
  }
  for (const [set, sign, hex] of change.asked) add(set, sign === "-" ? MINUS : sign, hex);
  if (change.sets.length === 0) for (const hex of change.gain) add(0, "+", hex);
  const kinds = { "+": "came", [MINUS]: "went", "=": "" };
  const between = names === SETS ? "," : ", ";
  return [...groups].map(([key, sets]) => [kinds[key[0]], sets.join(between) + " " + key]);
}

const GAINED = ["by the file's permitted set", "by the file's inheritable set", "as root"];

function changeLines(change) {
  const lines = [];
  const since = change.since ? " since " + change.since : "";
  for (const [set, came, went] of change.sets) {
    const name = SET_NAMES[set] + since;
    if (came !== "0") lines.push(["came", name + ": +" + movedOf(came)]);
    if (went !== "0") lines.push(["went", name + ": " + MINUS + movedOf(went)]);
  }
  for (const [set, sign, caps] of change.asked) {
    const shown = sign === "-" ? MINUS : sign;
    lines.push(["", SET_NAMES[set] + ": " + shown + setOf(caps) + ", as the call says"]);
  }
  change.gain.forEach((hex, how) => {
    if (hex !== "0") lines.push(["came", "permitted: +" + movedOf(hex) + " " + GAINED[how]]);
  });
  return lines;
}

function reach(start, end) {
  if (end === 0) return "from entry " + start + " on";
  return start === end ? "entry " + start : "entries " + start + " to " + end;
}

const ID_NAMES = ["real", "effective", "saved", "filesystem"];

// What questions have told of a credential.
function toldLines(cred) {
  const { ids, caps, groups, bits } = cred.told;
  const lines = [];
  if (ids !== undefined) {
    const all = ids.split(" ");
    const four = (from) => ID_NAMES.map((name, at) => name + " " + all[from + at]).join(", ");
    lines.push(["", "user ids: " + four(0)], ["", "group ids: " + four(4)]);
  }
  if (groups !== undefined) lines.push(["", "groups: " + (groups || "none")]);
  (cred.sets || []).forEach((hex, set) => lines.push(["", SET_NAMES[set] + ": " + setOf(hex)]));
  if (bits !== undefined) {
    const [flags, none] = bits.split(" ");
    lines.push(["", "securebits: " + flagsOf(flags) + ", no_new_privs=" + none]);
  }
  if (caps === undefined) lines.push(["faint", "no entry asks for its capability sets"]);
  return lines;
}

function placeOf(view, cred) {
  if (!cred) return "a credential that isn't told";
  return cred.name + " in " + view.model.slots[cred.slot].name;
}

function spanLines(view, span) {
  const cred = placeOf(view, span.cred);
  const task = span.row.name;
  const heads = {
    [BAND]: () => task + ": its current credential is " + cred,
    [HOLD]: () => span.label + " holds " + cred,
    [PREPARED]: () => span.label + ": prepared for " + task + ", from " + cred + "; keeps " +
      (view.model.slots[span.kept] || { name: "a slot" }).name,
    [OVERRIDE]: () => task + " acts with " + cred + ", lent by " + span.label,
    [FILE]: () => span.label + ": open; its opener had " + cred,
  };
  const lines = [["head", heads[span.kind]()], ["faint", reach(span.start, span.end)]];
  return span.cred ? [...lines, ...toldLines(span.cred)] : lines;
}

function bandAt(row, at) {
  const band = row.bands[lastUpTo(row.bands, at, startOf)];
  return band && (band.end === 0 || band.end >= at) ? band : null;
}

function entryLines(view, at) {
  const { model } = view;
  const row = model.rowOf(at);
  const lines = [["head", "entry " + at + ", line " + model.line(at)], ["", named(model.text(at))]];
  if (model.kind(at) === "x") lines.push(["bad", "refused"]);
  const change = model.changes.get(at);
  if (change) lines.push(...changeLines(change));
  for (const reason of model.why.get(at) || []) lines.push(["why", reason]);
  const band = bandAt(row, at);
  if (band) {
    const process = row.note ? " (" + row.note + ")" : "";
    lines.push(["faint", row.name + process + ": " + placeOf(view, band.cred)]);
  }
  return lines;
}

const MOST_NAMED = 12;

function holderOf(span) {
  const own = labelOf(span.label);
  const names = {
    [BAND]: span.label, [HOLD]: own || "hold of " + span.row.name, [FILE]: span.label,
    [PREPARED]: own ? "base of " + own : "base",
    [OVERRIDE]: span.row.name + " acts with it",
  };
  return names[span.kind];
}

// A credential in its slot: who referred to it, and what came of it.
function lifeLines(view, life) {
  const lines = [["head", placeOf(view, life) + ", from entry " + life.start + " on"]];
  const holders = view.model.slots[life.slot].levels.flat().filter((span) => span.cred === life);
  const told = holders.slice(0, MOST_NAMED)
    .map((span) => holderOf(span) + " (" + reach(span.start, span.end) + ")");
  if (holders.length > MOST_NAMED) told.push(holders.length - MOST_NAMED + " more");
  lines.push(["", "referred to by " + (told.join("; ") || "nothing that is shown")]);
  if (life.given === 0) lines.push(["faint", "still referred to"]);
  else {
    const swept = life.swept === 0 ? "not swept"
      : life.reused ? "swept before entry " + life.swept + ", which uses the slot again"
        : "swept by entry " + life.swept;
    lines.push(["faint", "given up by entry " + life.given + ", " + swept]);
  }
  return [...lines, ...toldLines(life)];
}
