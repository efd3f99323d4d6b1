// Sets and securebits as names: what share/credtrace-names does.

let CAPS = [];
let FLAGS = [];

const SETS = ["Prm", "Inh", "Eff", "Bnd", "Amb"];
const SET_NAMES = ["permitted", "inheritable", "effective", "bounding", "ambient"];

function useTables(caps, flags) {
  CAPS = caps;
  FLAGS = flags;
}

// Whether a set, in hexadecimal digits, has the capability of this number.
function has(hex, cap) {
  const digit = hex[hex.length - 1 - (cap >> 2)];
  return digit !== undefined && ((parseInt(digit, 16) >> (cap & 3)) & 1) === 1;
}

function setOf(hex) {
  if (!/^[0-9A-Fa-f]+$/.test(hex)) return hex;
  const there = CAPS.filter((_, cap) => has(hex, cap));
  if (there.length === 0) return "none";
  if (there.length === CAPS.length) return "all";
  if (there.length <= CAPS.length / 2) return there.join(",");
  return "all-" + CAPS.filter((_, cap) => !has(hex, cap)).join(",");
}

// What came or went, where a sign stands before it: "all but CAP_CHOWN".
function movedOf(hex) {
  return setOf(hex).replace(/^all-/, "all but ");
}

// The greatest number of securebits is LAST_BITS of share/limits, which a page can't read.
function flagsOf(number) {
  if (!/^[0-9]+$/.test(number) || Number(number) > 255) return number;
  return FLAGS.filter((_, bit) => (Number(number) >> bit) & 1).join(",") || "none";
}

function capOf(word) {
  return /^[0-9]+$/.test(word) && Number(word) < CAPS.length ? CAPS[Number(word)] : word;
}

function setsFrom(words, place, many) {
  for (let at = place; at < place + many && at < words.length; at++) words[at] = setOf(words[at]);
}

// The questions and the changes of one capability.
const OF_ONE = /^(capable|bset|ambis|capdrop|ambraise|amblower)$/;

// An entry's text with its sets as names.
function named(text) {
  const words = text.split(" ");
  const event = words[1];
  const arrow = words.lastIndexOf("->");
  const told = words[arrow + 1] === "ok" ? arrow + 2 : 0;
  const what = event === "begin" || event === "ask" || event === "change" ? words[3] : "";
  if (event === "change" && what === "capset") setsFrom(words, 4, 3);
  else if (event === "change" && what === "securebits") words[4] = flagsOf(words[4]);
  else if (OF_ONE.test(what)) words[4] = capOf(words[4]);
  if (told && event === "ask" && what === "caps") setsFrom(words, told, 5);
  if (told && event === "ask" && what === "bits") {
    words[told] = flagsOf(words[told]);
    words[told + 1] = "no_new_privs=" + words[told + 1];
  }
  if (told && event === "commit" && words[told + 4] === "gain") setsFrom(words, told + 5, 3);
  return words.join(" ");
}
