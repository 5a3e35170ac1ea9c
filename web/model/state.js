// What the controls say: a plain object, and its words in the fragment of the page's address. The trace is never in it;
// only the name of an example is, or a fingerprint.

import { quantityIn, quantityOf, wordOfQuantity } from "./quantities.js";
import { RATE_UNITS, TIME_UNITS } from "./units.js";

const rate = (count, unit) => quantityOf(String(count), unit, RATE_UNITS);
const time = (count, unit) => quantityOf(String(count), unit, TIME_UNITS);

/**
 * Rates and times are amounts in a unit, `first` and `increase` per cent, `start`, `base` and `window` ticks. `sample`
 * is null if the trace has all pages of the guest, else `part` pages of the `whole`.
 */
const DEFAULTS = {
  link: rate(10, "Gbit"),
  first: 100,
  increase: 10,
  downtime: time(300, "ms"),
  reserve: time(0, "ms"),
  start: 0,
  rounds: 30,
  skip: false,
  clark: false,
  base: null,
  tick: time(1, "ms"),
  sample: null,
  window: 1000,
  ticks: false,
};

/** The settings that suit the examples. What their records say comes with the trace. */
const PRESETS = {
  gzip: { link: rate(8, "MiB"), downtime: time(4, "ms"), first: 25, window: 40, start: 400 },
  sqlite: {
    link: rate(64, "MiB"), first: 50, start: 1000, sample: { part: 4_154, whole: 129_819 }, window: 500,
  },
};

/** The most plans that are kept. */
export const MOST_KEPT = 3;

function readQuantity(word, units) {
  return quantityIn(word, units) ?? undefined;
}

/** A count of what a number of JavaScript holds exactly: controls make no other. */
function readCount(word) {
  return /^\d{1,16}$/.test(word) && Number.isSafeInteger(Number(word)) ? Number(word) : undefined;
}

function readPercent(word) {
  return /^\d{1,3}(\.\d{1,6})?$/.test(word) && Number(word) <= 100 ? Number(word) : undefined;
}

function readSample(word) {
  const found = /^(\d{1,10})\/(\d+)$/.exec(word);
  if (word === "all") {
    return null;
  }
  const [part, whole] = (found ?? []).slice(1).map(readCount);
  return part > 0 && whole !== undefined ? { part, whole } : undefined;
}

/** What the words of a switch mean. */
const SWITCHES = new Map([["0", false], ["1", true]]);

/** How each part of the state is read from a word. What cannot be read is passed over. */
const READERS = {
  link: (word) => readQuantity(word, RATE_UNITS),
  first: readPercent,
  increase: readPercent,
  downtime: (word) => readQuantity(word, TIME_UNITS),
  reserve: (word) => readQuantity(word, TIME_UNITS),
  start: readCount,
  rounds: readCount,
  skip: (word) => SWITCHES.get(word),
  clark: (word) => SWITCHES.get(word),
  base: (word) => (word === "none" ? null : readCount(word)),
  tick: (word) => readQuantity(word, TIME_UNITS),
  sample: readSample,
  window: readCount,
  ticks: (word) => SWITCHES.get(word),
};

function wordOf(name, value) {
  if (name === "sample") {
    return value === null ? "all" : `${value.part}/${value.whole}`;
  }
  if (value === null) {
    return "none";
  }
  return typeof value === "object" ? wordOfQuantity(value) : String(Number(value));
}

/** The settings as words of a query. */
function queryOf(settings) {
  const words = new URLSearchParams();
  for (const name of Object.keys(READERS)) {
    words.set(name, wordOf(name, settings[name]));
  }
  return words.toString().replaceAll("%2F", "/");
}

/** What only Clark's rounds have. An address from before there was a choice says some of it, and is of them. */
export const ROUND_SETTINGS = ["first", "increase", "rounds", "skip"];

/** The settings that the words of a query say; what they do not say is as in others. */
function settingsIn(query, others) {
  const words = new URLSearchParams(query);
  const found = Object.entries(READERS).filter(([name]) => words.has(name))
    .map(([name, read]) => [name, read(words.get(name))]);
  const said = Object.fromEntries(found.filter(([, value]) => value !== undefined));
  const clark = ROUND_SETTINGS.some((name) => said[name] !== undefined);
  return { ...structuredClone(others), clark, ...said };
}

/** The fragment for a state: settings, those of kept plans, and of which trace they are. */
export function fragmentOf({ settings, kept, example, print }) {
  const words = new URLSearchParams(queryOf(settings));
  kept.forEach((some) => words.append("kept", queryOf(some)));
  if (example) {
    words.set("trace", example);
  } else if (print) {
    words.set("of", print);
  }
  return words.toString().replaceAll("%2F", "/");
}

/** What a fragment says. An example has settings of its own, but for those that the fragment says. */
export function stateIn(fragment) {
  const query = fragment.replace(/^#/, "");
  const words = new URLSearchParams(query);
  const example = Object.hasOwn(PRESETS, words.get("trace") ?? "") ? words.get("trace") : null;
  const settings = settingsIn(query, example ? presetOf(example) : DEFAULTS);
  return {
    settings,
    kept: words.getAll("kept").slice(0, MOST_KEPT).map((some) => settingsIn(some, DEFAULTS)),
    example,
    print: /^[0-9a-f]{12}$/.test(words.get("of") ?? "") ? words.get("of") : null,
  };
}

/** Settings over an example, of which only that stays which was chosen, or is not the example's. */
export function withoutPreset(settings, example, chosen) {
  const preset = presetOf(example);
  const isOwn = (name) => chosen.has(name) || JSON.stringify(settings[name]) !== JSON.stringify(preset[name]);
  return Object.fromEntries(Object.entries(structuredClone(DEFAULTS)).map(([name, value]) =>
    [name, isOwn(name) ? settings[name] : value]));
}

/** The settings for an example. */
export function presetOf(example) {
  return { ...structuredClone(DEFAULTS), ...structuredClone(PRESETS[example]) };
}
