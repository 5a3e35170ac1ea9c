// The tables of rounds or lists, and of windows, on the page and as files. Times come first; in a table ticks stand
// beside them only where they are asked for, and in a file always.

import { html } from "./elements.js";
import { counted, decimalText, timeText } from "../model/numbers.js";
import { columnTexts, digitsBehind } from "../model/quantities.js";
import { nounsOf, stepNumber } from "../model/nouns.js";
import { pagesWords, sumsOf } from "../model/round-words.js";
import { microsOf, rateIn } from "../model/units.js";

/** A cell's text, and what stands beside it in small print if there is something. */
function cellParts(text, beside) {
  return beside === undefined ? [text] : [text, " ", html("small", {}, beside)];
}

/** A table of columns, each with its name, a text for each row, and maybe one beside that. The first heads the rows. */
function tableOf(caption, [heads, ...others]) {
  const rows = heads.texts.map((head, row) => html("tr", {}, html("th", { scope: "row" }, head),
    ...others.map(({ texts, besides = [] }) => html("td", {}, ...cellParts(texts[row], besides[row])))));
  const names = [heads, ...others].map(({ name }) => html("th", { scope: "col" }, name));
  const table = html("table", { class: "numbers" }, html("caption", {}, caption),
    html("thead", {}, html("tr", {}, ...names)), html("tbody", {}, ...rows));
  const widths = others.flatMap(({ besides = [] }) => besides.map(({ length }) => length));
  // What stands beside numbers is equally wide in all rows, so that their points are below each other.
  table.style.setProperty("--beside", `${Math.max(0, ...widths)}ch`);
  return table;
}

/** How many digits of a second a moment has at least. */
const LEAST_DIGITS = 3;

/** Moments, given in microseconds, as numbers of seconds: each with as many digits as one of them has. */
function inSeconds(moments) {
  const texts = moments.map((micros) => decimalText(micros, 1_000_000n, 6));
  const digits = Math.max(LEAST_DIGITS, ...texts.map(digitsBehind));
  return texts.map((text) => {
    const [whole, rest = ""] = text.split(".");
    return `${counted(whole)}.${rest.padEnd(digits, "0")}`;
  });
}

// ---- Rounds, or the lists of a hypervisor.

/** The most rows that a table has: more would keep the page busy for long. A file has all. */
const MOST_ROWS = 100;

/** What is said of a table of the first of some rows. */
function firstWords(count) {
  return count > MOST_ROWS ? `, the first ${counted(MOST_ROWS)} of ${counted(count)}` : "";
}

/** The columns of a table of rounds, or of lists. Rates are in a unit. */
function roundColumns({ plan, settings, scale, state }, unit) {
  const rounds = plan.rounds.slice(0, MOST_ROWS);
  const allOf = (name) => rounds.map((round) => round[name]);
  const besides = (name) => (state.ticks ? allOf(name).map(counted) : []);
  const since = (tick) => microsOf(scale, tick - settings.start);
  const rates = allOf("rate").map((rate) => rateIn(scale, rate));
  const inUnit = columnTexts(rates.map(({ bytes, seconds }) => [bytes, seconds * unit.size]));
  return [
    { name: nounsOf(plan).one, texts: rounds.map((_, place) => counted(stepNumber(plan, place))) },
    { name: "from,\u00a0s", texts: inSeconds(allOf("from").map(since)), besides: besides("from") },
    { name: "to,\u00a0s", texts: inSeconds(allOf("to").map(since)), besides: besides("to") },
    { name: `rate, ${unit.name}`, texts: inUnit, besides: besides("rate") },
    { name: "to send", texts: allOf("pages").map(counted) },
    { name: "sent", texts: allOf("sent").map(counted) },
    { name: "dirtied", texts: allOf("dirtied").map(counted) },
    ...(plan.isClark ? [] : [{ name: "left", texts: allOf("left").map(counted) }]),
  ];
}

/** The rounds of a plan, or its lists, as a table. */
export function roundsTable(prediction, unit) {
  const pages = prediction.scale.isSample ? "pages of the sample" : "pages";
  const ticks = prediction.state.ticks ? "; in small print ticks of the trace, and pages per 1,000 of them" : "";
  const more = firstWords(prediction.plan.rounds.length);
  return tableOf(`Times since the start, and ${pages}${more}${ticks}`, roundColumns(prediction, unit));
}

const ROUND_HEADS = ["from_us", "to_us", "rate_bytes_per_second", "pages", "sent_pages", "dirtied_pages", "from_tick",
  "to_tick", "rate_pages_per_1000_ticks"];

/**
 * The rounds of a plan, or its lists, as columns and rows of numbers, for a file. Times are since the start, ticks in
 * the trace.
 */
export function roundsFile({ plan, settings, scale }) {
  const since = (tick) => microsOf(scale, tick - settings.start);
  const rows = plan.rounds.map(({ from, to, rate, pages, sent, dirtied, left }, place) => {
    const { bytes, seconds } = rateIn(scale, rate);
    return [stepNumber(plan, place), since(from), since(to), bytes / seconds, pages, sent, dirtied, from, to, rate,
      ...(plan.isClark ? [] : [left])];
  });
  return [[nounsOf(plan).one, ...ROUND_HEADS, ...(plan.isClark ? [] : ["left_pages"])], rows];
}

// ---- Windows.

const WINDOW_HEADS = ["window", "from_us", "to_us", "writes", "pages", "again_pages", "fresh_pages"];

/** What of a window is counted, in the order of both. */
function countsIn(windows, row) {
  return ["writes", "pages", "again", "fresh"].map((name) => windows[name][row]);
}

/** The windows of a trace as a table. A window has `length` ticks. */
export function windowsTable(windows, length, scale) {
  const width = microsOf(scale, length);
  const numbers = Array.from(windows.number.subarray(0, MOST_ROWS));
  const allOf = (name) => Array.from(windows[name].subarray(0, MOST_ROWS), counted);
  const pages = scale.isSample ? "; pages of the sample" : "";
  const more = firstWords(windows.count);
  return tableOf(`Windows of ${timeText(width)} with a write${more}${pages}; again: also in the window before, `
    + "new: never before", [
    { name: "window", texts: numbers.map(counted) },
    { name: "from,\u00a0s", texts: inSeconds(numbers.map((number) => BigInt(number) * width)) },
    { name: "writes", texts: allOf("writes") },
    { name: "pages", texts: allOf("pages") },
    { name: "again", texts: allOf("again") },
    { name: "new", texts: allOf("fresh") },
  ]);
}

/** The rows of a file of windows, one at a time: there may be a million. */
function* windowRows(windows, width) {
  for (let row = 0; row < windows.count; row += 1) {
    const from = BigInt(windows.number[row]) * width;
    yield [windows.number[row], from, from + width, ...countsIn(windows, row)];
  }
}

/** The windows of a trace as columns and rows of numbers, for a file. */
export function windowsFile(windows, length, scale) {
  return [WINDOW_HEADS, windowRows(windows, microsOf(scale, length))];
}

// ---- The map of pages.

/** The range of pages of the row in which a step dirties most, as text. */
function mostDirtied({ dirtied }, rows, round, rowPages) {
  const counts = dirtied.subarray(round * rows, (round + 1) * rows);
  const most = Math.max(...counts);
  const row = counts.indexOf(most);
  const [from, to] = [rowPages[row], rowPages[row + 1] - 1];
  return most === 0 ? "none" : from === to ? counted(from) : `${counted(from)}\u2013${counted(to)}`;
}

/** What steps do with pages, as a table. `rowPages` are the first pages of the map's rows, and the end of all. */
export function mapTable({ found, prediction: { plan, scale }, held: { trace: { sizes } } }, rowPages) {
  const rows = rowPages.length - 1;
  const [first, end] = [rowPages[0], rowPages[rows]];
  const pages = end - first === sizes.pages ? "Pages" : `Of ${pagesWords(first, end)} those`;
  const { one, unsent } = nounsOf(plan);
  const count = plan.rounds.length;
  const numbers = [...Array(Math.min(count, MOST_ROWS)).keys(), ...(plan.isStopped ? [count] : [])];
  const sums = numbers.map((round) => sumsOf(found, rows, [round, round + 1], [0, rows]));
  const allOf = (name) => sums.map((some) => counted(some[name]));
  const ends = plan.isStopped ? "; after the stop the rest is sent" : "";
  return tableOf(`${pages}${scale.isSample ? " of the sample" : ""} by ${one}${firstWords(count)}${ends}`, [
    { name: one, texts: numbers.map((step) => (step === count ? "stop" : counted(stepNumber(plan, step)))) },
    { name: "sent", texts: allOf("sent") },
    { name: "and dirtied", texts: allOf("again") },
    { name: unsent, texts: allOf("skipped") },
    { name: "dirtied", texts: allOf("dirtied") },
    { name: "densest in pages", texts: numbers.map((round) => mostDirtied(found, rows, round, rowPages)) },
  ]);
}

const MAP_HEADS = ["first_page", "last_page", "pages", "sent_pages", "sent_and_dirtied_pages"];
const TURN_HEADS = ["dirtied_pages", "first_turn_us", "last_turn_us"];

/** The rows of the file of a map: those rows of pages of which a step has one, or dirties one. */
function* mapRows({ found, prediction: { plan, settings, scale } }, rowPages) {
  const rows = rowPages.length - 1;
  const since = (tick) => microsOf(scale, tick - settings.start);
  for (let at = 0; at < found.pages.length; at += 1) {
    const [round, row] = [Math.floor(at / rows), at % rows];
    const [pages, sent, again, dirtied] = ["pages", "sent", "again", "dirtied"].map((name) => found[name][at]);
    if (pages + dirtied > 0) {
      const isTurn = found.firstTurn[at] < Infinity;
      const turns = isTurn ? [since(found.firstTurn[at]), since(found.lastTurn[at])] : ["", ""];
      const number = round === plan.rounds.length ? "stop" : stepNumber(plan, round);
      yield [number, rowPages[row], rowPages[row + 1] - 1, pages, sent, again, pages - sent, dirtied, ...turns];
    }
  }
}

/** What steps do with the pages of each row of the map, as columns and rows, for a file. Times are since the start. */
export function mapFile(rounds, rowPages) {
  const { plan } = rounds.prediction;
  const unsent = plan.isClark ? "skipped_pages" : "unsent_pages";
  return [[nounsOf(plan).one, ...MAP_HEADS, unsent, ...TURN_HEADS], mapRows(rounds, rowPages)];
}
