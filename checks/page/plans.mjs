// Plans in Node what checks/page asks: `node plans.mjs MODULE TRACE` with a list on standard input, as JSON: of
// each item the settings of a plan, and the question that they are made of, by rounds or by looks.

import { readFileSync } from "node:fs";
import { writesIn } from "./engine/light-trace.js";
import { comeTo, lookRows, lookSettings } from "./engine/look-lists.js";
import { Planner } from "./engine/planner.js";
import { WritesMap } from "./engine/writes-map.js";
import { forecastWords } from "./model/predictions.js";

const MOST_ROWS = 256;

const [module, trace] = process.argv.slice(2).map((path) => readFileSync(path));
const planner = await Planner.open(await WebAssembly.compile(module), trace.length, [trace]);
const { writes, pages, last } = planner.sizes;
const map = new WritesMap(writesIn(planner.traceBytes(), writes), pages);
const grid = { first: 0, last: last + 1, columns: 100, rows: Math.min(pages, MOST_ROWS), fromPage: 0, endPage: pages };

/** How many pages the map's rows have of each round or list, sent and dirtied, and of the copy after the stop. */
function pagesOnMap({ start, base, skip, max }, plan) {
  const found = map.rounds({ grid, plan: { start, base, skip, max, ...plan } });
  const sum = (name, round) => found[name].subarray(round * grid.rows, (round + 1) * grid.rows)
    .reduce((all, count) => all + count, 0);
  return Array.from({ length: plan.rounds.length + 1 }, (_, round) =>
    ["pages", "sent", "dirtied"].map((name) => sum(name, round)));
}

/** The plan of settings, or that of a question by looks, and whether the answer to the question is the same. */
function planOf(settings, question, answer) {
  if (question.clark) {
    const plan = { isClark: true, isStopped: true, ...planner.plan(settings) };
    return { plan, isSame: JSON.stringify(answer.rows) === JSON.stringify(plan.rounds) && answer.left === plan.left };
  }
  const asked = lookSettings({ tick: BigInt(question.tick) }, planner.settings(question), last);
  const rounds = lookRows(map, pages, asked);
  const { reason, stop, left, down, total } = answer;
  const plan = { isClark: false, isStopped: reason === "few", rounds, reason, stop, left, down, total };
  return { plan, isSame: answer.rows.length === 0 && comeTo(rounds, answer) };
}

const answers = JSON.parse(readFileSync(0, "utf8")).map(({ settings, question }) => {
  const windows = planner.windows(settings);
  const columns = ["number", "writes", "pages", "again", "fresh"];
  const { min, max, increment, threshold } = planner.settings(question);
  const answer = planner.predict(question);
  const { plan, isSame } = planOf(settings, question, answer);
  const errors = planner.errors(question);
  const { draws, starts, converges, kept, ...counts } = planner.agreement(question);
  const { isKept, ends, ...amounts } = planner.remedies(question);
  const forecast = planner.forecast(question);
  const { link, downtime, speed, endingLink, endingStart } = amounts;
  return {
    windows: Array.from({ length: windows.count }, (_, row) => columns.map((name) => windows[name][row])),
    rounds: plan.rounds.map((round) => Object.values(round)),
    stop: [plan.reason, plan.stop, plan.left, plan.down, plan.total],
    settings: [min, max, increment, threshold],
    answer: ["time", "bytes", "downtime", "recorded", "kept", "converges"].map((name) => String(answer[name])),
    map: pagesOnMap(settings, plan),
    isSame,
    forecast: forecast && forecastWords(forecast).replaceAll("\u00a0", " "),
    sure: [converges, kept, draws === 0 ? null : [draws, counts.drawsConverging, counts.drawsKept],
      [starts, counts.startsConverging, counts.startsKept]],
    errors: errors && [errors.bytes, errors.time, errors.downtime].map(Number),
    remedies: [isKept, ends, ...[link, downtime, speed, endingLink, endingStart]
      .map((amount) => (amount === null ? null : String(amount)))],
  };
});
console.log(JSON.stringify(answers));
