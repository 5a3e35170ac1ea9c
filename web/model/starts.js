// The same migration from many starts: at which ticks it may begin, by the rules of `precopy-view when`. What it costs
// from each, the best and the worst are the module's answers.

import { costIn } from "./predictions.js";
import { microsOf } from "./units.js";

/** Into how many parts starts cut a trace. */
const PARTS = 200;

function stepOver(from, to) {
  return Math.max(1, Math.ceil((to - from) / PARTS));
}

/** The first start over a trace: where its recording begins; for a warm start a step after the copy. */
export function firstStartOf({ last }, base, begin) {
  return base === null ? Math.min(begin, last) : base + stepOver(base, Math.max(base, last));
}

/** The ticks of the starts from the first on. */
export function startTicks(last, from) {
  const to = Math.max(from, last);
  const every = stepOver(from, to);
  return Array.from({ length: Math.floor((to - from) / every) + 1 }, (_, place) => from + place * every);
}

/** The starts with what a migration costs from each, and the best and the worst of them, by the module's answers. */
export function startCosts(ticks, { answers, chosen }) {
  const costs = answers.map((answer, place) => ({ start: ticks[place], cost: costIn(answer) }));
  const { best, worst } = chosen;
  return { costs, chosen: best === null ? { best, worst } : { best: costs[best], worst: costs[worst] } };
}

/** The starts as columns and rows of numbers, for a file. */
export function startRows({ costs, scale }) {
  const columns = ["tick", "start_us", "time_us", "sent_bytes", "downtime_us", "kept"];
  const rows = costs.map(({ start, cost }) => [start, microsOf(scale, start), cost.time, cost.bytes, cost.downtime,
    cost.kept]);
  return [columns, rows];
}
