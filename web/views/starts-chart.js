// The picture of when to move: downtime, time and bytes by the start of the migration, on the axis of the windows.

import { CURVE_HEIGHT, curvesParts, CURVES, curveTop } from "./curves.js";
import { bytesText, counted, errorTimeText, momentText, timeText, unbroken } from "../model/numbers.js";
import { AXIS_HEIGHT, axisLabels, pictureOf } from "./plot.js";
import { keptWords } from "../model/predictions.js";
import { microsOf } from "../model/units.js";

/** The picture for the answer to a question about starts. */
export function startsPicture(axis, asked) {
  const { best, worst } = asked.chosen;
  const { parts, bottom } = curvesParts(axis, { ...asked, marks: [["worst", worst], ["best", best]], noun: "start" });
  parts.push(...axisLabels(axis, Number(asked.scale.tick), bottom, "start of the migration"));
  return pictureOf(axis.width, bottom + AXIS_HEIGHT, parts);
}

/** What stands for a standard error that is still to come. */
export const AWAITED = "\u00a0\u00b1\u00a0\u2026";

/** The standard error of a downtime, or that it is still to come; nothing if there is none. */
function errorWords(errors) {
  return errors === undefined ? AWAITED
    : errors ? `\u00a0\u00b1\u00a0${unbroken(errorTimeText(errors.downtime))}` : "";
}

/** What a migration costs, in words, with the standard error of its downtime. Of one that ends late that is unknown. */
export function costWords(cost, errors = null) {
  if (cost.kept === "unknown") {
    return "unknown, since the trace ends before the migration does";
  }
  const [time, sent, downtime] = [timeText(cost.time), bytesText(cost.bytes), timeText(cost.downtime)].map(unbroken);
  return `time\u00a0${time}, sent\u00a0${sent}, downtime\u00a0${downtime}${errorWords(errors)}, `
    + keptWords(cost);
}

/** What a migration from a start costs, in words. */
export function startWords(asked, { start, cost, errors = null }, hasTicks) {
  const place = `${momentText(microsOf(asked.scale, start))}${hasTicks ? `, tick ${counted(start)}` : ""}`;
  return `${place}: ${costWords(cost, errors)}`;
}

/** How the starts of a picture are looked at. */
export function startsLook(axis, asked, choose) {
  const costs = asked.costs.filter(({ start }) => start >= axis.first && start <= axis.last);
  const every = costs.length > 1 ? costs[1].start - costs[0].start : 1;
  const nearest = (place) => Math.round((axis.tickAt(place) - costs[0].start) / every);
  return {
    count: costs.length,
    panels: CURVES.map((_, place) => ({ top: curveTop(place), height: CURVE_HEIGHT })),
    find: (place) => Math.min(Math.max(nearest(place), 0), costs.length - 1),
    words: (at) => `Start at ${startWords(asked, costs[at], asked.hasTicks)}`,
    span: (at) => [axis.place(costs[at].start) - 1, axis.place(costs[at].start) + 1],
    choose: (at) => choose(costs[at].start),
    offer: (at) => `Start at ${momentText(microsOf(asked.scale, costs[at].start))}`,
  };
}
