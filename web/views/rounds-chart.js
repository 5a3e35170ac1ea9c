// The picture of a plan: the pages of each round or list and its rate, the stop and the downtime, by the time since the
// start.

import { area, areas, grounded } from "./elements.js";
import { nounsOf, stepNumber } from "../model/nouns.js";
import { counted, momentText, pagesText, timeText } from "../model/numbers.js";
import { AXIS_HEIGHT, axisOf, axisLabels, barOf, frameOf, panelOf, pictureOf } from "./plot.js";
import { isCut } from "../engine/look-lists.js";
import { endOf, isUnknown, reasonWords } from "../model/predictions.js";
import { fewDigits, fewDigitsText, roundedUnit, unitName } from "../model/quantities.js";
import { microsOf, rateIn, RATE_UNITS } from "../model/units.js";

const PAGES_TOP = 26;
const PAGES_HEIGHT = 200;
const RATES_TOP = 266;
const RATES_HEIGHT = 84;

/** How wide the pixels are that lists share if there are more than so many. */
const MANY_STEPS = 64;
const STEP_ROOM = 4;

/** A rate in pages per 1,000 ticks as a number of bytes a second. */
function bytesASecond(scale, rate) {
  const { bytes, seconds } = rateIn(scale, rate);
  return Number(bytes) / Number(seconds);
}

/** For how many bytes of the guest a page of the trace stands. */
function bytesOfPage({ guest, page, sampled }) {
  return Number(guest * page) / Number(sampled);
}

/** The part of a range of ticks that lies in the time of a plan, in microseconds since its start; or all of that. */
function stretchIn({ settings: { start }, scale }, range, micros) {
  const since = (tick) => (tick - start) * Number(scale.tick);
  const [first, last] = range ? [since(range.first), since(range.last)] : [0, micros];
  return last <= 0 || first >= micros ? { first: 0, last: micros }
    : { first: Math.max(0, first), last: Math.min(micros, last) };
}

/**
 * What a picture of plans must reach: microseconds, bytes of a round, and bytes a second; and the unit of rates, in
 * which the fastest link is said, of the family of the first plan's. Plans beside each other share one, whatever their
 * ticks, and whatever their pages stand for. Of the time only the part in a range of ticks is shown, by the first plan.
 */
export function reachOf(predictions, range) {
  const reach = { micros: 1, bytes: 1, rate: 1 };
  for (const { plan, settings, scale } of predictions) {
    reach.micros = Math.max(reach.micros, (endOf(plan) - settings.start) * Number(scale.tick));
    const pages = plan.rounds.map((round) => Math.max(1, round.pages, round.dirtied));
    reach.bytes = Math.max(reach.bytes, ...pages.map((count) => count * bytesOfPage(scale)));
    reach.rate = Math.max(reach.rate, bytesASecond(scale, settings.max));
  }
  const link = Math.max(...predictions.map(({ state }) => state.link.amount));
  const unit = roundedUnit(link, predictions[0].state.link.unit, RATE_UNITS);
  const stretch = stretchIn(predictions[0], range, reach.micros);
  return { ...reach, stretch, unit: { name: unitName(unit, RATE_UNITS), size: RATE_UNITS[unit] } };
}

/** When something is on the axis of a plan, in microseconds since its start. */
function sinceStart({ settings, scale }, tick) {
  return (tick - settings.start) * Number(scale.tick);
}

/**
 * The rectangles of a round or a list, by what they show. The pages that are dirtied are a mark over the bar, with a
 * halo that parts it from what it lies on.
 */
function boxesOf(axis, pages, rates, round, prediction) {
  const [left, right] = barOf(axis, sinceStart(prediction, round.from), sinceStart(prediction, round.to));
  const width = right - left;
  const skipped = round.pages - round.sent;
  const rate = bytesASecond(prediction.scale, round.rate);
  const dirtied = pages.level(round.dirtied);
  return {
    sent: [left, pages.level(round.sent), width, pages.rise(round.sent)],
    skipped: [left, pages.level(round.pages), width, pages.rise(skipped) - 1],
    halo: [left, dirtied - 3, Math.max(2, width), 6],
    dirtied: [left, dirtied - 1.5, Math.max(2, width), 3],
    rate: [left, rates.level(rate), width, rates.rise(rate)],
  };
}

/** Whether something from one tick to another is seen, at least in part. */
function isIn(axis, prediction, from, to) {
  return sinceStart(prediction, from) < axis.last && sinceStart(prediction, to) >= axis.first;
}

/** The steps of a plan that are drawn. Of many those that share pixels are one bar, of the one with most pages. */
function drawnSteps(axis, prediction) {
  const seen = prediction.plan.rounds.filter(({ from, to }) => isIn(axis, prediction, from, to));
  if (seen.length <= MANY_STEPS) {
    return seen;
  }
  const columns = new Map();
  for (const step of seen) {
    const column = Math.floor(axis.place(sinceStart(prediction, step.from)) / STEP_ROOM);
    const others = columns.get(column) ?? step;
    const fullest = others.pages >= step.pages ? others : step;
    columns.set(column, { ...fullest, from: others.from, to: step.to });
  }
  return [...columns.values()];
}

/** The rounds or lists of a plan, in the order in which their parts lie over each other. */
function stepParts(axis, pages, rates, prediction) {
  const all = drawnSteps(axis, prediction).map((round) => boxesOf(axis, pages, rates, round, prediction));
  return ["sent", "skipped", "halo", "dirtied", "rate"].map((kind) => areas(kind, all.map((boxes) => boxes[kind])));
}

function stopParts(axis, panel, prediction) {
  const { stop, down, isStopped } = prediction.plan;
  if (!isStopped || !isIn(axis, prediction, stop - 1, stop + down)) {
    return [];
  }
  const [at, end] = [stop, stop + down].map((tick) => axis.place(sinceStart(prediction, tick)));
  return [area("down", at, panel.top, end - at, panel.height), area("stop", at - 1, panel.top, 2, panel.height)];
}

/** What is said where the trace ends, and the room that this takes in a picture, in pixels. */
const ENDS = "trace ends here";
const ENDS_ROOM = 116;
const ENDS_DOWN = 34;

/** Of a plan that ends after its trace what is drawn later is paler, from a line on that is told in the first panel. */
function laterParts(axis, panels, prediction) {
  const end = Number(prediction.cost.recorded);
  const isTold = isUnknown(prediction) || isCut(prediction.plan);
  if (!isTold || end < axis.first || end > axis.last) {
    return [];
  }
  const x = axis.place(end);
  const isToTheLeft = x + ENDS_ROOM > axis.width;
  return [
    ...panels.flatMap(({ top, height }) => [area("later", x, top, axis.place(axis.last) - x, height),
      area("link", x - 0.5, top, 1, height)]),
    ...grounded(isToTheLeft, isToTheLeft ? x - 8 : x + 8, panels[0].top + ENDS_DOWN, ENDS),
  ];
}

/** The picture of a plan within a reach. */
export function roundsPicture(width, prediction, reach) {
  const { plan, settings, scale } = prediction;
  const { one } = nounsOf(plan);
  const { unit } = reach;
  const axis = axisOf(width, reach.stretch.first, reach.stretch.last);
  const pages = panelOf(PAGES_TOP, PAGES_HEIGHT, Math.max(1, Math.round(reach.bytes / bytesOfPage(scale))));
  const rates = panelOf(RATES_TOP, RATES_HEIGHT, reach.rate);
  const rateText = (rate) => counted(fewDigits(rate / Number(unit.size)));
  const parts = [
    ...frameOf(axis, pages, `${scale.isSample ? "Sample pages" : "Pages"} of a ${one}`),
    ...frameOf(axis, rates, `Rate of a ${one}, in ${unit.name}`, rateText),
    ...stepParts(axis, pages, rates, prediction),
    area("link", axis.place(axis.first), rates.level(bytesASecond(scale, settings.max)) - 0.5, axis.room, 1),
    ...stopParts(axis, pages, prediction), ...stopParts(axis, rates, prediction),
    ...laterParts(axis, [pages, rates], prediction),
    ...axisLabels(axis, 1, rates.bottom, "time since the start"),
  ];
  return { axis, panels: [pages, rates], picture: pictureOf(width, RATES_TOP + RATES_HEIGHT + AXIS_HEIGHT, parts) };
}

/** What ends a list, in words. */
function endWords({ scale, plan }, at) {
  const { left } = plan.rounds[at];
  return `${at < plan.steps ? "the look finds" : "the trace ends with"} ${pagesText(scale, left)} left`;
}

/** What a round or a list has, in words; the item after the last one is the stop. */
function wordsOf(prediction, unit, at) {
  const { plan, settings, scale } = prediction;
  const since = (tick) => momentText(microsOf(scale, tick - settings.start));
  if (at === plan.rounds.length) {
    return `Stop at ${since(plan.stop)}: ${reasonWords(prediction)}; ${pagesText(scale, plan.left)} left, `
      + `sent in ${timeText(microsOf(scale, plan.down))}`;
  }
  const round = plan.rounds[at];
  const { bytes, seconds } = rateIn(scale, round.rate);
  const rate = fewDigitsText(bytes, seconds * unit.size);
  const name = plan.isClark ? "Round" : "List";
  return `${name} ${counted(stepNumber(plan, at))}, ${since(round.from)} to ${since(round.to)}, `
    + `at ${rate} ${unit.name}: ${pagesText(scale, round.pages)}, ${counted(round.sent)} sent, `
    + `${counted(round.dirtied)} dirtied meanwhile`
    + (plan.isClark ? "" : `; ${endWords(prediction, at)}`);
}

/** How the rounds or lists of a picture are looked at: those that are seen, and the stop. */
export function roundsLook({ axis, panels }, prediction, { unit }) {
  const { rounds, stop, down, isStopped } = prediction.plan;
  const since = (tick) => sinceStart(prediction, tick);
  const ends = isStopped ? [{ from: stop, to: stop + down }] : [];
  const all = [...rounds, ...ends].map(({ from, to }, at) => ({ from, to, at }));
  const seen = all.filter(({ from, to }) => isIn(axis, prediction, from, to));
  return {
    count: seen.length, panels,
    find: (place) => {
      const found = seen.findIndex(({ to }) => place <= axis.place(since(to)));
      return found === -1 ? seen.length - 1 : found;
    },
    words: (item) => wordsOf(prediction, unit, seen[item].at),
    span: (item) => [axis.place(since(seen[item].from)), axis.place(since(seen[item].to))],
  };
}
