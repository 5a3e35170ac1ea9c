// Settings that suit a trace, so that each trace plans at once: link and downtime in round numbers by its pages and its
// length, and what a record beside it says of tick, start and guest.

import { refusalOf } from "./asking.js";
import { limitsOf, RATE_UNITS, scaleOf, TIME_UNITS } from "./units.js";
import { inFittingUnit } from "./quantities.js";

/** About how many windows a trace is cut into at first. */
const WINDOWS_AT_FIRST = 100;

/** A copy of the guest takes at least this part of the trace, and the downtime moves at most that of its pages. */
const PARTS_OF_TRACE = 10;
const PARTS_OF_PAGES = 10;

/** Yet so many pages may be left at a stop, and the link has so many pages per 1,000 ticks, if it can. */
const FEW_LEFT = 4;
const LEAST_RATE = 100;
const MOST_RATE = 1_000_000;
const LEAST_KILOBITS = 10;

/** The links and downtimes that operators begin with. */
const MOST_LINK = Number(RATE_UNITS.Gbit) * 10;
const DOWNTIMES = [300, 200, 100, 50, 20, 10, 5, 2, 1].map((millis) => millis * 1_000);

/** The greatest number of 1, 2 or 5 times a power of ten that is at most this one. */
function roundBelow(number) {
  const power = 10 ** Math.floor(Math.log10(number) + 1e-9);
  return [5, 2, 1].map((factor) => factor * power).find((round) => round <= number * (1 + 1e-9)) ?? power;
}

/** The least length of windows of 1, 2 or 5 times a power of ten that cuts a trace into at most about a hundred. */
function windowFor(last) {
  const least = Math.max(1, last / WINDOWS_AT_FIRST);
  const power = 10 ** Math.floor(Math.log10(least));
  return [1, 2, 5, 10].map((factor) => factor * power).find((length) => length >= least);
}

/** A link, rounded to Kbit: a copy of the whole guest with it takes at least a tenth of the trace. */
function linkFor(settings, sizes, scale) {
  const ticks = sizes.last + 1 - Math.min(settings.start, sizes.last);
  const wanted = (sizes.pages * PARTS_OF_TRACE * 1_000) / ticks;
  const rate = Math.min(Math.max(wanted, LEAST_RATE), MOST_RATE);
  const bytes = (rate * 1_000 * sizes.pageBytes * Number(scale.guest)) / (Number(scale.sampled) * Number(scale.tick));
  const wantedBytes = Math.max(Math.min(bytes, MOST_LINK), (bytes / rate) * LEAST_RATE);
  const kilobits = roundBelow(Math.max(LEAST_KILOBITS, wantedBytes / Number(RATE_UNITS.Kbit)));
  return inFittingUnit(kilobits * Number(RATE_UNITS.Kbit), "Kbit", RATE_UNITS);
}

/** A downtime of at least a tick, in which the link moves at most a tenth of the pages. */
function downtimeFor(settings, sizes, scale) {
  const { link } = limitsOf(settings);
  const tick = Number(scale.tick);
  const pagesIn = (micros) => (Number(link) * Math.floor(micros / tick) * tick * Number(scale.sampled))
    / (1e6 * sizes.pageBytes * Number(scale.guest));
  const most = Math.max(FEW_LEFT, sizes.pages / PARTS_OF_PAGES);
  const amount = DOWNTIMES.find((micros) => micros >= tick && pagesIn(micros) <= most) ?? tick;
  return inFittingUnit(amount, "us", TIME_UNITS);
}

/** What a record gives the settings of its trace. */
export function recordedSettings({ tick, sample, start }) {
  return { tick: { amount: tick, unit: tick < 1_000 ? "us" : "ms" }, sample, start };
}

/** What a trace says by itself if there is no record: a tick is a millisecond, and it has all pages. */
const UNRECORDED = { tick: 1_000, sample: null, start: 0 };

/** Settings of which the length of a tick, the sample and the start are what the record says; the limits stay. */
export function withRecord(settings, record) {
  const found = { ...settings, ...recordedSettings(record) };
  return { ...found, base: found.base !== null && found.base > found.start ? null : found.base };
}

/** What a trace and its record say by themselves: the scale, the start and the windows. */
function placed(settings, sizes, record) {
  return {
    ...settings, ...recordedSettings(record ?? UNRECORDED), base: null, window: windowFor(sizes.last),
  };
}

/** Settings with the limits of others, and by the same rules, or null if these make no plan. */
export function withLimitsOf({ link, first, increase, downtime, reserve, rounds, skip, clark }, settings, sizes) {
  const found = { ...settings, link, first, increase, downtime, reserve, rounds, skip, clark };
  return refusalOf(found, sizes) === null ? found : null;
}

/** The limits that can be fitted to a trace. */
const FITTED = ["link", "downtime"];

/**
 * Settings over a trace, with the record beside it if there is one. What the user has chosen of the limits stays if it
 * makes a plan over this trace; else link and downtime are fitted to it. Beside them the names of those that are.
 */
export function fittedSettings(settings, chosen, sizes, record) {
  const fitted = placed(settings, sizes, record);
  const scale = scaleOf(fitted, sizes);
  if (!chosen.has("link")) {
    fitted.link = linkFor(fitted, sizes, scale);
  }
  if (!chosen.has("downtime")) {
    fitted.downtime = downtimeFor(fitted, sizes, scale);
  }
  return refusalOf(fitted, sizes) === null
    ? { settings: fitted, fitted: FITTED.filter((name) => !chosen.has(name)) }
    : { settings: fittedAnew(fitted, sizes, scale), fitted: FITTED };
}

/** The same with all limits fitted. */
function fittedAnew(settings, sizes, scale) {
  const first = { ...settings, first: 100, reserve: { ...settings.reserve, amount: 0 } };
  const linked = { ...first, rounds: 30, link: linkFor(first, sizes, scale) };
  return { ...linked, downtime: downtimeFor(linked, sizes, scale) };
}

/** Links that are offered in place of a fitted one. */
const LINKS = [1, 10, 25].map((count) => ({ amount: count * Number(RATE_UNITS.Gbit), unit: "Gbit" }));

/** The settings with each of some links that make a plan; a downtime that is fitted is fitted to each. */
export function linkChoices(settings, fitted, sizes) {
  const scale = scaleOf(settings, sizes);
  const withLink = (link) => {
    const linked = { ...settings, link };
    return fitted.has("downtime") ? { ...linked, downtime: downtimeFor(linked, sizes, scale) } : linked;
  };
  return LINKS.filter(({ amount }) => amount !== settings.link.amount).map(withLink)
    .filter((some) => refusalOf(some, sizes) === null);
}
