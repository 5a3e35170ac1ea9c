// What the controls come to, in words below them: ticks in times, and rates in pages a second. Only where ticks are
// asked for rates are in pages of the trace per 1,000 ticks.

import { bytesText, counted, countOf, lengthText, momentText, rateText, timeText } from "./numbers.js";
import { fewDigitsText, isInBits, roundedWords } from "./quantities.js";
import { amountOf, limitsOf, microsOf, rateIn, RATE_UNITS } from "./units.js";

/** What the length of a tick makes of the controls that are in ticks. */
function tickWordsOf({ start, base, window: length, tick, ticks }) {
  const microsIn = (ticks) => microsOf({ tick: amountOf(tick) }, ticks);
  return {
    start: ticks ? momentText(microsIn(start)) : "",
    base: base !== null && base < start ? `${lengthText(microsIn(start - base))} before the start` : "",
    window: `${ticks ? `${lengthText(microsIn(length))}: ` : ""}a bar of the working set`,
  };
}

/** What the limits come to in a prediction. */
function limitWordsOf(settings, { settings: { min, max, increment }, scale }) {
  const { unit } = settings.link;
  const limits = limitsOf(settings);
  const noun = scale.isSample ? "sample page" : "page";
  const inPages = (rate) => {
    const { bytes, seconds } = rateIn(scale, rate);
    return settings.ticks ? `${countOf(rate, noun)} per 1,000 ticks`
      : `${counted(fewDigitsText(bytes, seconds * scale.page))} pages a second`;
  };
  const rest = rateIn(scale, increment);
  const added = settings.ticks ? inPages(increment) : roundedWords(rest.bytes / rest.seconds, unit, RATE_UNITS);
  return {
    link: `${isInBits(unit) ? `${rateText(limits.link)}: ` : ""}${inPages(max)}`,
    first: `${roundedWords(limits.first, unit, RATE_UNITS)}: ${inPages(min)}`,
    increase: `a round: dirtying rate + ${added}`,
  };
}

function stopWordsOf(settings, { settings: { threshold }, scale }) {
  const { downtime, reserve } = limitsOf(settings);
  const noun = scale.isSample ? "sample page" : "page";
  return {
    reserve: `leaves ${timeText(downtime - reserve)} for pages`,
    downtime: threshold === 1 ? `stops when no ${noun} is left` : `stops at fewer than ${countOf(threshold, noun)}`,
  };
}

function sampleWordsOf({ scale }, { pages }) {
  return scale.isSample ? `${counted(scale.sampled)} of ${counted(scale.guest)} pages, `
    + bytesText(scale.guest * scale.page) : `the trace has the whole guest, ${countOf(pages, "page")}`;
}

/** What the controls come to, by their names; of limits only with a prediction. */
export function derivedWords(settings, prediction, sizes) {
  const words = tickWordsOf(settings);
  return prediction ? {
    ...words, ...limitWordsOf(settings, prediction), ...stopWordsOf(settings, prediction),
    sample: sampleWordsOf(prediction, sizes),
  } : words;
}
