// What the controls ask of the module: a question, and the settings that it makes of that. What it refuses is told at
// the control that says it, in the units of the control.

import { countOf, momentText, timeText } from "./numbers.js";
import { MOST_ROUNDS, Refusal } from "../engine/planner.js";
import { quantityWords } from "./quantities.js";
import { amountOf, limitsOf, microsOf, RATE_UNITS, scaleOf, shareOf, TIME_UNITS } from "./units.js";

/** The increment that the module takes by itself, in per cent of what the link has above the first round. */
export const OWN_INCREMENT = 10;

/** What a question says of rounds that does not go by them. */
const NO_ROUNDS = { rounds: 30, skip: false };

/** Why settings make no plan: the control that says too much or too little, and a sentence with value and limit. */
export class ControlRefusal extends Error {
  constructor(control, sentence) {
    super(sentence);
    this.control = control;
  }
}

/** The module without a trace, which makes settings of limits. */
const rules = { planner: null };

export function takeRules(planner) {
  rules.planner = planner;
}

/** The module's number of a trace with more pages than were sampled. */
const TOO_MANY_PAGES = 89;

const rateWords = (quantity) => quantityWords(quantity, RATE_UNITS);
const timeWords = (quantity) => quantityWords(quantity, TIME_UNITS);

/** The control of a refusal by its number. */
const CONTROLS = {
  25: "rounds", 26: "window", 28: "start", 30: "base", 81: "tick", 83: "sample", 84: "link", 85: "first",
  86: "reserve", 87: "downtime", [TOO_MANY_PAGES]: "sample",
};

/** Between a number and its unit or noun, which stay on one line. */
const BEFORE_UNIT = /(?<=\d) (?=[A-Za-z%])/g;

/** So many pages per 1,000 ticks in words. */
function pagesInTicks(count, { sample, tick }) {
  return `${countOf(count, sample ? "sample page" : "page")} in ${timeText(1_000n * amountOf(tick))} (1,000 ticks)`;
}

/** Ticks in words: as a time, and where it is asked for as they are. */
function ticksWords({ tick, ticks: hasTicks }, ticks) {
  const time = momentText(microsOf({ tick: amountOf(tick) }, ticks));
  return hasTicks ? `${time} (${countOf(ticks, "tick")})` : time;
}

/** Whether a link moves less than a page of the trace in 1,000 ticks. */
function isSlow(state, sizes) {
  const { tick, page, sampled, guest } = scaleOf(state, sizes);
  return amountOf(state.link) * tick * sampled < 1_000n * page * guest;
}

/**
 * What a control says that is refused, with its limit, by the control's name. Numbers stand as in the refusals of
 * `precopy-view`: what is asked has no commas.
 */
const SENTENCES = {
  tick: ({ tick }) => `A tick of ${timeWords(tick)} is not one of 1 us to 1 s.`,
  sample: (state, { pages }) => {
    const { part, whole } = state.sample ?? { part: pages, whole: pages };
    if (part < pages) {
      return `${part} sampled pages are fewer than the ${pages} of the trace.`;
    }
    return whole < part ? `A guest of ${whole} pages has fewer than the ${part} that were traced.`
      : `A guest of ${whole} pages has more than 2^32 pages.`;
  },
  link: (state, sizes) => (isSlow(state, sizes)
    ? `${rateWords(state.link)} is less than ${pagesInTicks(1, state)}. Longer ticks allow a slower link.`
    : `${rateWords(state.link)} is more than ${pagesInTicks(1_000_000, state)}. Shorter ticks allow a faster link.`),
  first: (state) => `${state.first} % of the link is less than ${pagesInTicks(1, state)}.`,
  reserve: ({ reserve, downtime }) => `${timeWords(reserve)} is more than the downtime limit of `
    + `${timeWords(downtime)}.`,
  downtime: ({ downtime }) => `In ${timeWords(downtime)} the link moves more than 65,535 pages of the trace.`,
  rounds: ({ rounds: most }) => `${most} rounds at most: there can be 1 to ${MOST_ROUNDS}.`,
  window: (state) => `A window of ${ticksWords(state, state.window)} is not one of 1 to 2^40 ticks.`,
  start: (state) => `${ticksWords(state, state.start)} is not below 2^40 ticks.`,
  base: (state) => `${ticksWords(state, state.base)} is after the start, ${ticksWords(state, state.start)}.`,
};

function controlRefusal(number, state, sizes) {
  const control = CONTROLS[number];
  return new ControlRefusal(control, SENTENCES[control](state, sizes).replace(BEFORE_UNIT, "\u00a0"));
}

/** The settings that the module makes of a question. Throws its refusal, at the control that says it. */
function settingsFor(question, state, sizes) {
  try {
    return rules.planner.settings(question);
  } catch (error) {
    if (!(error instanceof Refusal) || !CONTROLS[error.number]) {
      throw error;
    }
    // The windows are no part of a question. Their length is tested before the start, and after the rounds.
    const isLater = ["start", "base"].includes(CONTROLS[error.number]);
    throw controlRefusal((isLater && rules.planner.windowRefusal(state.window)) || error.number, state, sizes);
  }
}

/**
 * What the state of the controls asks of the module, and the settings that come of it. Throws a ControlRefusal if a
 * control is out of its range.
 */
export function askedOf(state, sizes) {
  const { isSample, ...scale } = scaleOf(state, sizes);
  const { link, first, downtime, reserve } = limitsOf(state);
  const { clark, start, base } = state;
  const { rounds, skip } = clark ? state : NO_ROUNDS;
  const plain = {
    ...scale, link, first: !clark || state.first === 100 ? null : first, downtime, reserve, increment: null, rounds,
    start, base, skip, clark,
  };
  const { min, max } = settingsFor(plain, state, sizes);
  const question = !clark || state.increase === OWN_INCREMENT ? plain
    : { ...plain, increment: shareOf(BigInt(max - min), state.increase) };
  const settings = settingsFor(question, state, sizes);
  const isTooFew = question.sampled < BigInt(sizes.pages);
  const wrong = rules.planner.windowRefusal(state.window) || (isTooFew ? TOO_MANY_PAGES : 0);
  if (wrong !== 0) {
    throw controlRefusal(wrong, state, sizes);
  }
  return { question, settings: { ...settings, window: state.window } };
}

/** What the state of the controls asks of the module, or why it makes no plan over a trace. */
function askedOrRefused(state, sizes) {
  try {
    return { asked: askedOf(state, sizes), refusal: null };
  } catch (error) {
    if (error instanceof ControlRefusal) {
      return { asked: null, refusal: error };
    }
    throw error;
  }
}

/** Why the state of the controls makes no plan over a trace, or null. */
export function refusalOf(state, sizes) {
  return askedOrRefused(state, sizes).refusal;
}

/** What the state of the controls asks of the module, or null if it makes no plan over a trace. */
export function askedIfAny(state, sizes) {
  return askedOrRefused(state, sizes).asked;
}
