// The names of refusals, and what they mean in a sentence.

import { TRACE_REFUSALS } from "./interface.js";

/** What the planner alone refuses a trace for. */
const OF_READING = "it could not be read";
const OF_TRACES = { ...TRACE_REFUSALS, 17: OF_READING };

const SETTINGS_REFUSALS = {
  1: "The rate of the first round is not 1 to 1,000,000 pages per 1,000 ticks.",
  2: "The rate of the link is below that of the first round, or above 1,000,000 pages per 1,000 ticks.",
  3: "The increment is more than 1,000,000 pages per 1,000 ticks.",
  4: "The threshold is not 1 to 65,536 pages.",
  5: "The most rounds are not 1 to 64.",
  6: "A window is not 1 to 2^40 ticks.",
  7: "The windows that make a page hot are not 1 to 1,048,576.",
  8: "The start is tick 2^40 or later.",
  10: "The copy of the warm start is from after the start.",
};

/** The numbers of refused settings follow this one. */
const BEFORE_SETTINGS = 20;

/** A refusal's name, with the record if there is one, and its sentence. */
export function refusalWords(refusal) {
  const { number, record } = refusal;
  if (OF_TRACES[number]) {
    const where = record === null ? "" : ` record ${record}`;
    const [first, ...rest] = OF_TRACES[number];
    return { name: `E${number}${where}`, sentence: `${first.toUpperCase()}${rest.join("")}.` };
  }
  const setting = number - BEFORE_SETTINGS;
  if (SETTINGS_REFUSALS[setting]) {
    return { name: `S${setting}`, sentence: SETTINGS_REFUSALS[setting] };
  }
  return { name: `refusal ${number}`, sentence: "The page lent the planner too little memory, which is a defect." };
}
