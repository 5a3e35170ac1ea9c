// Ways out of a plan that ends after its trace: the least link and the latest start that end it within the trace, as
// the module finds them. The link is told in few digits if the module says that these end it too.

import { AMOUNTS, exactOffer, fewDigitsOffer } from "./offers.js";

const [LINK] = AMOUNTS;

/** The links that may be told, that of few digits first. */
function linksOut(prediction, sizes, link) {
  const few = fewDigitsOffer(LINK, prediction, sizes, link);
  return [few, exactOffer(LINK, prediction, sizes, link)].filter(Boolean)
    .map((offer) => ({ ...offer, name: "link", value: offer.quantity }));
}

/** The start, which comes no earlier than the recording begins. */
function startsOut({ state, question }, start) {
  return [{ name: "start", value: start, state: { ...state, start }, question: { ...question, start } }];
}

/** The ways that may be told of a prediction that ends after its trace, by what the module finds to end it within. */
export function waysOf(prediction, sizes, begin, { endingLink, endingStart }) {
  return {
    link: endingLink === null ? [] : linksOut(prediction, sizes, endingLink),
    start: endingStart === null || endingStart < begin ? [] : startsOut(prediction, Number(endingStart)),
  };
}

/**
 * The first of some ways with which the migration ends within the trace: the way `found`, the one to `ask` for next, or
 * neither. `answerTo` has the answer to a question, or undefined if it is still to come.
 */
export function firstWay(ways, answerTo) {
  for (const way of ways) {
    const answer = answerTo(way.question);
    if (answer === undefined) {
      return { ask: way };
    }
    if (answer && answer.kept !== "unknown") {
      return { found: { ...way, answer } };
    }
  }
  return { found: null };
}
