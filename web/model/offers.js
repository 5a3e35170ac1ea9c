// What can be taken of what is enough for a limit. The amount that was found may have many digits. The next one of few
// digits is offered in its place, if the module says that it keeps the limit too: what is shown is then taken.

import { exactQuantity, roundedUp } from "./quantities.js";
import { withQuantity } from "./taking.js";
import { amountOf, RATE_UNITS, TIME_UNITS } from "./units.js";

/** The amounts that can be taken, and in what grain the module searches for them: whole Kbit and microseconds. */
export const AMOUNTS = [
  { name: "link", words: "link rate", units: RATE_UNITS, grain: Number(RATE_UNITS.Kbit) },
  { name: "downtime", words: "downtime limit", units: TIME_UNITS, grain: 1 },
];

/** How many digits an amount is offered with, from the fewest. */
const DIGITS = [3, 4, 5];

/** An amount in place of that of a prediction: its quantity, and the state that asks for it, or null if none does. */
function offerOf({ name, units }, { state, question }, sizes, amount) {
  const quantity = exactQuantity(amount, state[name].unit, units);
  return { quantity, state: withQuantity(state, sizes, question, name, quantity) };
}

/** The question of a prediction with another amount. */
function questionWith(name, { question }, quantity) {
  return { ...question, [name]: amountOf(quantity) };
}

/**
 * The offer of few digits for an amount that is enough; null if there is none. It is the next above the last amount
 * that was tried and is not enough, and less than what is set if the amount is. If the amount can be taken, so can it.
 * Its question is still to be asked.
 */
export function fewDigitsOffer(some, prediction, sizes, amount) {
  const { name, units, grain } = some;
  const set = prediction.question[name];
  const least = Math.max(0, Number(amount) - grain + 1);
  const amounts = DIGITS.map((digits) => roundedUp(least, prediction.state[name].unit, units, digits))
    .filter((above) => (amount < set ? BigInt(above) < set : amount > set));
  const offers = amounts.map((above) => offerOf(some, prediction, sizes, above));
  const canTake = offerOf(some, prediction, sizes, Number(amount)).state !== null;
  const found = offers.find(({ state }) => state !== null) ?? (canTake ? null : offers[0]);
  const isOther = found && amountOf(found.quantity) !== amount;
  return isOther ? { ...found, name, question: questionWith(name, prediction, found.quantity) } : null;
}

/** The offer of all digits of an amount, with its question. */
export function exactOffer(some, prediction, sizes, amount) {
  const offer = offerOf(some, prediction, sizes, Number(amount));
  return { ...offer, question: questionWith(some.name, prediction, offer.quantity) };
}

/** The offers of few digits for a prediction by what is enough for its limit. */
export function fewDigitsOffers(prediction, sizes, remedies) {
  return AMOUNTS.filter(({ name }) => remedies[name] !== null)
    .map((some) => fewDigitsOffer(some, prediction, sizes, remedies[some.name])).filter(Boolean);
}

/** What is offered of an amount: `few` digits if these keep the limit, else all digits of the `exact` amount. */
export function offered(some, prediction, sizes, amount, few) {
  const exact = exactQuantity(Number(amount), prediction.state[some.name].unit, some.units);
  if (amount === prediction.question[some.name]) {
    return { exact, quantity: exact, state: null };
  }
  return { exact, ...(few ?? offerOf(some, prediction, sizes, Number(amount))) };
}
