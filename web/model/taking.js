// Settings with another link or downtime limit that ask for the same in all else. Controls say the first round and the
// increment as shares of the link, so another link changes these shares.

import { askedIfAny, OWN_INCREMENT } from "./asking.js";
import { amountOf, percentOf } from "./units.js";

/** The share that is the first round of a question, in per cent of its link. */
function firstOf({ link, first }) {
  return first === null ? 100 : Math.min(100, percentOf(first, link));
}

/** The share that is an increment, in per cent of what the link of a state has above its first round. */
function increaseOf(increment, state, sizes) {
  const { settings } = askedIfAny({ ...state, increase: OWN_INCREMENT }, sizes) ?? {};
  const rest = settings ? settings.max - settings.min : 0;
  return increment === null || rest === 0 ? state.increase : Math.min(100, percentOf(increment, BigInt(rest)));
}

/** Whether a question of the controls has the answer of another one. */
function isSame({ question, settings }, other) {
  const plain = { ...question, first: question.first ?? question.link, increment: BigInt(settings.increment) };
  const wanted = { ...other, first: other.first ?? other.link, increment: other.increment ?? plain.increment };
  return Object.keys(plain).every((name) => plain[name] === wanted[name]);
}

/**
 * The state of the controls that asks what a question does, but with another quantity of `name`: the link or the
 * downtime. Null if no state does.
 */
export function withQuantity(state, sizes, question, name, quantity) {
  const wanted = { ...question, [name]: amountOf(quantity) };
  const shared = { ...state, [name]: quantity, first: state.clark ? firstOf(wanted) : state.first };
  const changed = { ...shared, increase: increaseOf(question.increment, shared, sizes) };
  const asked = askedIfAny(changed, sizes);
  return asked && isSame(asked, wanted) ? changed : null;
}
