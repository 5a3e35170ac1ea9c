// The nearest value of a control that makes a plan, for settings that make none.

import { refusalOf } from "./asking.js";

/** Four steps double an amount, and so many steps lead from the least amount to the greatest. */
const STEPS_OF_TWO = 4;
const MOST_STEPS = 4 * 53;

/** How a control's number is read from settings, and put into them. */
const QUANTITY = {
  read: (settings, name) => settings[name].amount,
  put: (settings, name, amount) => ({ ...settings, [name]: { ...settings[name], amount } }),
};
const COUNT = {
  read: (settings, name) => settings[name],
  put: (settings, name, amount) => ({ ...settings, [name]: amount }),
};
const NUMBERS = { link: QUANTITY, downtime: QUANTITY, reserve: QUANTITY, tick: QUANTITY };

/** The whole of a guest for a sample: at least its part, of which there are at least the trace's pages. */
function sampleRange(sizes) {
  return {
    read: (settings) => settings.sample.whole,
    put: (settings, name, amount) => {
      const part = Math.max(settings.sample.part, sizes.pages);
      return { ...settings, sample: amount === part ? null : { part, whole: amount } };
    },
  };
}

/** The amounts round about one, each a step further from it. */
function* amountsAround(amount) {
  yield amount;
  for (let step = 1; step <= MOST_STEPS; step += 1) {
    const factor = 2 ** (step / STEPS_OF_TWO);
    yield Math.floor(amount / factor);
    const above = Math.ceil(Math.max(amount, 1) * factor);
    if (above <= Number.MAX_SAFE_INTEGER) {
      yield above;
    }
  }
}

/** Of the amounts between one that does not hold and one that does, that holds and lies next to one that does not. */
function edgeBetween(bad, good, holds) {
  let [far, near] = [bad, good];
  while (Math.abs(near - far) > 1) {
    const middle = Math.floor((near + far) / 2);
    if (holds(middle)) {
      near = middle;
    } else {
      far = middle;
    }
  }
  return near;
}

function nearestBy(settings, name, number, holds) {
  const amount = number.read(settings, name);
  for (const some of amountsAround(amount)) {
    if (holds(some)) {
      return edgeBetween(amount, some, holds);
    }
  }
  return null;
}

/**
 * Settings with the nearest value of a refused control that makes a plan; if none does, with the nearest that another
 * control is refused for. Null if there is none of both.
 */
export function nearestSettings(settings, refusal, sizes) {
  const name = refusal.control;
  const number = name === "sample" ? sampleRange(sizes) : NUMBERS[name] ?? COUNT;
  const refusalFor = (amount) => refusalOf(number.put(settings, name, amount), sizes);
  const amount = nearestBy(settings, name, number, (some) => refusalFor(some) === null)
    ?? nearestBy(settings, name, number, (some) => refusalFor(some)?.control !== name);
  return amount === null ? null : number.put(settings, name, amount);
}
