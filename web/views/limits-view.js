// What is enough for the limit: the module's answer, as `precopy-view predict` tells it, in few digits where these keep
// the limit too. A click takes what is shown.

import { byId, html, keepFocus, mark, renew, tellIn } from "./elements.js";
import { AMOUNTS, offered } from "../model/offers.js";
import { momentText } from "../model/numbers.js";
import { keptWords } from "../model/predictions.js";
import { quantityWords } from "../model/quantities.js";
import { amountOf, microsOf, RATE_UNITS } from "../model/units.js";

/** How many digits a share of the amount that is set has. */
const SHARE_DIGITS = 3;

/** The amounts in a word each. */
const SHORT_WORDS = { link: "link", downtime: "limit" };

/** What the answer says of a migration that ends after the trace. */
const UNKNOWN = "unknown, since the trace ends before the migration does.";

/** What it says of a guest that stood still, and of a plan that keeps the limit if that is not sure: no amount. */
const STILL = "uncertain, since the guest stood still while it was recorded.";
const UNCERTAIN = "uncertain; give more of the link, or a longer downtime.";

/** What the answer says first. */
function headOf({ isUncertain, isStill, isKept, ends, link, downtime, speed }) {
  if (isUncertain) {
    return isStill ? STILL : UNCERTAIN;
  }
  const isAlone = [link, downtime, speed].every((amount) => amount === null);
  if (!ends) {
    return `${UNKNOWN}${isAlone ? "" : " By its plan alone one of these, changed alone, is enough:"}`;
  }
  if (isKept) {
    return isAlone ? "these settings." : "these settings. By its plan alone, so is each of these, changed alone:";
  }
  return isAlone ? "nothing that was tried." : "by its plan alone, one of these, changed alone:";
}

/** The ways out of a prediction that ends after the trace, without a link that only says again what keeps the limit. */
function newWays({ link, ways }) {
  return ways.filter(({ name, answer }) => name !== "link" || link === null || answer.kept !== "yes");
}

/** How much an amount is beside the one that is set. */
function shareWords(amount, asked) {
  if (asked === 0n) {
    return "";
  }
  const share = Number((Number(amount) / Number(asked)).toPrecision(SHARE_DIGITS));
  if (share === 1) {
    return ", about what is set";
  }
  return share < 1 ? `, ${Number((100 * share).toPrecision(SHARE_DIGITS))} % of what is set`
    : `, ${share} times what is set`;
}

export class LimitsView {
  /** `choose` takes other settings, in which a control was chosen by its name. */
  constructor(choose) {
    this.choose = choose;
    this.part = byId("limits-answer");
    this.isAwaited = false;
    /** The settings that each button takes, and the control that differs in them, by the name of the button. */
    this.taken = new Map();
    this.part.addEventListener("click", ({ target }) => this.press(target));
  }

  /** Shows what keeps the limit of a prediction. */
  show(trace, prediction, remedies) {
    this.isAwaited = prediction !== null && remedies === undefined;
    const isMissed = Boolean(prediction && remedies && !remedies.isKept);
    const amounts = isMissed ? this.amountWords(trace, prediction, remedies) : [];
    tellIn(byId("enough-words"), amounts.length > 0 ? `Enough by the plan: ${amounts.join(" or ")}` : "What is enough");
    this.renew(() => (prediction ? this.answerParts(trace, prediction, remedies) : []));
  }

  /** Shows an answer. While it is still to come, the last one stays, grey. */
  renew(partsOf) {
    this.part.setAttribute("aria-busy", String(this.isAwaited));
    this.part.classList.toggle("stale", this.isAwaited);
    if (!this.isAwaited) {
      this.taken = new Map();
      const parts = partsOf();
      byId("enough").hidden = parts.length === 0;
      keepFocus(() => renew(this.part, ...parts), () => this.part.querySelector("button") ?? byId("outcome"));
    } else if (this.part.childElementCount === 0) {
      this.part.replaceChildren(this.sentence("\u2026"));
    }
    // A button that is disabled would lose the focus.
    this.part.querySelectorAll("button").forEach((button) => mark(button, "aria-disabled", String(this.isAwaited)));
  }

  /** The amounts that keep a limit which is missed, in few words. */
  amountWords(trace, prediction, remedies) {
    return AMOUNTS.filter(({ name }) => remedies[name] !== null).map((some) => {
      const { name, units } = some;
      const { quantity } = offered(some, prediction, trace.sizes, remedies[name], remedies.offers[name]);
      return `${SHORT_WORDS[name]} ${quantityWords(quantity, units)}`;
    });
  }

  press({ dataset: { takes } }) {
    if (takes && !this.isAwaited && this.taken.has(takes)) {
      const { settings, control } = this.taken.get(takes);
      this.choose(settings, control);
    }
  }

  sentence(words) {
    return html("p", {}, html("strong", {}, "Enough for the limit:"), ` ${words}`);
  }

  answerParts(trace, prediction, remedies) {
    if (remedies === null) {
      return [];
    }
    const lines = AMOUNTS.filter(({ name }) => remedies[name] !== null)
      .map((some) => this.amountLine(some, prediction.question[some.name],
        offered(some, prediction, trace.sizes, remedies[some.name], remedies.offers[some.name])));
    if (remedies.speed !== null) {
      lines.push(html("li", {}, "the guest slowed to ", html("b", {}, `${remedies.speed} %`),
        ` of its speed, by a throttle of ${100n - remedies.speed} %`));
    }
    const ways = newWays(remedies).map((way) => this.wayLine(prediction, way));
    return [this.sentence(headOf(remedies)), ...[lines, ways].filter((some) => some.length > 0)
      .map((some) => html("ul", {}, ...some))];
  }

  /** A line on a way out of a prediction that ends after the trace. */
  wayLine({ scale }, { name, value, state, answer }) {
    const words = {
      link: (link) => ["with a link of ", quantityWords(link, RATE_UNITS)],
      start: (start) => ["from a start at ", momentText(microsOf(scale, start))],
    };
    const [before, said] = words[name](value);
    const after = ` it ends within the trace, and by its plan alone the limit is ${keptWords(answer)}`;
    const button = state ? [" ", this.takeButton(`ending-${name}`, name, said, state)] : [];
    return html("li", {}, before, html("b", {}, said), after, ...button);
  }

  /**
   * A line on an amount that is offered in place of the one that is set. Its title and its button's name have all
   * digits if these are not shown.
   */
  amountLine({ name, words, units }, set, { quantity, exact, state }) {
    const said = quantityWords(quantity, units);
    const isExact = quantity.amount === exact.amount;
    const title = isExact ? null : `The search found ${quantityWords(exact, units)}`;
    const spoken = [`${words} ${said}`, title].filter(Boolean).join(". ");
    const button = state ? [" ", this.takeButton(name, name, spoken, state)] : [];
    return html("li", {}, `${words} `, html("b", { title }, said), shareWords(amountOf(quantity), set), ...button);
  }

  /** A button, by a name of its own, that takes other settings, in which the control of another name differs. */
  takeButton(own, control, words, settings) {
    this.taken.set(own, { settings, control });
    const attributes = { type: "button", class: "small", "data-takes": own, "aria-label": `Take it: ${words}` };
    return html("button", attributes, "Take it");
  }
}
