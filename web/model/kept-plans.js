// The plans that are kept to compare: those over the open trace, whose settings are in the address, and before them
// those over traces that were open before, each with the name of its trace.

import { NoAnswer } from "../engine/planner-client.js";
import { MOST_KEPT } from "./state.js";

/** What is told later of a prediction; nothing if it is still to come. */
function laterOf({ errors = null, agreement = null }) {
  return { errors, agreement };
}

export class KeptPlans {
  /** `find` has settings planned over a trace. */
  constructor(find) {
    this.find = find;
    this.found = new Map();
    this.digest = null;
    // What was kept over each trace when another one was opened. The address tells what is kept over the open one.
    this.left = [];
  }

  /** Those over other traces than the open one. */
  get others() {
    return this.left.filter(({ digest }) => digest !== this.digest);
  }

  /** Forgets what was planned over the trace that was open, also what is still being planned. */
  forget() {
    this.found = new Map();
  }

  /** A trace is opened: keeps the plans that were shown over the one before, if there was one. It may be the same. */
  open({ digest: opened }, shown) {
    this.digest = opened;
    if (!shown) {
      return;
    }
    const { digest, source: { name } } = shown.trace;
    const plans = shown.kept.filter((plan) => !plan.name && plan.found.value);
    // What is still to come of them will not come.
    plans.forEach(({ found: { value } }) => { Object.assign(value, laterOf(value)); });
    const named = plans.map(({ settings, found }) => ({ settings, found, name, digest }));
    this.left = [...this.left.filter((plan) => plan.digest !== digest), ...named].slice(-MOST_KEPT);
  }

  /** The settings of what was kept over the open trace when it was open before. */
  settings() {
    return this.left.filter(({ digest }) => digest === this.digest).map(({ settings }) => settings);
  }

  /** Makes room for some more beside those over the open trace. */
  makeRoom(kept, more = 1) {
    const { others } = this;
    const dropped = others.slice(0, Math.max(0, others.length + kept.length + more - MOST_KEPT));
    this.left = this.left.filter((plan) => !dropped.includes(plan));
  }

  /** Drops a plan by its place, and returns what is left of those over the open trace. */
  without(place, kept) {
    const { others } = this;
    this.left = this.left.filter((plan) => plan !== others[place]);
    return kept.filter((_, at) => at + others.length !== place);
  }

  /** All plans, with the windows and ticks that are shown. An address may bring as many as there may be. */
  async all(trace, { kept, settings: { window, ticks } }) {
    this.makeRoom(kept, 0);
    const { others, found } = this;
    const plans = [...others];
    for (const some of kept.map((plan) => ({ ...plan, ticks }))) {
      const key = JSON.stringify(some);
      const plan = found.get(key) ?? await this.find(trace, { ...some, window: trace.sizes.last + 1 });
      // A planner that has ended refuses no plan for good.
      if (!(plan.refusal instanceof NoAnswer)) {
        found.set(key, plan);
      }
      plans.push({ settings: { ...some, window }, found: plan });
    }
    return plans;
  }
}
