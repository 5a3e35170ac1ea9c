// How sure the verdicts of a prediction are: in how many redraws of a sample, and from how many starts, the answer is
// the same. The module tells it later than the plan: until then a verdict is of the plan alone, and told as such.

/** With so many standard errors more of its downtime a limit is kept for sure. */
export const ERRORS_BELOW = 2n;

/** In which counts of an agreement a question is answered with yes. */
const ANSWER_COUNTS = { converges: ["drawsConverging", "startsConverging"], kept: ["drawsKept", "startsKept"] };

/** Whether it can be asked how sure the verdicts of a prediction are: its plan has some. */
export function mayBeSure({ cost }) {
  return cost.kept === "yes" || cost.kept === "no";
}

/** Whether it is still to come how sure the verdicts of a prediction are. */
export function isAwaited(prediction) {
  return mayBeSure(prediction) && prediction.agreement === undefined;
}

/** Whether the verdicts of a prediction are of its plan alone, since nothing tells how sure they are. */
export function isOfPlan(prediction) {
  return mayBeSure(prediction) && !prediction.agreement;
}

/** The verdicts of a prediction: sure ones once they are there, else those of its plan. */
export function verdictsOf({ cost, agreement }) {
  const { converges, kept } = agreement ?? cost;
  return { converges, kept };
}

/** What follows a verdict that is of the plan alone. */
export function planMark(prediction) {
  return isAwaited(prediction) ? "\u00a0\u2026" : isOfPlan(prediction) ? " by the plan" : "";
}

/** In how many redraws and from how many starts a migration converges, or keeps its limit. */
export function sureWords({ agreement }, name) {
  const [ofDraws, ofStarts] = ANSWER_COUNTS[name].map((counts) => agreement[counts]);
  const redraws = agreement.draws === 0 ? "" : `in ${ofDraws} of ${agreement.draws} redraws and `;
  return `${redraws}from ${ofStarts} of ${agreement.starts} starts`;
}

/** The same at one glance. */
function briefCounts({ agreement }, name) {
  const [ofDraws, ofStarts] = ANSWER_COUNTS[name].map((counts) => agreement[counts]);
  const redraws = agreement.draws === 0 ? "" : `${ofDraws}/${agreement.draws} redraws, `;
  return `${redraws}${ofStarts}/${agreement.starts} starts`;
}

/** Whether a migration converges or its limit is kept, in the words of `precopy-view predict`. */
export function answerWords(prediction, name) {
  const counts = prediction.agreement ? `, ${sureWords(prediction, name)}` : planMark(prediction);
  return `${name}: ${verdictsOf(prediction)[name]}${counts}`;
}

/**
 * The downtime with two standard errors, if that is beyond a limit which the plan keeps; else null. A hypervisor stops
 * the guest only when what is left fits the limit.
 */
export function likelyBeyond({ cost, limits, errors, plan }) {
  const likely = cost.downtime + ERRORS_BELOW * (errors?.downtime ?? 0n);
  return plan.isClark && cost.kept === "yes" && likely > limits.downtime ? likely : null;
}

/** How sure the verdicts of a prediction are, in one line; nothing if it has none. */
export function sureLine(prediction) {
  if (!mayBeSure(prediction)) {
    return "";
  }
  if (isOfPlan(prediction)) {
    return `By the plan alone${isAwaited(prediction) ? "\u00a0\u2026" : ""}`;
  }
  const { converges, kept } = prediction.agreement;
  const errors = likelyBeyond(prediction) === null ? "" : ", but not with 2 standard errors";
  const ending = converges === "uncertain" && kept !== "uncertain"
    ? `; converges: ${briefCounts(prediction, "converges")}` : "";
  return `Kept: ${briefCounts(prediction, "kept")}${errors}${ending}`;
}
