// What the steps of a plan are called: Clark's rounds, of which the first has number 0, or the lists of a hypervisor,
// of which a look ends each but one that the end of the trace cuts.

const ROUNDS = {
  one: "round", many: "rounds", first: 0, title: "Rounds", begins: "a round begins", unsent: "skipped",
};
const LISTS = {
  one: "list", many: "lists", first: 1, title: "Looks", begins: "a list begins", unsent: "unsent",
};

export function nounsOf({ isClark }) {
  return isClark ? ROUNDS : LISTS;
}

/** The number of a step by its place. */
export function stepNumber(plan, place) {
  return place + nounsOf(plan).first;
}
