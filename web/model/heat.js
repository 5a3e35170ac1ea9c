// How often something is written, in a few steps that grow by equal ratios.

/** How many steps there are. */
export const HEATS = 5;

/** The least count of each step, from the first up, by the greatest count. Steps that are empty are left out. */
export function heatSteps(most) {
  const steps = Array.from({ length: HEATS }, (_, step) => Math.max(step + 1, Math.round(most ** (step / HEATS))));
  return steps.filter((least, step) => least <= most && (step === 0 || least > steps[step - 1]));
}

/** The step of each count up to a greatest one: 0 for none. */
export function heatOf(count, steps) {
  let heat = 0;
  while (heat < steps.length && count >= steps[heat]) {
    heat += 1;
  }
  return heat;
}

/** The steps in words. */
export function heatWords(steps, most) {
  return steps.map((least, step) => {
    const greatest = step === steps.length - 1 ? most : steps[step + 1] - 1;
    return least === greatest ? String(least) : `${least} to ${greatest}`;
  });
}
