// The bar of the limit: the downtime with its standard error, and the limit. Its colour tells a verdict that is sure.

import { area, label, LETTER } from "./elements.js";
import { briefTime } from "../model/brief.js";
import { pictureOf } from "./plot.js";
import { isOfPlan, verdictsOf } from "../model/sureness.js";

const HEIGHT = 64;
const BAR_TOP = 24;
const BAR_HEIGHT = 16;
const SIDE = 6;

/** The class of the bar, by whether the limit is kept; and if that is of the plan alone. */
const BARS = { yes: "kept", no: "missed", uncertain: "unsure" };

function barClass(prediction) {
  return isOfPlan(prediction) ? BARS.uncertain : BARS[verdictsOf(prediction).kept];
}

/** How far the bar reaches beyond the greater of the limit and the downtime. */
const BEYOND = 1.15;

/** A text whose middle is at `x` if there is room. */
function centred(x, y, width, words) {
  const half = (words.length * LETTER) / 2;
  return label("middle", Math.min(Math.max(x, half + 2), width - half - 2), y, words);
}

/** The picture of a prediction's downtime beside its limit. */
export function limitBar(width, prediction) {
  const { cost, limits, errors } = prediction;
  const [down, limit, error] = [cost.downtime, limits.downtime, errors ? errors.downtime : 0n].map(Number);
  const most = BEYOND * Math.max(limit, down + error, 1);
  const place = (micros) => SIDE + (Math.max(0, micros) / most) * (width - 2 * SIDE);
  const middle = BAR_TOP + BAR_HEIGHT / 2;
  const whisker = error === 0 ? [] : [
    area("halo", place(down - error), middle - 3, place(down + error) - place(down - error), 6),
    area("stop", place(down - error), middle - 1, place(down + error) - place(down - error), 2),
    ...[down - error, down + error].map((at) => area("stop", place(at) - 1, middle - 6, 2, 12)),
  ];
  const words = briefTime(cost.downtime) + (error === 0 ? "" : ` \u00b1 ${briefTime(errors.downtime)}`);
  return pictureOf(width, HEIGHT, [
    area("track", SIDE, BAR_TOP, width - 2 * SIDE, BAR_HEIGHT),
    area(barClass(prediction), SIDE, BAR_TOP, Math.max(2, place(down) - SIDE), BAR_HEIGHT),
    ...whisker,
    area("halo", place(limit) - 2, BAR_TOP - 5, 4, BAR_HEIGHT + 10),
    area("limit", place(limit) - 1, BAR_TOP - 5, 2, BAR_HEIGHT + 10),
    centred(place(limit), BAR_TOP - 9, width, `limit ${briefTime(limits.downtime)}`),
    centred(place(down), BAR_TOP + BAR_HEIGHT + 17, width, words),
  ]);
}
