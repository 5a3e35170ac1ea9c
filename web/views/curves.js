// Curves of what a migration costs, by its start or by its link: a panel each for downtime, time and bytes, of which
// each point is a place on an axis with its cost. Of migrations that end after the trace nothing is drawn but where
// they lie.

import { SHORT_UNITS } from "../model/brief.js";
import { area, grounded, svg } from "./elements.js";
import { counted, SIZE_UNITS } from "../model/numbers.js";
import { frameOf, panelOf } from "./plot.js";
import { briefCount } from "../model/quantities.js";

const CURVE_TOP = 26;
export const CURVE_HEIGHT = 84;
const CURVE_STEP = 126;
const LATE_HEIGHT = 6;

/** A start with this many times the cost of all others is drawn cut off, so that the others can be seen. */
const FAR_ABOVE = 4;
const ROOM_ABOVE = 1.25;

/** A curve with a limit has its unit up to so many times the limit. */
const MOST_OF_UNIT = 1_000;

/** The unit of amounts up to a greatest one, of some units: that in which the page's words say it. */
const fittingUnit = (units) => (most) => {
  const [, name, size] = briefCount(BigInt(Math.round(most)), units);
  return [Number(size), name];
};

/** The curves: what each shows of a start, as a number, and the unit of a greatest one, or of the limit. */
export const CURVES = [
  { name: "Downtime", number: ({ cost }) => Number(cost.downtime), unit: fittingUnit(SHORT_UNITS), hasLimit: true },
  { name: "Total time", number: ({ cost }) => Number(cost.time), unit: fittingUnit(SHORT_UNITS) },
  { name: "Sent", number: ({ cost }) => Number(cost.bytes), unit: fittingUnit(SIZE_UNITS) },
];

/** From this part of its greatest number on the least number of a curve is the bottom of its panel. */
const CUT_FROM = 0.5;
const ROOM_BELOW = 0.15;

/** The bottom of a panel for some numbers: 0, or if all of them are far above it and differ, below the least. */
function baseFor(numbers, level) {
  const least = Math.min(...numbers);
  const isFar = numbers.length > 1 && least > CUT_FROM * level && least < level;
  return isFar ? Math.max(0, least - ROOM_BELOW * (level - least)) : 0;
}

/** A number with so many digits that the ends of a panel differ. */
function shortNumber(number, { most, least }) {
  const digits = 3 + Math.max(0, Math.ceil(Math.log10(most / (most - least)) - 1));
  return counted(number < 100 || digits > 3 ? Number(number.toPrecision(digits)) : Math.round(number));
}

/** How far a panel reaches: to the greatest number, or past the next if the greatest is an outlier. */
function levelFor(numbers, limit) {
  const sorted = [...numbers].sort((one, other) => other - one);
  const [most, next] = [sorted[0] ?? 0, Math.max(sorted[1] ?? 0, limit)];
  return sorted.length > 2 && next > 0 && most > FAR_ABOVE * next ? next * ROOM_ABOVE : Math.max(most, limit);
}

/** The starts within the axis whose migration ends within the trace, in stretches without a gap. */
function stretchesOf(axis, costs) {
  const stretches = [[]];
  for (const at of costs) {
    if (at.cost.kept === "unknown") {
      stretches.push([]);
    } else if (at.start >= axis.first && at.start <= axis.last) {
      stretches.at(-1).push(at);
    }
  }
  return stretches.filter((stretch) => stretch.length > 0);
}

function lineOf(axis, panel, stretch, number) {
  const points = stretch.map((at) => `${axis.place(at.start).toFixed(1)},${panel.level(number(at)).toFixed(1)}`);
  if (stretch.length > 1) {
    return svg("polyline", { class: "known", points: points.join(" ") });
  }
  const [only] = stretch;
  return area("knownkey", axis.place(only.start) - 2.5, panel.level(number(only)) - 2.5, 5, 5);
}

/** Where places lie whose migration ends after the trace, an area for each row of them up to the place after it. */
function latePart(axis, panel, costs) {
  const isLate = (at) => costs[at]?.cost.kept === "unknown";
  const firsts = costs.map((_, at) => at).filter((at) => isLate(at) && !isLate(at - 1));
  return firsts.flatMap((at) => {
    const after = costs.findIndex((_, other) => other > at && !isLate(other));
    const [from, to] = [costs[at].start, costs[after]?.start ?? axis.last];
    const [left, right] = [axis.place(from), axis.place(to)];
    return to < axis.first || from > axis.last ? []
      : [area("late", left, panel.bottom - LATE_HEIGHT, Math.max(1, right - left), LATE_HEIGHT)];
  });
}

function placeMark(axis, panel, className, chosen) {
  const isSeen = chosen && chosen.start >= axis.first && chosen.start <= axis.last;
  return isSeen ? [area("halo", axis.place(chosen.start) - 2, panel.top, 4, panel.height),
    area(className, axis.place(chosen.start) - 1, panel.top, 2, panel.height)] : [];
}

/** The number of a start that is cut off, beside its top. */
function cutStart(axis, panel, known, number, text) {
  return known.filter((at) => number(at) > panel.most).slice(0, 1).flatMap((at) => {
    const x = axis.place(at.start);
    const isAtEnd = x >= axis.width - 140;
    return grounded(isAtEnd, isAtEnd ? x - 7 : x + 7, panel.top + 13, `\u2191 ${text(number(at))}`);
  });
}

/** Where the panel of a curve begins. */
export function curveTop(place) {
  return CURVE_TOP + place * CURVE_STEP;
}

function curveParts(axis, { name, number, unit, hasLimit }, place, { costs, limits, marks, noun }) {
  const limit = hasLimit ? Number(limits.downtime) : 0;
  const known = stretchesOf(axis, costs);
  const numbers = known.flat().map(number);
  const level = levelFor(numbers, limit);
  const panel = panelOf(curveTop(place), CURVE_HEIGHT, level, baseFor(hasLimit ? [...numbers, limit] : numbers, level));
  const [size, unitName] = unit(limit ? Math.max(limit, level / MOST_OF_UNIT) : level);
  const text = (amount) => (level > 0 || amount === 0 ? shortNumber(amount / size, panel) : "");
  return [
    ...latePart(axis, panel, costs),
    ...frameOf(axis, panel, level > 0 ? `${name} by ${noun}, in ${unitName}` : `${name} by ${noun}`, text),
    ...marks.flatMap(([className, at]) => placeMark(axis, panel, className, at)),
    ...(hasLimit ? [area("limit", axis.place(axis.first), panel.level(limit) - 1, axis.room, 2)] : []),
    ...known.map((stretch) => lineOf(axis, panel, stretch, number)),
    ...cutStart(axis, panel, known.flat(), number, text),
  ];
}

/** All curves, and where the last panel ends. `marks` are places with the names of their marks. */
export function curvesParts(axis, asked, curves = CURVES) {
  return {
    parts: curves.flatMap((curve, place) => curveParts(axis, curve, place, asked)),
    bottom: curveTop(curves.length - 1) + CURVE_HEIGHT,
  };
}
