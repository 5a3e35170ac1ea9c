// What pictures share: panels with their frame, an axis of ticks with times as labels, and looking at a part of a
// picture by pointer or by keyboard.

import { area, label, svg } from "./elements.js";
import { counted } from "../model/numbers.js";

/** Room for numbers at the left of a plot, and at its right, in pixels. */
const LEFT = 68;
const RIGHT = 12;

/** The least pixels between two labels of an axis, and the width of one of their letters. */
const LABEL_GAP = 28;
const DIGIT_WIDTH = 7.7;

/** An axis of ticks over a picture of some width: it has the ticks [first, last). */
export function axisOf(width, first, last) {
  const span = Math.max(1, last - first);
  const room = Math.max(1, width - LEFT - RIGHT);
  return {
    first, last: first + span, width, room,
    place: (tick) => LEFT + ((Math.min(Math.max(tick, first), first + span) - first) / span) * room,
    tickAt: (x) => Math.round(first + (Math.min(Math.max(x - LEFT, 0), room) / room) * span),
  };
}

/** The widths of plots as they were seen last. To ask the page for them in a drawing would have it laid out twice. */
const seenWidths = new Map();

/** Watches the widths of plots, and calls `changed` if one becomes another. A plot that is hidden keeps its width. */
export function watchWidths(plots, changed) {
  const observer = new ResizeObserver((entries) => {
    const isOther = ({ target, contentRect: { width } }) => width > 0 && seenWidths.get(target) !== width;
    const others = entries.filter(isOther);
    others.forEach(({ target, contentRect }) => seenWidths.set(target, contentRect.width));
    if (others.length > 0) {
      changed();
    }
  });
  plots.forEach((plot) => observer.observe(plot));
}

/** The widths of plots on paper, of which so many stand beside each other, in pixels. */
const WIDTHS_ON_PAPER = { 1: 1160, 2: 560, 3: 376, 4: 276 };

/** What tells of a plot on paper how many stand beside each other; null on the screen. */
let abreastOnPaper = null;

/** Gives plots their widths on paper, by how many stand beside each other, or with null those on the screen. */
export function fixWidths(abreastOf) {
  abreastOnPaper = abreastOf;
}

/** The width of a plot, in pixels. */
export function widthOf(plot) {
  if (abreastOnPaper !== null) {
    return WIDTHS_ON_PAPER[abreastOnPaper(plot)];
  }
  if (!seenWidths.get(plot)) {
    seenWidths.set(plot, plot.clientWidth);
  }
  return seenWidths.get(plot);
}

/** The least step of 1, 2 or 5 times a power of ten that parts a span into at most this many. */
function stepFor(span, most) {
  const least = Math.max(span / Math.max(1, most), 1e-9);
  const power = 10 ** Math.floor(Math.log10(least));
  return [1, 2, 5, 10].map((factor) => factor * power).find((step) => step >= least * 0.999);
}

/** Microseconds of a minute and of an hour. */
const MINUTE = 6e7;
const HOUR = 60 * MINUTE;

/** The least spans whose labels are in minutes and in hours. */
const IN_MINUTES = 20 * MINUTE;
const IN_HOURS = 2 * HOUR;

/** The unit of labels that are `step` microseconds apart, up to `last`, and its name. */
function unitOf(size, step, last) {
  if (size > 1) {
    return size === HOUR ? [HOUR, "h"] : [MINUTE, "min"];
  }
  return step >= 1e5 && last >= 1e6 ? [1e6, "s"] : step >= 100 ? [1e3, "ms"] : [1, "us"];
}

/** What the labels of an axis are apart, in microseconds, their unit, and the text of one. */
function labelsOf(axis, tick) {
  const [span, last] = [(axis.last - axis.first) * tick, axis.last * tick];
  const size = span >= IN_HOURS ? HOUR : span >= IN_MINUTES ? MINUTE : 1;
  const withStep = (step) => {
    const [unit, name] = unitOf(size, step, last);
    const digits = Math.min(6, Math.max(0, Math.ceil(-Math.log10(step / unit) - 1e-9)));
    return { step, name, text: (micros) => (micros / unit).toFixed(digits) };
  };
  const isTight = ({ step, text }) => (step / span) * axis.room < text(last).length * DIGIT_WIDTH + LABEL_GAP;
  let labels = withStep(stepFor(span / size, axis.room / LABEL_GAP) * size);
  while (labels.step < span && isTight(labels)) {
    labels = withStep(stepFor((1.5 * labels.step) / size, 1) * size);
  }
  return labels;
}

/** The room below a plot for the labels of its axis and their title. */
export const AXIS_HEIGHT = 50;

/** The marks and labels below a plot that ends at `bottom`, and their title. A tick has `tick` microseconds. */
export function axisLabels(axis, tick, bottom, title) {
  const { step, name, text } = labelsOf(axis, tick);
  const marks = [label("middle title", LEFT + axis.room / 2, bottom + 40, `${title}, ${name}`)];
  let taken = 0;
  for (let at = Math.ceil((axis.first * tick) / step) * step; at <= axis.last * tick; at += step) {
    const x = axis.place(at / tick);
    const words = text(at);
    const width = words.length * DIGIT_WIDTH;
    const isAtEnd = x + width / 2 > axis.width;
    const left = isAtEnd ? axis.width - width : x - width / 2;
    marks.push(area("line", x, bottom + 1, 1, 5));
    if (left >= taken) {
      marks.push(label(isAtEnd ? "end" : "middle", isAtEnd ? axis.width - 2 : x, bottom + 19, words));
      taken = left + width + LABEL_GAP;
    }
  }
  return marks;
}

/** A panel from `top` down with numbers from `least` to `most`. */
export function panelOf(top, height, most, least = 0) {
  const greatest = Math.max(most, least + 1e-9);
  const bottom = top + height;
  const rise = (number) => ((Math.min(Math.max(number, least), greatest) - least) / (greatest - least)) * height;
  return { top, height, bottom, least, most: greatest, rise, level: (number) => bottom - rise(number) };
}

/** Marks that the numbers of a panel do not begin at 0: its side is broken. */
function breakParts({ bottom, least }) {
  const x = LEFT - 4;
  const points = [[x, bottom + 3], [x + 8, bottom - 1], [x, bottom - 5], [x + 8, bottom - 9]];
  return least === 0 ? [] : [svg("polyline", { class: "break", points: points.join(" ") })];
}

/** The title of a panel, its lines at the top, in the middle and at the bottom, and their numbers. */
export function frameOf(axis, panel, title, text = counted) {
  const parts = [label("title", LEFT, panel.top - 9, title), ...breakParts(panel)];
  const middle = (panel.most + panel.least) / 2;
  for (const [className, number] of [["grid", panel.most], ["grid", middle], ["line", panel.least]]) {
    const y = panel.level(number);
    parts.push(area(className, LEFT, y, axis.room, 1));
    if (number !== middle) {
      parts.push(label("end", LEFT - 8, y + 4.5, text(number)));
    }
  }
  return parts;
}

/** A bar of at least one pixel, as left and right, with a gap after it if there is room for one. */
export function barOf(axis, from, to) {
  const left = axis.place(from);
  const right = Math.max(axis.place(to), left + 1);
  return [left, right - left > 3 ? right - 1 : right];
}

/** A picture of this size in which `parts` are drawn. */
export function pictureOf(width, height, parts) {
  const attributes = { width, height, viewBox: `0 0 ${width} ${height}`, "aria-hidden": "true" };
  return svg("svg", attributes, ...parts);
}

