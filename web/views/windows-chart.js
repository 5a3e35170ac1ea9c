// The picture of the working set: the pages of each window, and where a plan and its stop lie.

import { area, box, grounded, svg } from "./elements.js";
import { counted, countOf, momentText, pagesText } from "../model/numbers.js";
import { AXIS_HEIGHT, axisOf, axisLabels, barOf, frameOf, panelOf, pictureOf } from "./plot.js";
import { endOf } from "../model/predictions.js";
import { firstPlace } from "../model/search.js";
import { microsOf } from "../model/units.js";

const WINDOWS_TOP = 26;
const WINDOWS_HEIGHT = 150;

/** The axis of a trace: from tick 0 to the end of its last window, or a range within it. */
export function traceAxis(width, sizes, length, range) {
  const end = (Math.floor(sizes.last / length) + 1) * length;
  return range ? axisOf(width, range.first, Math.min(range.last, end)) : axisOf(width, 0, end);
}

/** The rows of the windows that lie in an axis, at least in part: from the first to before the second. */
function seenRows(axis, windows, length) {
  return [
    firstPlace(windows.count, (row) => (windows.number[row] + 1) * length > axis.first),
    firstPlace(windows.count, (row) => windows.number[row] * length >= axis.last),
  ];
}

/** A window with this many times the pages of all others is drawn cut off, so that the others can be seen. */
const OUTLIER = 4;

/** How many pages the panel reaches: those of the window with the most, or of the next if the first is an outlier. */
function reachOfPages(windows, [begin, end]) {
  let [most, next] = [1, 0];
  for (let row = begin; row < end; row += 1) {
    const number = windows.pages[row];
    if (number > most) {
      [most, next] = [number, most];
    } else if (number > next) {
      next = number;
    }
  }
  return next > 1 && most > OUTLIER * next ? Math.ceil(next * 1.25) : most;
}

/** The number of the bar that is cut off, beside its top. */
function cutLabels(axis, drawn, windows, panel) {
  return drawn.filter(({ row }) => windows.pages[row] > panel.most).slice(0, 1).flatMap(({ row, left, right }) => {
    const isAtEnd = right >= axis.width - 160;
    const words = `\u2191 ${countOf(windows.pages[row], "page")}`;
    return grounded(isAtEnd, isAtEnd ? left - 6 : right + 6, panel.top + 14, words);
  });
}

/** Of some rows, the first with the most pages. */
function fullestRow({ pages }, begin, end) {
  let found = begin;
  for (let row = begin + 1; row < end; row += 1) {
    if (pages[row] > pages[found]) {
      found = row;
    }
  }
  return found;
}

/** The windows that are drawn: of those that begin on one pixel, the one with the most pages. */
function drawnWindows(axis, windows, [begin, end], length) {
  const drawn = [];
  for (let row = begin, next = begin; row < end; row = next) {
    const [left, right] = barOf(axis, windows.number[row] * length, (windows.number[row] + 1) * length);
    const isBeyond = (at) => axis.place(windows.number[row + at] * length) >= left + 1;
    next = row + firstPlace(end - row, isBeyond);
    const endOfAll = next > row + 1 ? axis.place((windows.number[next - 1] + 1) * length) : right;
    drawn.push({ row: fullestRow(windows, row, next), left, right: Math.max(right, endOfAll) });
  }
  return drawn;
}

/** One path for all bars of a kind, each on top of what is below it, and parted from it by a pixel if there is room. */
function pathsOf(drawn, windows, panel) {
  const paths = { again: "", earlier: "", fresh: "" };
  for (const { row, left, right } of drawn) {
    const old = windows.pages[row] - windows.fresh[row];
    const parts = { again: windows.again[row], earlier: old - windows.again[row], fresh: windows.fresh[row] };
    let below = 0;
    for (const [name, pages] of Object.entries(parts)) {
      const height = panel.rise(below + pages) - panel.rise(below);
      if (height > 0) {
        const gap = below > 0 && height > 2 ? 1 : 0;
        paths[name] += box(left, panel.level(below + pages), right - left, height - gap);
      }
      below += pages;
    }
  }
  return Object.entries(paths).map(([name, d]) => svg("path", { class: name, d }));
}

/**
 * The bars of the windows with axis and frame: they stay while only the limits of a migration change. What is `above`
 * is drawn over the marks of a plan, so that none crosses a number.
 */
export function windowParts(axis, windows, length, { tick, isSample }) {
  const rows = seenRows(axis, windows, length);
  const panel = panelOf(WINDOWS_TOP, WINDOWS_HEIGHT, reachOfPages(windows, rows));
  const drawn = drawnWindows(axis, windows, rows, length);
  const parts = [
    ...frameOf(axis, panel, isSample ? "Sample pages written in a window" : "Pages written in a window"),
    ...pathsOf(drawn, windows, panel),
    ...axisLabels(axis, tick, panel.bottom, "time in the trace"),
  ];
  return { panel, drawn, parts, above: cutLabels(axis, drawn, windows, panel) };
}

/** The mark of a tick, if it lies in the axis, with a halo that parts it from the bars. */
function markAt(axis, panel, className, tick) {
  const x = axis.place(tick);
  return tick < axis.first || tick > axis.last ? []
    : [area("halo", x - 2, panel.top, 4, panel.height), area(className, x - 1, panel.top, 2, panel.height)];
}

/** Where a plan lies, where the guest stops, and where the copy of a warm start is from. */
export function planMarks(axis, panel, settings, plan) {
  const marks = [];
  const end = endOf(plan);
  if (settings.start <= axis.last && end >= axis.first) {
    const from = axis.place(settings.start);
    const to = Math.max(axis.place(end), from + 2);
    marks.push(area("span", from, panel.top, to - from, panel.height),
      area("span top", from, panel.top - 4, to - from, 4));
  }
  if (settings.base !== null) {
    marks.push(...markAt(axis, panel, "base", settings.base));
  }
  if (!plan.isStopped) {
    return marks;
  }
  marks.push(...markAt(axis, panel, "stop", plan.stop));
  if (plan.stop > axis.last) {
    marks.push(...grounded(true, axis.width - 18, panel.top + 32, "stop to the right \u2192"));
  }
  return marks;
}

/** The picture of all parts. */
export function windowsPicture(width, parts) {
  return pictureOf(width, WINDOWS_TOP + WINDOWS_HEIGHT + AXIS_HEIGHT, parts);
}

/** What a window has, in words. */
export function windowWords(windows, row, length, scale) {
  const from = microsOf(scale, windows.number[row] * length);
  const to = microsOf(scale, (windows.number[row] + 1) * length);
  const earlier = windows.pages[row] - windows.fresh[row] - windows.again[row];
  return `Window ${windows.number[row]}, ${momentText(from)} to ${momentText(to)}: `
    + `${countOf(windows.writes[row], "write")}, ${pagesText(scale, windows.pages[row])}; `
    + `${counted(windows.again[row])} also in the window before, ${counted(earlier)} earlier, `
    + `${counted(windows.fresh[row])} never before`;
}

/** The item of `drawn` at a place in pixels. */
export function drawnAt(drawn, place) {
  return Math.max(0, firstPlace(drawn.length, (at) => drawn[at].left > place) - 1);
}
