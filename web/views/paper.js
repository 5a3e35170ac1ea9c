// The page on paper: what is folded is unfolded, and pictures are as wide as they are there, so that their words can be
// read.

import { byId } from "./elements.js";
import { fixWidths } from "./plot.js";

/** What paper shows also if it is folded. */
const UNFOLDED = ["more-settings", "reasons", "enough"];

/**
 * How many pictures there are in a row on paper: of several plans all, and then one of all else; of one plan two. The
 * map of pages has a row of its own.
 */
function picturesAbreast(plot) {
  const plans = Number(byId("plans").dataset.plans);
  if (plot === byId("limit-bar")) {
    return 2;
  }
  return byId("plans").contains(plot) ? Math.max(2, plans) : plans === 1 && plot !== byId("map-plot") ? 2 : 1;
}

/** Draws the page by `draw` for paper before it is printed, and for the screen after it. */
export function listenToPrinting(draw) {
  const unfolded = new Set();
  addEventListener("beforeprint", () => {
    for (const part of UNFOLDED.map(byId).filter(({ open }) => !open)) {
      unfolded.add(part);
      part.open = true;
    }
    document.documentElement.classList.add("on-paper");
    fixWidths(picturesAbreast);
    draw();
  });
  addEventListener("afterprint", () => {
    unfolded.forEach((part) => { part.open = false; });
    unfolded.clear();
    document.documentElement.classList.remove("on-paper");
    fixWidths(null);
    draw();
  });
}
