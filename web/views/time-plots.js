// Plots over the time of a trace, which are looked at together: a stretch that is taken nearer in one is in all, and a
// moment that is pointed at in one is marked in the others.

import { Brush } from "./brush.js";
import { isCommand } from "./elements.js";

/** How long a stretch is that a key shows, beside that which is shown. */
const ZOOMS = new Map([["+", 1 / 2], ["=", 1 / 2], ["-", 2]]);

/** The least ticks of a stretch. */
const LEAST_TICKS = 4;

export class TimePlots {
  /** `changed` has all drawn again. */
  constructor(changed) {
    this.changed = changed;
    /** The stretch of time that is shown, in ticks of the trace; null if all is. */
    this.range = null;
    this.last = 0;
    this.plots = [];
    this.isBrushed = false;
  }

  /** Shows the whole of another trace, whose last tick is given. */
  forget(last) {
    this.range = null;
    this.last = last;
  }

  /**
   * Adds a plot with its inspector. `axisOf` returns what is drawn: its axis, and how many ticks of the trace a unit of
   * the axis has, from which tick on; null if nothing is. A plot with rows is told by `takeRows` between which places
   * rows are taken nearer.
   */
  add(plot, inspector, axisOf, takeRows = null) {
    const entry = { plot, inspector, axisOf };
    this.plots.push(entry);
    inspector.share((place) => this.tell(entry, place));
    plot.addEventListener("keydown", (event) => this.press(entry, event));
    const brush = { isReady: () => Boolean(axisOf()), hasRows: takeRows !== null };
    entry.brush = new Brush(plot, brush, ({ across, down }) => {
      if (down) {
        takeRows(down);
      }
      if (across) {
        this.takeStretch(entry, across);
      }
    });
  }

  /** The tick of the trace at a place of a plot. */
  tickAt({ axisOf }, place) {
    const { axis, from, ticks } = axisOf();
    return from + axis.tickAt(place) * ticks;
  }

  /** Marks the moment at a place of a plot in the others; with null none. */
  tell(entry, place) {
    const tick = place === null || !entry.axisOf() ? null : this.tickAt(entry, place);
    for (const other of this.plots.filter((some) => some !== entry)) {
      other.inspector.mark(tick === null ? null : this.placeOf(other, tick));
    }
  }

  /** The place of a tick in a plot, or null if it is not shown there. */
  placeOf({ axisOf }, tick) {
    const drawn = axisOf();
    const at = drawn && (tick - drawn.from) / drawn.ticks;
    return drawn && at >= drawn.axis.first && at <= drawn.axis.last ? drawn.axis.place(at) : null;
  }

  /** Shows a stretch of time, or all of it. */
  zoom(range) {
    const end = this.last + 1;
    const first = range && Math.max(0, Math.floor(range.first));
    const last = range && Math.min(end, Math.ceil(Math.max(range.last, first + LEAST_TICKS)));
    this.range = range && (first > 0 || last < end) && last > first ? { first, last } : null;
    this.changed();
  }

  press(entry, event) {
    const factor = ZOOMS.get(event.key);
    const drawn = entry.axisOf();
    if (isCommand(event) || !drawn) {
      return;
    }
    if (event.key === "0") {
      this.zoom(null);
    } else if (factor) {
      const { axis, from, ticks } = drawn;
      const { at, look } = entry.inspector;
      const middle = at === null ? (axis.first + axis.last) / 2
        : axis.tickAt((look.span(at)[0] + look.span(at)[1]) / 2);
      const half = ((axis.last - axis.first) / 2) * factor;
      this.zoom({ first: from + (middle - half) * ticks, last: from + (middle + half) * ticks });
    }
  }

  /** Takes a stretch between two places of a plot nearer. The click that ends it takes no start. */
  takeStretch(entry, places) {
    this.isBrushed = true;
    setTimeout(() => { this.isBrushed = false; });
    const [first, last] = places.map((place) => this.tickAt(entry, place));
    this.zoom({ first, last });
  }
}
