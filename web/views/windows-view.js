// The section of the working set: its picture, in which a stretch of time can be taken nearer, and its table.

import { byId, keepFocus, svg } from "./elements.js";
import { saveButtons } from "./exports.js";
import { Inspector } from "./inspector.js";
import { momentText } from "../model/numbers.js";
import { endOf } from "../model/predictions.js";
import { Refusal } from "../engine/planner.js";
import { nextTask } from "../engine/slices.js";
import { widthOf } from "./plot.js";
import { windowsFile, windowsTable } from "./tables.js";
import { amountOf, microsOf, scaleOf } from "../model/units.js";
import { drawnAt, planMarks, traceAxis, windowParts, windowsPicture, windowWords } from "./windows-chart.js";

/** Settings in range, for a call that uses only the length of a window. */
const PLAIN = { min: 1, max: 1, increment: 0, threshold: 1, rounds: 1, start: 0, base: null, skip: false };

export class WindowsView {
  /** `choose` takes a start, and `times` has the stretch of time that is shown. */
  constructor(choose, times) {
    this.times = times;
    this.plot = byId("windows-plot");
    this.details = byId("windows-details");
    this.inspector = new Inspector(this.plot, byId("windows-readout"), "Windows", byId("windows-take"));
    this.choose = choose;
    this.counted = {};
    this.bars = {};
    this.held = {};
    this.filled = {};
    this.axis = null;
    this.details.addEventListener("toggle", () => this.fill());
    byId("zoom-out").after(saveButtons("working-set", "the working set", {
      picture: () => this.plot.querySelector("svg"),
      table: () => this.counted.windows && this.file(),
    }));
    byId("zoom-out").addEventListener("click", () => this.times.zoom(null));
    byId("zoom-plan").addEventListener("click", () => this.zoomToPlan());
    times.add(this.plot, this.inspector, () => this.axis && { axis: this.axis, from: 0, ticks: 1 });
  }

  /**
   * Counts the windows of a trace, if the trace or their length is another one. Their bars are made in a task of their
   * own, so that none takes long.
   */
  async count(trace, settings) {
    const { window: length } = settings;
    const { isSample } = scaleOf(settings, trace.sizes);
    if (this.counted.trace !== trace || this.counted.length !== length) {
      const counted = await this.countedBy(trace, length);
      await nextTask();
      this.barsOf(counted, settings, isSample);
      await nextTask();
      this.counted = counted;
    }
    this.isSample = isSample;
  }

  /**
   * The windows of a trace by their length. If that is refused, those that are shown of the trace stay; if none are,
   * the whole trace is one window.
   */
  async countedBy(trace, length) {
    try {
      return { trace, length, windows: await trace.windows({ ...PLAIN, window: length }) };
    } catch (error) {
      this.forget(trace);
      if (!(error instanceof Refusal) || this.counted.trace === trace) {
        throw error;
      }
      const whole = trace.sizes.last + 1;
      return { trace, length: whole, windows: await trace.windows({ ...PLAIN, window: whole }) };
    }
  }

  /** Forgets the windows of another trace than this one, of which none could be counted. */
  forget(trace) {
    if (this.counted.trace !== trace) {
      [this.counted, this.held, this.axis] = [{}, {}, null];
      ["windows-plot", "windows-table"].forEach((id) => byId(id).replaceChildren());
      this.inspector.hold(null);
      byId("zoom-plan").disabled = true;
    }
  }

  /** The bars of windows, made again only if something of them has changed. */
  barsOf({ trace, windows, length }, settings, isSample) {
    const width = widthOf(this.plot);
    const tick = settings.tick.amount || 1;
    const key = JSON.stringify([width, tick, this.times.range, isSample]);
    if (this.bars.windows !== windows || this.bars.key !== key) {
      const axis = traceAxis(width, trace.sizes, length, this.times.range);
      this.bars = { windows, key, width, tick, axis, ...windowParts(axis, windows, length, { tick, isSample }) };
    }
    return this.bars;
  }

  /** The picture, drawn again only if its bars are others; the marks in it are of a prediction. */
  partsOf(settings) {
    const bars = this.barsOf(this.counted, settings, this.isSample);
    if (this.held.bars !== bars) {
      this.held = { bars, marks: svg("g") };
      this.plot.replaceChildren(windowsPicture(bars.width, [...bars.parts, this.held.marks, ...bars.above]));
      this.inspector.hold(this.lookAt(bars, settings));
    }
    return { ...bars, marks: this.held.marks };
  }

  /** Draws the windows that were counted, and on them a prediction if there is one. The table is filled apart. */
  draw(settings, prediction) {
    if (!this.counted.windows) {
      return;
    }
    this.prediction = prediction;
    const { axis, panel, marks } = this.partsOf(settings);
    marks.replaceChildren(...(prediction ? planMarks(axis, panel, prediction.settings, prediction.plan) : []));
    keepFocus(() => { byId("zoom-out").disabled = this.times.range === null; }, () => this.plot);
    byId("zoom-plan").disabled = !prediction;
    byId("base-key").hidden = settings.base === null;
    this.axis = axis;
  }

  lookAt({ axis, panel, drawn, windows }, settings) {
    const { length } = this.counted;
    const scale = { tick: amountOf(settings.tick), isSample: this.isSample };
    const tickOf = (at) => Math.max(axis.first, windows.number[drawn[at].row] * length);
    return {
      count: drawn.length, panels: [panel],
      find: (place) => drawnAt(drawn, place),
      words: (at) => windowWords(windows, drawn[at].row, length, scale),
      span: (at) => [drawn[at].left, drawn[at].right],
      choose: (at, place) => this.times.isBrushed || this.choose(place === undefined ? tickOf(at) : axis.tickAt(place)),
      offer: (at) => `Start at ${momentText(microsOf(scale, tickOf(at)))}`,
      none: "The trace writes no page in this stretch of time.",
    };
  }

  /** Shows the migration, with half of its length on both sides. */
  zoomToPlan() {
    const { settings, plan } = this.prediction;
    const end = endOf(plan);
    const room = Math.max(1, (end - settings.start) / 2);
    this.times.zoom({ first: settings.start - room, last: end + room });
  }

  /** The windows as a file, with times by the tick that is drawn. */
  file() {
    const { windows, length } = this.counted;
    return windowsFile(windows, length, { tick: BigInt(this.held.bars.tick) });
  }

  /** Whether the table is open, and has to say something else. */
  isToFill() {
    const { counted: { windows }, held: { bars }, filled, isSample } = this;
    const tick = bars?.tick;
    const isOther = filled.windows !== windows || filled.tick !== tick || filled.isSample !== isSample;
    return this.details.open && Boolean(windows) && isOther;
  }

  /** Fills it in a task of its own, so that none takes long. */
  async fillApart() {
    if (this.isToFill()) {
      await nextTask();
      this.fill();
    }
  }

  /** Fills the table, if it has to say something else. */
  fill() {
    if (this.isToFill()) {
      const { counted: { windows, length }, held: { bars: { tick } }, isSample } = this;
      this.filled = { windows, tick, isSample };
      byId("windows-table").replaceChildren(windowsTable(windows, length, { tick: BigInt(tick), isSample }));
    }
  }
}
