// The map of pages over time: which pages are written when, and how often, and over it what the rounds of the plan do
// with them. The worker counts; the pictures are canvases with an axis, and marks of rounds are drawn over them.

import { area, areas, byId, html, isCommand, keepFocus, label, svg } from "./elements.js";
import { saveButtons } from "./exports.js";
import { heatSteps, heatWords } from "../model/heat.js";
import { Inspector } from "./inspector.js";
import { paintTurns, paintWrites } from "./map-canvas.js";
import { counted, countOf, momentText, SIZE_UNITS } from "../model/numbers.js";
import { AXIS_HEIGHT, axisLabels, axisOf, pictureOf, widthOf } from "./plot.js";
import { nounsOf } from "../model/nouns.js";
import { briefCount } from "../model/quantities.js";
import { pagesWords, roundsIn, sumsOf, sumsWords } from "../model/round-words.js";
import { mapFile, mapTable } from "./tables.js";
import { amountOf, microsOf, scaleOf } from "../model/units.js";

const MAP_TOP = 26;
const MAP_HEIGHT = 256;
const MAP_LEFT = 68;

/** The room at the right for the rows that are written most. */
const HOT_ROOM = 74;
const HOT_WIDTH = 56;

/** The most rows and columns of the grid, and the least pixels of a column. */
const MOST_GRID_ROWS = 256;
const PIXELS_OF_COLUMN = 2;

/**
 * The rounds of a plan are counted once no other has come for so many times as long as that took, and at most so many
 * milliseconds: no plan waits for the rounds of those before it.
 */
const REST = 4;
const MOST_REST = 100;

/** By how many rows a key moves, and how many pages it shows beside those that are shown. */
const ROW_KEYS = new Map([["ArrowUp", -1], ["ArrowDown", 1]]);
const PAGE_ZOOMS = new Map([["*", 1 / 2], ["/", 2]]);

/** How wide a round or a list is at least whose begin is marked, in pixels: marks of others would hide the turns. */
const MARK_ROOM = 8;

/** How many rows some pages have. */
function rowsOfGrid({ fromPage, endPage }) {
  return Math.min(endPage - fromPage, MOST_GRID_ROWS);
}

export class MapView {
  constructor(times) {
    this.plot = byId("map-plot");
    this.canvas = html("canvas", { class: "map", "aria-hidden": "true" });
    this.turns = html("canvas", { class: "map turns", "aria-hidden": "true" });
    this.row = null;
    /** The pages that are shown; null if all are. */
    this.range = null;
    this.held = null;
    this.rounds = null;
    this.isAsking = false;
    this.length = 1;
    [this.restUntil, this.took] = [0, 0];
    ["pointermove", "click"].forEach((kind) => this.plot.addEventListener(kind, (event) => this.point(event)));
    this.plot.addEventListener("pointerleave", () => { this.row = null; });
    this.plot.addEventListener("keydown", (event) => this.press(event));
    this.inspector = new Inspector(this.plot, byId("map-readout"), "Pages over time");
    times.add(this.plot, this.inspector, () => this.held && { axis: this.held.axis, from: 0, ticks: 1 },
      (places) => this.takeRows(places));
    byId("all-pages").addEventListener("click", () => this.showPages(null));
    matchMedia("(prefers-color-scheme: dark)").addEventListener("change", () => this.held && this.draw());
    byId("map-details").addEventListener("toggle", () => this.fill());
    byId("map-actions").append(saveButtons("map", "the pages over time", {
      picture: () => this.picture(), table: () => this.areRoundsDrawn() && mapFile(this.rounds, this.rowPages()),
    }));
  }

  /** Learns what is shown: a trace and a stretch of it, the length of windows, and a prediction, if there is one. */
  follow(trace, { first, last }, { settings, prediction, length }) {
    if (prediction !== this.wanted?.prediction) {
      this.restUntil = performance.now() + Math.min(MOST_REST, REST * this.took);
    }
    this.range = trace === this.wanted?.trace ? this.range : null;
    this.length = length;
    const width = widthOf(this.plot);
    const scale = { tick: settings.tick.amount, isSample: scaleOf(settings, trace.sizes).isSample };
    this.wanted = { trace, first, last, ...this.pagesOf(trace), width, ...scale, settings, prediction };
    if (this.held?.trace === trace && this.held.width !== width) {
      this.fit(width);
    }
    this.ask();
  }

  /** Counts nothing more of a trace, if no planner does: what is drawn of it stays, and what is of another goes. */
  stop(trace) {
    this.wanted = null;
    if (this.held?.trace !== trace) {
      this.held = null;
      ["map-plot", "map-legend", "map-most"].forEach((id) => byId(id).replaceChildren());
      this.inspector.hold(null);
      byId("map-details").hidden = true;
    }
    this.fit(widthOf(this.plot));
  }

  /** The pages of a trace that are shown. */
  pagesOf({ sizes: { pages } }) {
    return this.range ?? { fromPage: 0, endPage: pages };
  }

  /** Shows other pages: those in a range, or with null all. */
  showPages(range) {
    if (this.wanted) {
      const { trace } = this.wanted;
      const { pages } = trace.sizes;
      const fromPage = range && Math.max(0, Math.min(range.fromPage, pages - 1));
      const endPage = range && Math.min(pages, Math.max(range.endPage, fromPage + 1));
      this.range = range && (fromPage > 0 || endPage < pages) ? { fromPage, endPage } : null;
      this.row = null;
      this.wanted = { ...this.wanted, ...this.pagesOf(trace) };
      this.ask();
    }
  }

  /** Takes the rows between two places nearer. */
  takeRows(places) {
    const pages = this.rowPages();
    const rowAt = (y) => Math.min(1, Math.max(0, (y - MAP_TOP) / MAP_HEIGHT)) * this.held.grid.rows;
    const [from, end] = [Math.floor(rowAt(places[0])), Math.ceil(rowAt(places[1]))];
    // Above the map and below it there are none.
    if (from < end) {
      this.showPages({ fromPage: pages[from], endPage: pages[end] });
    }
  }

  /** Takes pages nearer, or further, round those that are looked at. */
  zoomPages(factor) {
    const { trace, grid: { fromPage, endPage, rows } } = this.held;
    const count = (endPage - fromPage) * factor;
    const middle = fromPage + (((this.row ?? rows / 2) + 0.5) * (endPage - fromPage)) / rows;
    const first = Math.max(0, Math.round(middle - count / 2));
    this.showPages({ fromPage: first, endPage: first + Math.ceil(count) });
    const shown = this.pagesOf(trace);
    const share = (middle - shown.fromPage) / (shown.endPage - shown.fromPage);
    this.row = Math.floor(share * rowsOfGrid(shown));
  }

  /** Has the writes counted that are wanted, and the rounds, if others were counted last, and draws them. */
  async ask() {
    if (this.isAsking) {
      return;
    }
    this.isAsking = true;
    byId("map").setAttribute("aria-busy", "true");
    try {
      while (this.wanted && !(this.isHeld() && this.areRoundsHeld())) {
        await this.askOnce(this.restUntil - performance.now());
      }
    } finally {
      this.isAsking = false;
      byId("map").setAttribute("aria-busy", "false");
    }
  }

  async askOnce(rest) {
    if (!this.isHeld()) {
      await this.count(this.wanted);
    } else if (rest > 0) {
      await new Promise((resume) => setTimeout(resume, rest));
    } else {
      const begun = performance.now();
      await this.countRounds(this.wanted);
      this.took = performance.now() - begun;
    }
  }

  isHeld() {
    const { held, wanted } = this;
    const names = ["trace", "first", "last", "width", "fromPage", "endPage", "tick", "isSample"];
    return held !== null && !held.isStretched && names.every((name) => held[name] === wanted[name]);
  }

  areRoundsHeld() {
    return this.rounds?.held === this.held && this.rounds.prediction === this.wanted.prediction;
  }

  async count(wanted) {
    const { trace, first, last, width, fromPage, endPage } = wanted;
    const axis = axisOf(width - HOT_ROOM, first, last);
    const columns = Math.max(1, Math.floor(axis.room / PIXELS_OF_COLUMN));
    const grid = {
      first, last: axis.last, columns: Math.min(axis.last - first, columns), fromPage, endPage,
      rows: rowsOfGrid({ fromPage, endPage }),
    };
    const found = await trace.map(grid).catch(() => null);
    if (trace !== this.wanted?.trace) {
      return;
    }
    if (found === null) {
      this.stop(trace);
      return;
    }
    this.held = { ...wanted, axis, grid, turnGrid: { ...grid, columns }, ...found };
    keepFocus(() => { byId("all-pages").disabled = this.range === null; }, () => this.plot);
    this.draw();
  }

  /** Has the pages of the rounds counted: without a prediction there are none. */
  async countRounds({ trace, prediction }) {
    const { held } = this;
    const { settings: { start, base, skip, max }, plan } = prediction ?? { settings: {} };
    const found = prediction ? await trace.rounds(held.turnGrid, { start, base, skip, max, ...plan }).catch(() => null)
      : null;
    if (trace === this.wanted?.trace && held === this.held) {
      this.rounds = { held, prediction, found };
      this.drawRounds();
    }
  }

  /** Draws what was counted last in another width: at once, and of a planner that has ended for good. */
  fit(width) {
    if (this.held) {
      const { first, last } = this.held;
      const axis = axisOf(width - HOT_ROOM, first, last);
      const held = { ...this.held, width, axis, isStretched: true };
      this.rounds = this.rounds?.held === this.held ? { ...this.rounds, held } : this.rounds;
      this.held = held;
      this.draw();
    }
  }

  /** Draws the counts: the canvases, and over them the axes, the rows that are written most, and room for marks. */
  draw() {
    const { axis, cells, grid, width, settings, isSample } = this.held;
    this.row = this.row < grid.rows ? this.row : null;
    const most = cells.reduce((greatest, count) => Math.max(greatest, count), 0);
    const steps = heatSteps(most);
    this.marks = svg("g");
    this.images = [0, 1].map(() => svg("image", { x: MAP_LEFT, y: MAP_TOP, width: axis.room, height: MAP_HEIGHT,
      preserveAspectRatio: "none", "image-rendering": "pixelated" }));
    const parts = [
      ...this.scaleParts(isSample ? "Where in the sample" : "Where in memory"),
      label("title", axis.width + 6, MAP_TOP - 9, "writes"), ...this.images, this.hotParts(), this.marks,
      ...axisLabels(axis, settings.tick.amount || 1, MAP_TOP + MAP_HEIGHT, "time in the trace"),
    ];
    [this.canvas, this.turns].forEach((canvas) => canvas.style.setProperty("width", `${axis.room}px`));
    const picture = pictureOf(width, MAP_TOP + MAP_HEIGHT + AXIS_HEIGHT, parts);
    paintWrites(this.canvas, this.held, steps);
    this.heat = { steps, most };
    this.drawRounds();
    this.plot.replaceChildren(this.canvas, this.turns, picture);
    this.inspector.hold(this.look(settings));
  }

  /** The plan whose rounds or lists are shown, or are to be. */
  plan() {
    return this.wanted?.prediction?.plan ?? this.rounds?.prediction?.plan ?? { isClark: false };
  }

  tellLegend() {
    const { steps, most } = this.heat;
    const { many, begins } = nounsOf(this.plan());
    const item = (name, words) => html("li", {}, html("i", { class: `key ${name}` }), words);
    byId("map-legend").replaceChildren(html("li", {}, steps.length > 0 ? "writes:" : "no writes;"),
      ...heatWords(steps, most).map((words, step) => item(`heat-${step + 1}`, words)),
      html("li", {}, `${many}:`), item("turn sent", "sent"), item("turn dirtied", "sent, but dirtied"),
      ...(this.plan().isClark ? [item("turn skipped", "skipped")] : []), item("edge", begins), item("stop", "stop"));
    byId("map-summary").textContent = `Table of ${many} by pages`;
    const { totals } = this.held;
    byId("map-most").textContent = this.mostWords(totals.indexOf(Math.max(...totals)));
  }

  /** The axis of pages, in bytes: the unit that it has, and so many digits that its labels differ. */
  scaleParts(title) {
    const { axis, fromPage, endPage, trace: { sizes: { pageBytes } } } = this.held;
    const [, unit, size] = briefCount(BigInt(endPage * pageBytes), SIZE_UNITS);
    const step = ((endPage - fromPage) * pageBytes) / 4;
    const digits = unit === "bytes" ? 0 : Math.max(0, Math.ceil(-Math.log10(step / Number(size))) + 1);
    const parts = [0, 1, 2, 3, 4].flatMap((quarter) => {
      const y = MAP_TOP + (quarter * MAP_HEIGHT) / 4;
      const words = ((fromPage * pageBytes + quarter * step) / Number(size)).toFixed(digits);
      const isEdge = quarter % 4 === 0;
      return [
        area("line", isEdge ? MAP_LEFT : MAP_LEFT - 4, quarter === 0 ? y - 1 : y, isEdge ? axis.room : 4, 1),
        label("end", MAP_LEFT - 6, quarter === 0 ? y + 10 : quarter === 4 ? y : y + 4.5, words),
      ];
    });
    return [label("title", MAP_LEFT, MAP_TOP - 9, `${title}, ${unit}`), ...parts];
  }

  /** The rows by their writes, beside the map. */
  hotParts() {
    const { axis, grid: { rows }, totals } = this.held;
    const hottest = Math.max(1, ...totals);
    const height = MAP_HEIGHT / rows;
    const boxOf = (count, row) => [axis.width + 6, MAP_TOP + row * height, (count / hottest) * HOT_WIDTH,
      Math.max(1, height)];
    return areas("hot", Array.from(totals, boxOf).filter(([, , wide]) => wide > 0));
  }

  /** The first page of each row, and the end of all. */
  rowPages() {
    const { grid: { rows }, fromPage, endPage } = this.held;
    return Array.from({ length: rows + 1 }, (_, row) => fromPage + Math.ceil((row * (endPage - fromPage)) / rows));
  }

  /** Which pages a row of the grid has, in words. */
  rowWords(row) {
    const [from, to] = this.rowPages().slice(row, row + 2);
    return pagesWords(from, to);
  }

  /** What is written most of what is shown, in words, and what a row is. */
  mostWords(row) {
    const { totals, fromPage, endPage } = this.held;
    const all = totals.reduce((sum, count) => sum + count, 0);
    const inRow = Math.ceil((endPage - fromPage) / totals.length);
    const kinds = this.plan().isClark ? "dirtied or skipped" : "dirtied";
    const many = inRow === 1 ? "" : ` A row has up to ${countOf(inRow, "page")}: it is ${kinds} if one is.`;
    const densest = `${this.rowWords(row)}: ${counted(totals[row])}`;
    if (all < 2) {
      return all === 0 ? "No page is written in this stretch of time."
        : `The write that is shown goes to ${this.rowWords(row)}.${many}`;
    }
    return `The ${countOf(all, "write")} that are shown are densest in ${densest}.${many}`;
  }

  /** Whether the rounds that were counted last are those of what is drawn. */
  areRoundsDrawn() {
    return Boolean(this.rounds?.found) && this.rounds.held === this.held;
  }

  /** Draws the turns of pages, where the rounds begin, and the stop; and fills the table. */
  drawRounds() {
    const { axis, turnGrid } = this.held;
    const isDrawn = this.areRoundsDrawn();
    // What was painted for a file would lie over other turns.
    this.images.forEach((image) => image.removeAttribute("href"));
    const cells = isDrawn ? this.rounds.found.cells : new Uint8Array(turnGrid.columns * turnGrid.rows);
    paintTurns(this.turns, turnGrid, cells, { width: axis.room, height: MAP_HEIGHT });
    this.tellLegend();
    const plan = this.rounds?.held.trace === this.held.trace ? this.rounds.prediction?.plan : null;
    const isIn = (tick) => tick >= axis.first && tick <= axis.last;
    const boxOf = (tick, left, wide) => [axis.place(tick) - left, MAP_TOP, wide, MAP_HEIGHT];
    const marked = (name, ticks, wide) => [areas("halo", ticks.map((tick) => boxOf(tick, 1.5, 3))),
      areas(name, ticks.map((tick) => boxOf(tick, 0.5, wide)))];
    const isWide = ({ from, to }, place) => place === 0 || axis.place(to) - axis.place(from) >= MARK_ROOM;
    const edges = (plan?.rounds ?? []).filter(isWide).map(({ from }) => from).filter(isIn);
    const stops = plan?.isStopped && isIn(plan.stop) ? [plan.stop] : [];
    this.marks.replaceChildren(...marked("edge", edges, 1), ...marked("stop", stops, 2));
    byId("map-details").hidden = !this.rounds?.found;
    this.fill();
  }

  /** Fills the table of what the rounds do, if it is open. */
  fill() {
    if (byId("map-details").open && this.areRoundsDrawn()) {
      byId("map-table").replaceChildren(mapTable(this.rounds, this.rowPages()));
    }
  }

  /** Keys go through the rows, above the first of which are all, and take pages nearer. */
  press(event) {
    const [step, factor] = [ROW_KEYS.get(event.key), PAGE_ZOOMS.get(event.key)];
    if ((!step && !factor) || isCommand(event) || !this.held) {
      return;
    }
    event.preventDefault();
    event.stopImmediatePropagation();
    if (factor) {
      this.zoomPages(factor);
    } else {
      const row = Math.min((this.row ?? -1) + step, this.held.grid.rows - 1);
      this.row = row < 0 ? null : row;
      this.inspector.show(this.inspector.at ?? 0);
    }
  }

  point(event) {
    const { top } = this.plot.getBoundingClientRect();
    const share = (event.clientY - top - MAP_TOP) / MAP_HEIGHT;
    this.row = this.held && share >= 0 && share < 1 ? Math.floor(share * this.held.grid.rows) : null;
  }

  /** What rounds do in the ticks [from, to) with the pages of the row that is looked at, in words. */
  roundsWords(from, to, moment) {
    if (!this.areRoundsDrawn()) {
      return "";
    }
    const { found, prediction: { plan }, held: { grid: { rows } } } = this.rounds;
    const range = roundsIn(plan, from, to);
    const sums = sumsOf(found, rows, range, this.row === null ? [0, rows] : [this.row, this.row + 1]);
    return range[1] === 0 ? "" : `; ${sumsWords(plan, range, sums, moment)}`;
  }

  look(settings) {
    const { axis, grid: { first, last, columns, rows }, cells } = this.held;
    const moment = (tick) => momentText(microsOf({ tick: amountOf(settings.tick) }, tick));
    const tickOf = (column) => first + Math.ceil((column * (last - first)) / columns);
    const sum = (column) => Array.from({ length: rows }, (_, row) => cells[row * columns + column])
      .reduce((all, count) => all + count, 0);
    const words = (from, to, column) => {
      const windows = [from, to - 1].map((tick) => Math.floor(tick / this.length));
      const names = windows[0] === windows[1] ? `Window ${windows[0]}` : `Windows ${windows[0]} to ${windows[1]}`;
      const whose = this.row === null ? "all pages" : this.rowWords(this.row);
      return `${names}, ${moment(from)} to ${moment(to)}, ${whose}: `
        + countOf(this.row === null ? sum(column) : cells[this.row * columns + column], "write")
        + this.roundsWords(from, to, moment);
    };
    return {
      count: columns, panels: [{ top: MAP_TOP, height: MAP_HEIGHT }],
      find: (place) => Math.min(columns - 1, Math.max(0, Math.floor(((place - MAP_LEFT) / axis.room) * columns))),
      words: (column) => words(tickOf(column), tickOf(column + 1), column),
      span: (column) => [MAP_LEFT + (column * axis.room) / columns, MAP_LEFT + ((column + 1) * axis.room) / columns],
      beside: () => this.rowParts(),
    };
  }

  /** The mark of the row that is looked at. */
  rowParts() {
    const { axis, grid: { rows } } = this.held;
    const height = MAP_HEIGHT / rows;
    return this.row === null ? [] : [area("looked", MAP_LEFT, MAP_TOP + this.row * height, axis.room, height)];
  }

  /** The picture with the counts in it, for a file of its own. */
  picture() {
    this.images?.forEach((image, place) => image.setAttribute("href", [this.canvas, this.turns][place].toDataURL()));
    return this.plot.querySelector("svg");
  }
}
