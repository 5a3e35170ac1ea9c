// The pages of a trace over time, counted into a grid: across the ticks [first, last), and down the pages [fromPage,
// endPage). How often they are written, and what the rounds of a plan, or its lists, do with them.

import { lookPages } from "./look-lists.js";
import { roundPages } from "./round-pages.js";
import { firstPlace } from "../model/search.js";

/** What happens to a page at its turn: it is sent; it is sent, and dirtied in the same round; it is skipped. */
export const TURNS = { sent: 1, again: 2, skipped: 3 };

/** The row of a page that is in no row. */
const NO_ROW = 65_535;

/** The column of a grid that a tick lies in. */
function columnOf({ first, last, columns }, tick) {
  return Math.floor(((tick - first) * columns) / (last - first));
}

/**
 * The turns of pages in a grid. Of those of a round in a cell those are told that come again, as they are dirtied or
 * skipped, and of these two whichever are more. A later round hides an earlier one.
 */
class TurnCells {
  constructor(grid) {
    this.grid = grid;
    this.cells = new Uint8Array(grid.columns * grid.rows);
  }

  /** Begins to count the turns of a round in a cell; with null in whichever comes first. */
  begin(cell) {
    this.cell = cell;
    [this.again, this.skipped] = [0, 0];
  }

  /** Adds the turn of a page of some row, from a tick on up to another. Those of a cell follow one another. */
  add(row, kind, from, to) {
    const { columns } = this.grid;
    const begin = columnOf(this.grid, from);
    const end = Math.min(columns, Math.max(begin + 1, columnOf(this.grid, to)));
    for (let column = Math.max(0, begin); column < end; column += 1) {
      const cell = row * columns + column;
      if (cell !== this.cell) {
        this.begin(cell);
      }
      this.again += kind === TURNS.again ? 1 : 0;
      this.skipped += kind === TURNS.skipped ? 1 : 0;
      this.cells[cell] = this.skipped > this.again ? TURNS.skipped : this.again > 0 ? TURNS.again : TURNS.sent;
    }
  }
}

/**
 * What rounds do with the pages of each row of a grid: how many a round has, how many it sends, how many of these are
 * dirtied meanwhile, and how many are dirtied at all; and the ticks of the first turn and of the last.
 */
class RoundRows {
  constructor(grid, rowOf, count) {
    const length = count * grid.rows;
    this.rows = grid.rows;
    this.rowOf = rowOf;
    this.turns = new TurnCells(grid);
    this.found = {
      pages: new Uint32Array(length), sent: new Uint32Array(length), again: new Uint32Array(length),
      dirtied: new Uint32Array(length), firstTurn: new Float64Array(length).fill(Infinity),
      lastTurn: new Float64Array(length).fill(-Infinity),
    };
  }

  add(number, { pages, turns: { ticks, isSent }, end, dirtied, isDirtied }) {
    const { found, rowOf } = this;
    const base = number * this.rows;
    this.turns.begin(null);
    for (let place = 0; place < pages.length; place += 1) {
      const page = pages[place];
      if (rowOf[page] === NO_ROW) {
        continue;
      }
      const at = base + rowOf[page];
      found.pages[at] += 1;
      // What is left of a list has no turn.
      if (place < ticks.length) {
        const stretch = [ticks[place], place + 1 < ticks.length ? ticks[place + 1] : end];
        this.addTurn(at, rowOf[page], isSent[place], isDirtied[page], stretch);
      }
    }
    for (const page of dirtied) {
      if (rowOf[page] !== NO_ROW) {
        found.dirtied[base + rowOf[page]] += 1;
      }
    }
  }

  /** Adds the turn of a page of some row, from a tick up to another, to what is found of the row in a round. */
  addTurn(at, row, isSent, isDirtied, [from, to]) {
    const { found } = this;
    const kind = isSent === 0 ? TURNS.skipped : isDirtied === 0 ? TURNS.sent : TURNS.again;
    found.firstTurn[at] = Math.min(found.firstTurn[at], from);
    found.lastTurn[at] = from;
    found.sent[at] += isSent;
    found.again[at] += kind === TURNS.again ? 1 : 0;
    this.turns.add(row, kind, from, to);
  }
}

export class WritesMap {
  /** The ticks and pages of a trace's writes, which come in the order of their ticks. */
  constructor({ ticks, pages }, pageCount) {
    this.ticks = ticks;
    this.pages = pages;
    this.pageCount = pageCount;
  }

  /** The row of each page. */
  rowsOf({ rows, fromPage, endPage }) {
    const rowOf = new Uint16Array(this.pageCount).fill(NO_ROW);
    for (let page = fromPage; page < endPage; page += 1) {
      rowOf[page] = Math.floor(((page - fromPage) * rows) / (endPage - fromPage));
    }
    return rowOf;
  }

  /** The writes by column and row, and of each row. */
  count(grid) {
    const { ticks, pages } = this;
    const cells = new Uint32Array(grid.columns * grid.rows);
    const totals = new Uint32Array(grid.rows);
    const rowOf = this.rowsOf(grid);
    const end = firstPlace(ticks.length, (place) => ticks[place] >= grid.last);
    for (let place = firstPlace(ticks.length, (at) => ticks[at] >= grid.first); place < end; place += 1) {
      const row = rowOf[pages[place]];
      if (row !== NO_ROW) {
        cells[row * grid.columns + columnOf(grid, ticks[place])] += 1;
        totals[row] += 1;
      }
    }
    return { cells, totals };
  }

  /**
   * What the rounds of a plan, or its lists, and last the copy after its stop, do with pages, by row; and their turns
   * by cell.
   */
  rounds({ grid, plan }) {
    const rows = new RoundRows(grid, this.rowsOf(grid), plan.rounds.length + 1);
    const each = plan.isClark ? roundPages : lookPages;
    let number = 0;
    for (const round of each(this, this.pageCount, plan)) {
      rows.add(number, round);
      number += 1;
    }
    return { ...rows.found, cells: rows.turns.cells };
  }
}
