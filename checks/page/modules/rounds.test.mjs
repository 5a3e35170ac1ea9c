import assert from "node:assert/strict";
import { test } from "node:test";
import { roundPages } from "../../../web/engine/round-pages.js";
import { TURNS, WritesMap } from "../../../web/engine/writes-map.js";
import { roundsIn, roundsName, sumsOf } from "../../../web/model/round-words.js";
import { drawing, drawnTrace } from "./drawing.mjs";

const TRIES = 400;

/** A trace of few pages and writes, and settings of a plan. */
function tried(draw) {
  const { pageCount, touches } = drawnTrace(draw, 120, 400);
  const start = draw(200);
  const min = 1 + draw(400);
  return {
    pageCount, touches, start, base: draw(3) === 0 ? draw(start + 1) : null, skip: draw(2) === 0, min,
    max: min + draw(800), increment: draw(60), threshold: 1 + draw(6), rounds: 1 + draw(9),
  };
}

/** The plan as Rounds.antt defines it, page by page: what is written is looked for in all of the trace each time. */
function planned({ pageCount, touches, start, base, skip, min, max, increment, threshold, rounds: most }) {
  const all = Array.from({ length: pageCount }, (_, page) => page);
  const isWritten = (from, to, page) =>
    touches.some((touch) => touch.page === page && from <= touch.tick && touch.tick < to);
  const written = (from, to) => all.filter((page) => isWritten(from, to, page));
  const rounds = [];
  let [from, rate, pages] = [start, min, base === null ? all : written(base, start)];
  for (;;) {
    const turns = [];
    for (const page of pages) {
      const tick = from + Math.floor((1_000 * turns.filter(({ isSent }) => isSent).length) / rate);
      turns.push({ page, tick, isSent: !(skip && rounds.length > 0 && isWritten(from, tick, page)) });
    }
    const to = from + Math.ceil((1_000 * turns.filter(({ isSent }) => isSent).length) / rate);
    const dirtied = written(from, to);
    rounds.push({ from, to, rate, turns, dirtied });
    const next = to > from ? Math.ceil((1_000 * dirtied.length) / (to - from)) + increment : 0;
    if (dirtied.length < threshold || next > max || rounds.length === most) {
      const last = dirtied.map((page, place) => ({ page, tick: to + Math.floor((1_000 * place) / max), isSent: true }));
      const down = Math.ceil((1_000 * dirtied.length) / max);
      return { rounds, stop: to, down, last };
    }
    [from, rate, pages] = [to, Math.max(next, min), dirtied];
  }
}

function columnsOf(touches) {
  const [ticks, pages] = ["tick", "page"].map((name) => touches.map((touch) => touch[name]));
  return { ticks: Float64Array.from(ticks), pages: Uint32Array.from(pages) };
}

/** What is asked of a plan whose numbers of rounds are known: all that the page's worker is told. */
function askedOf({ start, base, skip, max }, { rounds, stop, down }) {
  const numbers = rounds.map(({ from, to, rate }) => ({ from, to, rate }));
  return { isClark: true, start, base, skip, max, stop, down, rounds: numbers };
}

test("the pages of rounds are those of the definition", () => {
  const draw = drawing(11);
  let [skipped, warm, several] = [0, 0, 0];
  for (let number = 0; number < TRIES; number += 1) {
    const some = tried(draw);
    const plan = planned(some);
    const found = [...roundPages(columnsOf(some.touches), some.pageCount, askedOf(some, plan))].map((round) => ({
      turns: Array.from(round.pages, (page, place) => ({ page, tick: round.turns.ticks[place],
        isSent: round.turns.isSent[place] === 1 })),
      dirtied: [...round.dirtied], end: round.end,
    }));
    const wanted = plan.rounds.map(({ turns, dirtied, to }) => ({ turns, dirtied, end: to }));
    wanted.push({ turns: plan.last, dirtied: [], end: plan.stop + plan.down });
    assert.deepEqual(found, wanted, JSON.stringify(some));
    skipped += plan.rounds.some(({ turns }) => turns.some(({ isSent }) => !isSent));
    warm += some.base !== null;
    several += plan.rounds.length > 2;
  }
  assert.ok(Math.min(skipped, warm, several) > TRIES / 20, `${skipped} that skip, ${warm} warm, ${several} of rounds`);
});

/** What a cell shows of the turns in it: sent only if no page comes again, and else the kind of more of those. */
function kindIn(turns) {
  const [again, skipped] = [TURNS.again, TURNS.skipped].map((kind) => turns.filter((turn) => turn === kind).length);
  if (again + skipped === 0) {
    return TURNS.sent;
  }
  return skipped > again ? TURNS.skipped : TURNS.again;
}

test("rows and cells of the map are the sums of pages", () => {
  const draw = drawing(12);
  for (let number = 0; number < TRIES; number += 1) {
    const some = tried(draw);
    const plan = planned(some);
    const fromPage = draw(3) === 0 ? draw(some.pageCount) : 0;
    const endPage = fromPage + 1 + draw(some.pageCount - fromPage);
    const grid = { first: draw(50), columns: 1 + draw(60), rows: 1 + draw(endPage - fromPage), fromPage, endPage };
    grid.last = grid.first + grid.columns + draw(400);
    const isIn = (page) => fromPage <= page && page < endPage;
    const rowOf = (page) => (isIn(page) ? Math.floor(((page - fromPage) * grid.rows) / (endPage - fromPage)) : -1);
    const columnOf = (tick) => Math.floor(((tick - grid.first) * grid.columns) / (grid.last - grid.first));
    const map = new WritesMap(columnsOf(some.touches), some.pageCount);
    const found = map.rounds({ grid, plan: askedOf(some, plan) });
    const cells = new Uint8Array(grid.columns * grid.rows);
    [...plan.rounds, { turns: plan.last, dirtied: [], to: plan.stop + plan.down }].forEach((round, at) => {
      const inCells = new Map();
      round.turns.forEach(({ page, tick, isSent }, place) => {
        const kind = !isSent ? TURNS.skipped : round.dirtied.includes(page) ? TURNS.again : TURNS.sent;
        const end = place + 1 < round.turns.length ? round.turns[place + 1].tick : round.to;
        for (let column = columnOf(tick); column < Math.max(columnOf(tick) + 1, columnOf(end)); column += 1) {
          if (column >= 0 && column < grid.columns && isIn(page)) {
            const cell = rowOf(page) * grid.columns + column;
            inCells.set(cell, [...(inCells.get(cell) ?? []), kind]);
          }
        }
      });
      inCells.forEach((kinds, cell) => { cells[cell] = kindIn(kinds); });
      for (let row = 0; row < grid.rows; row += 1) {
        const turns = round.turns.filter(({ page }) => rowOf(page) === row);
        const sent = turns.filter(({ isSent }) => isSent);
        const sums = sumsOf(found, grid.rows, [at, at + 1], [row, row + 1]);
        assert.deepEqual(sums, {
          pages: turns.length, sent: sent.length, skipped: turns.length - sent.length,
          again: sent.filter(({ page }) => round.dirtied.includes(page)).length,
          dirtied: round.dirtied.filter((page) => rowOf(page) === row).length,
          firstTurn: Math.min(Infinity, ...turns.map(({ tick }) => tick)),
          lastTurn: Math.max(-Infinity, ...turns.map(({ tick }) => tick)),
        }, JSON.stringify({ some, grid, at, row }));
      }
    });
    assert.deepEqual(found.cells, cells, JSON.stringify({ some, grid }));
    const { cells: writes, totals } = map.count(grid);
    const isSeen = ({ tick, page }) => tick >= grid.first && tick < grid.last && isIn(page);
    some.touches.filter(isSeen).forEach(({ tick, page }) => {
      writes[rowOf(page) * grid.columns + columnOf(tick)] -= 1;
      totals[rowOf(page)] -= 1;
    });
    assert.ok([...writes, ...totals].every((count) => count === 0), JSON.stringify({ some, grid }));
  }
});

test("rounds in a stretch of time are named", () => {
  const rounds = [{ from: 10, to: 20 }, { from: 20, to: 24 }, { from: 24, to: 24 }];
  const plan = { isClark: true, isStopped: true, rounds, stop: 24, down: 2 };
  const named = [[0, 10], [0, 11], [19, 20], [19, 21], [20, 24], [20, 25], [24, 25], [25, 26], [26, 30]];
  assert.deepEqual(named.map(([from, to]) => {
    const range = roundsIn(plan, from, to);
    return range[1] === 0 ? "" : roundsName(plan, range);
  }), ["", "round 0", "round 0", "rounds 0 to 1", "round 1", "rounds 1 to 2 and the stop", "round 2 and the stop",
    "the stop", ""]);
});
