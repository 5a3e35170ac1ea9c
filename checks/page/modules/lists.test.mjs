import assert from "node:assert/strict";
import { test } from "node:test";
import { comeTo, lookPages, lookRows, lookSettings } from "../../../web/engine/look-lists.js";
import { WritesMap } from "../../../web/engine/writes-map.js";
import { roundsIn, roundsName, sumsOf, sumsWords } from "../../../web/model/round-words.js";
import { drawing, drawnTrace } from "./drawing.mjs";

const TRIES = 400;

/** A trace of few pages and writes, and settings of a hypervisor. */
function tried(draw) {
  const { pageCount, touches } = drawnTrace(draw, 150, 500);
  const start = draw(200);
  const base = draw(3) === 0 ? draw(start + 1) : null;
  const end = Math.max(start, touches.at(-1)?.tick ?? 0);
  return { pageCount, touches, start, base, max: 1 + draw(900), threshold: 1 + draw(6), window: draw(40), end };
}

/**
 * The plan as Looks.antt defines it, tick by tick and page by page: whether few pages are left when it is asked is
 * tested at each tick, and what is written is looked for in all of the trace.
 */
function planned({ pageCount, touches, start, base, max, threshold, window, end }) {
  const all = Array.from({ length: pageCount }, (_, page) => page);
  const isWritten = (from, to, page) =>
    touches.some((touch) => touch.page === page && from <= touch.tick && touch.tick < to);
  const lists = [];
  let [from, pages] = [start, base === null ? all : all.filter((page) => isWritten(base, start, page))];
  for (;;) {
    const sentIn = (ticks) => Math.min(pages.length, Math.floor((max * ticks) / 1_000));
    const isAsked = (ticks) => ticks === Math.ceil((1_000 * pages.length) / max)
      || (ticks > 0 && window > 0 && ticks % window === 0);
    let ticks = 0;
    while (!(isAsked(ticks) && pages.length - sentIn(ticks) < threshold)) {
      ticks += 1;
    }
    const to = Math.min(from + ticks, end);
    const sent = sentIn(to - from);
    const dirtied = all.filter((page) => isWritten(from, to, page));
    const left = all.filter((page) => pages.slice(sent).includes(page) || dirtied.includes(page));
    lists.push({ from, to, pages, sent, dirtied, left });
    const reason = from + ticks > end ? "record" : left.length < threshold ? "few" : null;
    if (reason !== null) {
      return { lists, reason, left };
    }
    [from, pages] = [to, left];
  }
}

function columnsOf(touches) {
  const [ticks, pages] = ["tick", "page"].map((name) => touches.map((touch) => touch[name]));
  return { ticks: Float64Array.from(ticks), pages: Uint32Array.from(pages) };
}

function rowsOf({ lists }, { max }) {
  return lists.map(({ from, to, pages, sent, dirtied, left }) => ({
    from, to, rate: max, pages: pages.length, sent, dirtied: dirtied.length, left: left.length,
  }));
}

test("the rows of a hypervisor's lists are those of the definition", () => {
  const draw = drawing(21);
  let [warm, several, cut, early] = [0, 0, 0, 0];
  for (let number = 0; number < TRIES; number += 1) {
    const some = tried(draw);
    const plan = planned(some);
    const rows = rowsOf(plan, some);
    assert.deepEqual(lookRows(columnsOf(some.touches), some.pageCount, some), rows, JSON.stringify(some));
    warm += some.base !== null;
    several += plan.lists.length > 2;
    cut += plan.reason === "record";
    early += plan.lists.some(({ pages, sent }) => sent < pages.length);
  }
  const told = `${warm} warm, ${several} of several lists, ${cut} cut, ${early} that look early`;
  assert.ok(Math.min(warm, several, cut, early) > TRIES / 20, told);
});

/** What the page's worker is told of a plan, whose guest is stopped or not. */
function askedOf(some, { lists, reason, left }) {
  const stop = lists.at(-1).to;
  const isStopped = reason === "few";
  return { isClark: false, isStopped, start: some.start, base: some.base, max: some.max, stop,
    down: Math.ceil((1_000 * left.length) / some.max), rounds: rowsOf({ lists }, some) };
}

test("the pages of lists, their turns and their sums on the map are those of the definition", () => {
  const draw = drawing(22);
  for (let number = 0; number < TRIES; number += 1) {
    const some = tried(draw);
    const made = planned(some);
    const plan = askedOf(some, made);
    const writes = columnsOf(some.touches);
    const turnsOf = (from, pages) => pages.map((_, place) => from + Math.floor((1_000 * place) / some.max));
    const found = [...lookPages(writes, some.pageCount, plan)].map(({ pages, turns, end, dirtied }) =>
      ({ pages: [...pages], turns: [...turns.ticks], end, dirtied: [...dirtied] }));
    const wanted = made.lists.map(({ from, to, pages, sent, dirtied }) =>
      ({ pages, turns: turnsOf(from, pages.slice(0, sent)), end: to, dirtied }));
    const rest = plan.isStopped ? made.left : [];
    wanted.push({ pages: rest, turns: turnsOf(plan.stop, rest), end: plan.stop + plan.down, dirtied: [] });
    assert.deepEqual(found, wanted, JSON.stringify(some));
    const rows = 1 + draw(some.pageCount);
    const grid = { first: 0, last: 600, columns: 20, rows, fromPage: 0, endPage: some.pageCount };
    const map = new WritesMap(writes, some.pageCount).rounds({ grid, plan });
    made.lists.forEach(({ from, pages, sent, dirtied }, at) => {
      const turns = turnsOf(from, pages.slice(0, sent));
      assert.deepEqual(sumsOf(map, rows, [at, at + 1], [0, rows]), {
        pages: pages.length, sent, skipped: pages.length - sent, dirtied: dirtied.length,
        again: pages.slice(0, sent).filter((page) => dirtied.includes(page)).length,
        firstTurn: Math.min(Infinity, ...turns), lastTurn: Math.max(-Infinity, ...turns),
      }, JSON.stringify({ some, at }));
    });
  }
});

test("the settings of a hypervisor are those of the module", () => {
  const settings = { start: 5, base: 3, max: 40, threshold: 2 };
  const wanted = { start: 5, base: 3, max: 40, threshold: 2 };
  assert.deepEqual(lookSettings({ tick: 1_000n }, settings, 900), { ...wanted, window: 100, end: 900 });
  assert.deepEqual(lookSettings({ tick: 100_001n }, settings, 4), { ...wanted, window: 0, end: 5 });
  assert.equal(lookSettings({ tick: 1n }, settings, 2 ** 40 - 1).end, 5 + 4_194_303_999);
});

test("lists that do not come to the module's answer are told apart", () => {
  const rows = [{ to: 7, sent: 4, left: 3 }, { to: 9, sent: 2, left: 1 }];
  const few = { rounds: 2, reason: "few", stop: 9, left: 1, total: 7 };
  assert.ok(comeTo(rows, few));
  assert.ok(comeTo(rows, { ...few, reason: "cut", rounds: 1, stop: 10 }));
  assert.ok(comeTo(rows, { ...few, reason: "level", rounds: 1 }));
  const others = [{ rounds: 1 }, { reason: "cut" }, { reason: "level" }, { stop: 10 }, { left: 2 }, { total: 8 }];
  for (const other of others) {
    assert.ok(!comeTo(rows, { ...few, ...other }), JSON.stringify(other));
  }
});

test("lists in a stretch of time are named", () => {
  const rounds = [{ from: 10, to: 20 }, { from: 20, to: 24 }, { from: 24, to: 30 }];
  const named = (plan, from, to) => {
    const range = roundsIn(plan, from, to);
    return range[1] === 0 ? "" : roundsName(plan, range);
  };
  const stopped = { isClark: false, isStopped: true, rounds, stop: 30, down: 2 };
  assert.deepEqual([[0, 11], [19, 21], [29, 31], [30, 31]].map(([from, to]) => named(stopped, from, to)),
    ["list 1", "lists 1 to 2", "list 3 and the stop", "the stop"]);
  const cut = { ...stopped, isStopped: false };
  assert.deepEqual([[29, 31], [30, 31]].map(([from, to]) => named(cut, from, to)), ["list 3", ""]);
  const sums = { pages: 5, sent: 2, skipped: 3, dirtied: 1, firstTurn: 12 };
  assert.equal(sumsWords(cut, [0, 1], sums, String), "list 1, from 12 on: 2 of 5 pages sent, 3 unsent, 1 dirtied");
  assert.equal(sumsWords(cut, [0, 1], { ...sums, sent: 0, skipped: 5, firstTurn: Infinity }, String),
    "list 1: 0 of 5 pages sent, 5 unsent, 1 dirtied");
});
