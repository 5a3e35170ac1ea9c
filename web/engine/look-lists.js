// The lists of a hypervisor's plan, and what it does with which pages. The planner's module answers how many looks
// there are, when and why they end, and how many pages are sent and left. The lists are worked out here from the
// trace's writes, by `IsHypervisorPlan` of `crates/migration_model/specs/Looks.antt`, and have to come to that answer:
//
// - The first list has all pages, or of a warm start those written from the base on and before the start. Each later
//   one, and the copy after the stop, has the pages that the look before it found.
// - The pages of a list are sent in ascending order, at one rate.
// - The hypervisor asks how many are left at the end of each window, and when all are sent. If they are fewer than the
//   threshold, it looks: it finds these, and the pages written from the list's first tick on and before the look.
// - A look that finds fewer pages than the threshold stops the guest. There are at most 2,000 looks, and none after the
//   end of the record.

import { firstPages, WrittenPages } from "./written-pages.js";

/** How often a hypervisor asks how many pages are left, in microseconds; and after how many looks it gives up. */
const WINDOW = 100_000n;
const MOST_LOOKS = 2_000;

/** How long a record is at most, in ticks. */
const LONGEST = 4_194_303_999;

/** The settings of the hypervisor that answers a question, over a trace with this last tick. */
export function lookSettings({ tick }, { start, base, max, threshold }, last) {
  const end = Math.max(start, Math.min(last, start + LONGEST));
  return { start, base, max, threshold, window: Number(WINDOW / tick), end };
}

/** How many ticks it takes to send so many pages. */
function ticksFor(pages, rate) {
  return Math.ceil((1_000 * pages) / rate);
}

/** How many ticks after a list of so many pages began the hypervisor looks. */
function ticksToLook(count, { max, threshold, window }) {
  const all = ticksFor(count, max);
  const few = ticksFor(Math.max(0, count - threshold + 1), max);
  return window === 0 ? all : Math.min(all, Math.max(1, Math.ceil(few / window)) * window);
}

/** A row for each list of a plan: its ticks, and how many pages it has, are sent, written meanwhile and left. */
export function lookRows(writes, pageCount, settings) {
  const { start, end, max, threshold } = settings;
  const written = new WrittenPages(writes, pageCount);
  const rows = [];
  let [from, pages, isLast] = [start, firstPages(written, settings), false];
  while (!isLast) {
    const look = from + ticksToLook(pages.length, settings);
    const to = Math.min(look, end);
    const sent = Math.min(pages.length, Math.floor((max * (to - from)) / 1_000));
    written.begin(from);
    written.goTo(to);
    const dirtied = written.count;
    const left = written.listWith(pages.subarray(sent));
    rows.push({ from, to, rate: max, pages: pages.length, sent, dirtied, left: left.length });
    isLast = look > end || left.length < threshold || rows.length === MOST_LOOKS;
    [from, pages] = [to, left];
  }
  return rows;
}

/** Whether the trace ends before the plan of an answer. */
export function isCut({ reason }) {
  return reason === "cut" || reason === "level";
}

/** Whether the lists of a plan come to the module's answer. A plan that is cut while its lists shorten stops later. */
export function comeTo(rows, answer) {
  const { to, left } = rows.at(-1);
  const sent = rows.reduce((sum, row) => sum + row.sent, 0);
  return rows.length === answer.rounds + (isCut(answer) ? 1 : 0) && left === answer.left
    && to + (answer.reason === "cut" ? 1 : 0) === answer.stop && sent + left === answer.total;
}

/** The turns of the first pages of a list, each with its tick. */
function listTurns(from, count, rate) {
  const ticks = Float64Array.from({ length: count }, (_, place) => from + Math.floor((1_000 * place) / rate));
  return { ticks, isSent: new Uint8Array(count).fill(1) };
}

/**
 * The lists of a plan one after another, and last the copy after the stop: the pages of each, the turns of those that
 * are sent, when it ends, the pages that are dirtied meanwhile, and a mark for each page that is. A plan has `start`,
 * `base` and the rate, `max`; of each of its `rounds` the ticks, the rate and the number of pages sent; and `stop` and
 * `down`, if it `isStopped`.
 */
export function* lookPages(writes, pageCount, plan) {
  const written = new WrittenPages(writes, pageCount);
  let pages = firstPages(written, plan);
  for (const { from, to, rate, sent } of plan.rounds) {
    written.begin(from);
    written.goTo(to);
    yield { pages, turns: listTurns(from, sent, rate), end: to, dirtied: written.list(), isDirtied: written.marks };
    pages = written.listWith(pages.subarray(sent));
  }
  written.marks.fill(0);
  pages = plan.isStopped ? pages : new Uint32Array(0);
  const turns = listTurns(plan.stop, pages.length, plan.max);
  yield { pages, turns, end: plan.stop + plan.down, dirtied: new Uint32Array(0), isDirtied: written.marks };
}
