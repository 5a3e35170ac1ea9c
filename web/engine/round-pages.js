// What each round of a plan does with which pages. The planner's module answers how many pages a round has, sends and
// finds dirtied, and from when to when it lasts; which pages these are is worked out here from the trace's writes, by
// `pages_lacking`, `IsSent`, `IsRound` and `IsEnd` of `crates/migration_model/specs/Rounds.antt`:
//
// - The first round has all pages, or of a warm start those written from the base on and before the start. Each later
//   one, and the copy after the stop, has the pages written during the round before: from its first tick on and before
//   its end.
// - The pages of a round come in ascending order. The turn of each is when those before it that were sent have taken
//   their time: 1,000 * sent / rate ticks after the round's first, rounded down.
// - With skipping on, a page of any but the first round is not sent if it is written from the round's first tick on and
//   before its turn. The copy after the stop skips nothing.

import { firstPages, WrittenPages } from "./written-pages.js";

/** The turns of a round's pages, each with its tick, and whether the page is sent then. */
function turnsOf(written, pages, { from, rate, maySkip }) {
  const turns = { ticks: new Float64Array(pages.length), isSent: new Uint8Array(pages.length) };
  let sent = 0;
  for (let place = 0; place < pages.length; place += 1) {
    const tick = from + Math.floor((1_000 * sent) / rate);
    if (maySkip) {
      written.goTo(tick);
    }
    const isSent = maySkip && written.marks[pages[place]] === 1 ? 0 : 1;
    turns.ticks[place] = tick;
    turns.isSent[place] = isSent;
    sent += isSent;
  }
  return turns;
}

/**
 * The rounds of a plan one after another, and last the copy after the stop: the pages of each, the turns of these, when
 * it ends, the pages that are dirtied meanwhile, and a mark for each page that is. A plan has `start`, `base`, `skip`
 * and the greatest rate, `max`; of each of its `rounds` the first tick, the end and the rate; and `stop` and `down`.
 */
export function* roundPages(writes, pageCount, plan) {
  const written = new WrittenPages(writes, pageCount);
  let pages = firstPages(written, plan);
  for (const [number, { from, to, rate }] of plan.rounds.entries()) {
    written.begin(from);
    const turns = turnsOf(written, pages, { from, rate, maySkip: plan.skip && number > 0 });
    written.goTo(to);
    const dirtied = written.list();
    yield { pages, turns, end: to, dirtied, isDirtied: written.marks };
    pages = dirtied;
  }
  written.marks.fill(0);
  const turns = turnsOf(written, pages, { from: plan.stop, rate: plan.max, maySkip: false });
  yield { pages, turns, end: plan.stop + plan.down, dirtied: new Uint32Array(0), isDirtied: written.marks };
}
