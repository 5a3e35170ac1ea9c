// What the steps of a plan do with the pages of a row of the map, in words and sums.

import { nounsOf, stepNumber } from "./nouns.js";
import { counted, countOf } from "./numbers.js";

/** What of a step and a row is counted. */
const COUNTS = ["pages", "sent", "again", "dirtied"];

/** What some steps do with some rows, as sums: both are numbers from the first up to the second. */
export function sumsOf(found, rows, [firstRound, lastRound], [firstRow, lastRow]) {
  const sums = { pages: 0, sent: 0, again: 0, dirtied: 0, firstTurn: Infinity, lastTurn: -Infinity };
  for (let round = firstRound; round < lastRound; round += 1) {
    for (let at = round * rows + firstRow; at < round * rows + lastRow; at += 1) {
      COUNTS.forEach((name) => { sums[name] += found[name][at]; });
      if (found.pages[at] > 0) {
        sums.firstTurn = Math.min(sums.firstTurn, found.firstTurn[at]);
        sums.lastTurn = Math.max(sums.lastTurn, found.lastTurn[at]);
      }
    }
  }
  return { ...sums, skipped: sums.pages - sums.sent };
}

/** The steps of a plan that lie in the ticks [from, to), at least in part; the copy after the stop is the last. */
export function roundsIn({ rounds, stop, down, isStopped }, from, to) {
  const all = [...rounds, ...(isStopped ? [{ from: stop, to: stop + down }] : [])];
  const isIn = (round) => round.from < to && (round.to > from || round.from >= from);
  const first = all.findIndex(isIn);
  return first === -1 ? [0, 0] : [first, all.findLastIndex(isIn) + 1];
}

/** The name of steps of a plan, of which the one after the last is the copy after the stop. */
export function roundsName(plan, [first, last]) {
  const { one, many } = nounsOf(plan);
  const end = Math.min(last, plan.rounds.length);
  const [from, to] = [first, end - 1].map((place) => counted(stepNumber(plan, place)));
  const name = end === first + 1 ? `${one} ${from}` : `${many} ${from} to ${to}`;
  return [...(end > first ? [name] : []), ...(last > end ? ["the stop"] : [])].join(" and ");
}

/** What steps of a plan do with pages, in words, with the moment of the first turn. */
export function sumsWords(plan, range, { pages, sent, skipped, dirtied, firstTurn }, moment) {
  const name = roundsName(plan, range);
  const head = pages === 0 ? `${name}: no page to send`
    : `${name}${firstTurn < Infinity ? `, from ${moment(firstTurn)} on` : ""}: ${counted(sent)} of `
      + `${countOf(pages, "page")} sent`;
  const more = [[skipped, nounsOf(plan).unsent], [dirtied, "dirtied"]].filter(([count]) => count > 0);
  return [head, ...more.map(([count, what]) => `${counted(count)} ${what}`)].join(", ");
}

/** The pages from one up to another, in words. */
export function pagesWords(from, to) {
  return from + 1 === to ? `page ${counted(from)}` : `pages ${counted(from)} to ${counted(to - 1)}`;
}
