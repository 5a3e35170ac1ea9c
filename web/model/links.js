// The same migration over many links, slower and faster ones: which are tried. What it costs is the module's answer.

import { askedIfAny } from "./asking.js";
import { costIn } from "./predictions.js";
import { quantityNear } from "./quantities.js";
import { RATE_UNITS } from "./units.js";

/** How many times slower and faster than the link that is set others are at most, and how many of each there are. */
const RANGE = 8;
const A_SIDE = 20;

/** Places on the axis of links, from the slowest to the fastest; equal ratios are equally far apart. */
export const LINK_PLACES = 6_000;

/** The place of a link on an axis whose middle is the link that is set. */
export function linkPlace(amount, middle) {
  const share = Math.log((amount * RANGE) / middle) / Math.log(RANGE * RANGE);
  return Math.round(Math.min(Math.max(share, 0), 1) * LINK_PLACES);
}

/** The links of a curve, round numbers but for the one that is set, each with its question, or null without a plan. */
export function linkPoints({ state }, sizes) {
  const { amount, unit } = state.link;
  const near = (place) => quantityNear(amount * RANGE ** (place / A_SIDE), unit, RATE_UNITS);
  const places = Array.from({ length: A_SIDE }, (_, place) => place + 1);
  // The least links are rounded further than to the next one.
  const slower = places.map((place) => near(-place)).reverse().filter((link) => link.amount < amount);
  const faster = places.map((place) => near(place)).filter((link) => link.amount > amount);
  const links = [...slower, state.link, ...faster];
  return links.filter((link, place) => place === 0 || link.amount > links[place - 1].amount)
    .map((link) => ({ link, question: askedIfAny({ ...state, link }, sizes)?.question ?? null }));
}

/** What a migration costs over each link that has an answer. */
export function linkCosts(points, answers, middle) {
  return points.map(({ link }, at) => ({ link, answer: answers[at] })).filter(({ answer }) => answer)
    .map(({ link, answer }) => ({ start: linkPlace(link.amount, middle), link, cost: costIn(answer) }));
}

/** The links as columns and rows of numbers, for a file. */
export function linkRows(costs) {
  const columns = ["link_bytes_per_second", "time_us", "sent_bytes", "downtime_us", "kept"];
  return [columns, costs.map(({ link, cost }) => [link.amount, cost.time, cost.bytes, cost.downtime, cost.kept])];
}
