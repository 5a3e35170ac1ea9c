import assert from "node:assert/strict";
import { test } from "node:test";
import { MapView } from "../../../web/views/map-view.js";
import { reachOf } from "../../../web/views/rounds-chart.js";

/** The unit of rates beside a link. */
function rateUnit(amount, unit) {
  const plan = { rounds: [], stop: 9, down: 0, isStopped: true };
  const scale = { guest: 1n, page: 4096n, sampled: 1n, tick: 1_000n };
  return reachOf([{ plan, settings: { start: 0, max: 1 }, scale, state: { link: { amount, unit } } }], null).unit.name;
}

/** The texts beside a map of all pages of some size. */
function pageTexts(pages, pageBytes) {
  const createElementNS = () => ({ setAttribute: () => {}, append(...words) { this.words = words; } });
  globalThis.document = { createElementNS };
  const held = { axis: { room: 500 }, fromPage: 0, endPage: pages, trace: { sizes: { pageBytes } } };
  return MapView.prototype.scaleParts.call({ held }, "Where").flatMap(({ words }) => words);
}

test("rates have the unit that the link has one of once it is rounded", () => {
  const links = [[(1 << 30) - 1, "KiB", "GiB/s"], [1_023 << 20, "GiB", "MiB/s"], [124_999_000, "Kbit", "Gbit/s"],
    [999_400_000, "GB", "MB/s"], [7, "Gbit", "Gbit/s"]];
  for (const [amount, unit, wanted] of links) {
    assert.equal(rateUnit(amount, unit), wanted, `${amount} of ${unit}`);
  }
});

test("pages have the unit that their end has one of once it is rounded", () => {
  assert.deepEqual(pageTexts(65_535, 16), ["Where, MiB", "0.00", "0.25", "0.50", "0.75", "1.00"]);
  assert.deepEqual(pageTexts(65_000, 16), ["Where, KiB", "0", "254", "508", "762", "1016"]);
  assert.deepEqual(pageTexts(25, 16), ["Where, bytes", "0", "100", "200", "300", "400"]);
});

test("of what is drawn over beside the map no rows are taken", () => {
  const held = { grid: { rows: 4 }, fromPage: 0, endPage: 40 };
  const taken = (...places) => {
    let found = null;
    const view = { held, rowPages: MapView.prototype.rowPages, showPages: (range) => { found = range; } };
    MapView.prototype.takeRows.call(view, places);
    return found;
  };
  assert.deepEqual(taken(100, 200), { fromPage: 10, endPage: 30 });
  assert.deepEqual(taken(0, 400), { fromPage: 0, endPage: 40 });
  assert.deepEqual([taken(0, 26), taken(282, 330)], [null, null]);
});
