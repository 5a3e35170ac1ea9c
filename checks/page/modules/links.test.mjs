import assert from "node:assert/strict";
import { test } from "node:test";
import { takeRules } from "../../../web/model/asking.js";
import { linkPoints } from "../../../web/model/links.js";
import { stateIn } from "../../../web/model/state.js";

const SIZES = { pages: 25, pageBytes: 4_096 };

test("the links of a curve have the one that is set, and each once, from the slowest up", () => {
  takeRules({ settings: () => ({ min: 1, max: 2 }), windowRefusal: () => 0 });
  for (const word of ["125.5KB", "10Gbit", "64MiB", "2.792Kbit", "0.349KB", "4.9KB", "5KiB", "0.001KB", "0.125KB"]) {
    const state = stateIn(`link=${word}`).settings;
    const amounts = linkPoints({ state }, SIZES).map(({ link }) => link.amount);
    assert.ok(amounts.includes(state.link.amount), `${word}: ${amounts}`);
    assert.deepEqual(amounts, [...new Set(amounts)].sort((one, other) => one - other), word);
    assert.equal(amounts.length === 41, state.link.amount > 6_000, word);
  }
});
