import assert from "node:assert/strict";
import { test } from "node:test";
import { fragmentOf, stateIn } from "../../../web/model/state.js";
import { typedTicks } from "../../../web/model/typing.js";
import { Controls } from "../../../web/views/controls.js";

test("an address has the whole state", () => {
  const state = stateIn("#link=64MiB&first=50&downtime=300ms&start=1000&rounds=7&skip=1&base=500&sample=5/9"
    + "&of=0123456789ab&kept=link%3D1Gbit&kept=rounds%3D3");
  assert.deepEqual(stateIn(fragmentOf(state)), state);
  assert.equal(state.kept.length, 2);
});

test("an address has also what is typed and makes no plan", () => {
  const state = stateIn("");
  const settled = { settings: { sample: null }, sizes: { pages: 4_154 } };
  const sampleFor = (weight) => Controls.prototype.sampleFor.call(settled, weight);
  for (const weight of [0, 1, 31.25156, 10_000_000, 9_999_999_999.999_999]) {
    state.settings.sample = sampleFor(weight);
    assert.deepEqual(stateIn(fragmentOf(state)), state, `${weight} pages`);
  }
  for (const text of ["0", "9007199254.740991", "999999999999999 ticks"]) {
    state.settings.start = typedTicks(text, 1n, false);
    assert.deepEqual(stateIn(fragmentOf(state)), state, text);
  }
});

test("an address has no sample of no pages, nor of what is no number", () => {
  const plain = stateIn("");
  for (const word of ["0/5", "0/0", "5", "5/", "/5", "5/6/7", "5/x", "1/9007199254740992", "x/all"]) {
    assert.deepEqual(stateIn(`sample=${word}`), plain, word);
  }
  assert.deepEqual(stateIn("sample=5/0").settings.sample, { part: 5, whole: 0 });
});

test("an address that says what only rounds have goes by them, unless it says otherwise", () => {
  const isClark = (fragment) => stateIn(fragment).settings.clark;
  for (const words of ["first=50", "increase=10", "rounds=30", "skip=0", "trace=gzip&rounds=2"]) {
    assert.equal(isClark(`#${words}`), true, words);
    assert.equal(isClark(`#${words}&clark=0`), false, words);
  }
  assert.equal(isClark("#clark=1"), true);
  for (const words of ["", "link=64MiB&downtime=300ms&start=1000&base=500", "trace=gzip", "clark=2", "rounds=x"]) {
    assert.equal(isClark(`#${words}`), false, words);
  }
  const { settings, kept } = stateIn("#clark=1&kept=rounds%3D3&kept=link%3D1Gbit");
  assert.deepEqual([settings, ...kept].map(({ clark }) => clark), [true, true, false]);
});

test("words that mean nothing are passed over", () => {
  const plain = stateIn("");
  const prototypes = Object.getOwnPropertyNames(Object.prototype);
  for (const name of Object.keys(plain.settings)) {
    for (const word of [...prototypes, "", "-1", "NaN", "1e400", "\u0000"]) {
      const { settings } = stateIn(new URLSearchParams([[name, word]]).toString());
      assert.deepEqual(settings, plain.settings, `${name}=${word}`);
    }
  }
  for (const name of prototypes) {
    assert.deepEqual(stateIn(`${name}=1&trace=${name}&of=${name}`), plain, name);
  }
});
