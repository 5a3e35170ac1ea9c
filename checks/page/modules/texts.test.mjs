import assert from "node:assert/strict";
import { test } from "node:test";
import { briefBytes, briefTime } from "../../../web/model/brief.js";
import { bytesText, lengthText, momentText, timeText } from "../../../web/model/numbers.js";
import { commandWord, quantityIn, quantityNear, roundedWords } from "../../../web/model/quantities.js";
import { RATE_UNITS, TIME_UNITS } from "../../../web/model/units.js";
import { CURVES } from "../../../web/views/curves.js";
import { headlineWords } from "../../../web/views/outcome.js";

test("a length is told in the units that it has", () => {
  assert.equal(lengthText(86_399_000_000n), "23\u00a0h\u00a059\u00a0min");
  assert.equal(lengthText(61_000_000n), "1\u00a0min\u00a01\u00a0s");
  assert.equal(lengthText(59_999_999n), "59.999\u00a0s");
});

test("what is brief is rounded, and what is exact is rounded down", () => {
  assert.equal(briefTime(19_297_000n), "19.3\u00a0s");
  assert.equal(timeText(19_297_999n), "19.297 s");
  assert.equal(briefTime(0n), "0\u00a0s");
  assert.equal(briefBytes(621_730_000n), "593\u00a0MiB");
  assert.equal(bytesText(621_730_000n), "592.92 MiB");
  assert.equal(momentText(1_000_500n), "1.000500 s");
});

const plain = (text) => text.replaceAll("\u00a0", " ");

test("what is rounded has the unit that it has one of then", () => {
  const times = [999_499n, 999_600n, 59_940_000n, 59_960_000n].map(briefTime).map(plain);
  assert.deepEqual(times, ["999 ms", "1 s", "59.9 s", "1 min 0 s"]);
  const sizes = [1_023n, 1_047_000n, 1_048_575n, (1n << 30n) - 1n].map(briefBytes).map(plain);
  assert.deepEqual(sizes, ["1023 bytes", "1022 KiB", "1 MiB", "1 GiB"]);
  const rates = [[124_999_000n, "Kbit"], [124_000_000n, "Mbit"], [0n, "GB"]];
  const words = rates.map(([amount, unit]) => roundedWords(amount, unit, RATE_UNITS));
  assert.deepEqual(words, ["1 Gbit/s", "992 Mbit/s", "0 GB/s"]);
  assert.deepEqual(quantityNear(10_239.7 * 2 ** 20, "MiB", RATE_UNITS), { amount: 10 * 2 ** 30, unit: "GiB" });
  assert.deepEqual(CURVES.map(({ unit }) => unit(999_700)[1]), ["s", "s", "KiB"]);
  assert.deepEqual(CURVES.map(({ unit }) => unit(1_048_400)[1]), ["s", "s", "MiB"]);
});

test("a pause and its limit differ, and share a unit only if both have it", () => {
  const cost = { time: 61_000_000n, bytes: 0n, kept: "yes" };
  const words = (downtime, limit) =>
    plain(headlineWords({ cost: { ...cost, downtime }, limits: { downtime: limit } })).split(",")[0];
  assert.equal(words(20_000_000n, 60_000_000n), "Pause 20 s of 1 min 0 s");
  assert.equal(words(291_000n, 300_000n), "Pause 291 ms of 300");
  assert.equal(words(19_297_001n, 19_297_000n), "Pause 19.297001 s of 19.297");
  const late = headlineWords({ cost: { recorded: 19_297_000n, kept: "unknown" } });
  assert.equal(late, "Longer than the trace: more than 19.297\u00a0s");
});

test("a quantity is the same by its word", () => {
  const words = [["1.5Gbit", RATE_UNITS], ["64MiB", RATE_UNITS], ["300ms", TIME_UNITS], ["1us", TIME_UNITS]];
  for (const [word, units] of words) {
    assert.equal(commandWord(quantityIn(word, units), units), word);
  }
});
