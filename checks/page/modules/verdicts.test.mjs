import assert from "node:assert/strict";
import { test } from "node:test";
import { LateAnswers } from "../../../web/engine/late-answers.js";
import { answerOver, forecastWords, isGood, keptWords } from "../../../web/model/predictions.js";
import { verdictOf } from "../../../web/views/outcome.js";

const still = { digest: "0", record: { still: "The guest stood still." } };
const ran = { digest: "0", record: { still: "" } };
const KEPT = { converges: "yes", kept: "yes", time: 1n, bytes: 1n, downtime: 20_000n };

test("over a guest that stood still no verdict is sure, and what is unknown stays so", () => {
  for (const kept of ["yes", "no"]) {
    const answer = answerOver(still, { ...KEPT, kept });
    assert.deepEqual(answer, { ...KEPT, converges: "uncertain", kept: "uncertain" });
    assert.equal(isGood(answer), false);
    assert.equal(keptWords(answer), "uncertain");
  }
  const forecast = { end: "few", looks: 3, left: 0n, ...KEPT };
  assert.match(forecastWords(answerOver(still, forecast)), /, uncertain$/);
  const late = { ...KEPT, converges: "unknown", kept: "unknown" };
  for (const answer of [late, null, undefined]) {
    assert.equal(answerOver(still, answer), answer);
  }
  for (const trace of [ran, { record: null }]) {
    assert.equal(answerOver(trace, KEPT), KEPT);
  }
});

test("an uncertain verdict says neither that the limit is kept nor that it is missed", () => {
  const prediction = { cost: answerOver(still, KEPT), limits: { downtime: 300_000n } };
  const words = verdictOf(prediction).replaceAll("\u00a0", " ");
  assert.match(words, /^It is uncertain whether it converges and keeps the limit: .* the guest stood still, /);
  assert.match(words, /the downtime is 20 ms; the limit is 300 ms\.$/);
});

test("over a guest that stood still nothing is offered as enough, nor asked for", () => {
  const late = new LateAnswers(() => {});
  late.askAll = () => {};
  const plan = { isClark: false, reason: "few" };
  const prediction = { plan, question: { link: 1n }, scale: { isSample: false }, cost: { kept: "yes" } };
  for (const trace of [ran, still]) {
    late.follow(trace, prediction, { plans: [], starts: [] }, () => []);
    const isSure = trace === ran;
    assert.equal(late.wanted.some(({ kind }) => kind === "remedies"), isSure);
    assert.equal(late.remediesOf(trace, prediction) === undefined, isSure);
  }
  const { isUncertain, isKept, link, downtime, speed, ways, offers } = late.remediesOf(still, prediction);
  assert.deepEqual([isUncertain, isKept, link, downtime, speed, ways, offers], [true, false, null, null, null, [], {}]);
});

test("of a start after the trace is said that the trace ends before it", () => {
  const cost = { kept: "unknown", recorded: 0n };
  const verdict = (start) => verdictOf({ cost, settings: { start }, last: 2_399, scale: { tick: 1_000n } });
  assert.equal(verdict(2_399), "The trace ends before the migration does: record longer.");
  assert.equal(verdict(2_400).replaceAll("\u00a0", " "), "The trace has 2.399 s; it ends before the start.");
});
