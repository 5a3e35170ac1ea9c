import assert from "node:assert/strict";
import { test } from "node:test";
import { LateAnswers } from "../../../web/engine/late-answers.js";
import { WorkerEnded } from "../../../web/engine/planner-client.js";
import { AGREEMENT } from "../../../web/model/interface.js";
import { warningsOf } from "../../../web/model/predictions.js";
import { readAgreement } from "../../../web/model/questions.js";
import { answerWords, isAwaited, sureLine, verdictsOf } from "../../../web/model/sureness.js";
import { comparisonRows, verdictMark, verdictOf } from "../../../web/views/outcome.js";

const trace = { digest: "0", record: null, sizes: { pages: 1 } };
const COUNTS = {
  draws: 20, drawsKnown: 20, drawsConverging: 12, drawsKept: 12, starts: 9, startsConverging: 3, startsKept: 3,
};

/** A prediction whose plan has these verdicts, and how sure they are. */
function predicted(converges, kept, agreement, more = {}) {
  const reason = converges === "yes" ? "few" : "fast";
  return {
    agreement, last: 9,
    plan: { isClark: true, isStopped: true, reason, steps: 3, total: 5, stop: 0, left: 0, rounds: [] },
    cost: { converges, kept, downtime: 20_000n, time: 20_000n, bytes: 4_096n, recorded: 9_000n },
    limits: { downtime: kept === "yes" ? 30_000n : 10_000n }, settings: { start: 0, threshold: 17, rounds: 30 },
    scale: { isSample: true, tick: 1_000n }, question: { link: 1n }, errors: null, ...more,
  };
}

/** The verdict in words without their signs of where a line does not break. */
function words(prediction) {
  return verdictOf(prediction).replaceAll("\u00a0", " ");
}

test("an agreement is read as the library lays it out", () => {
  const view = new DataView(new ArrayBuffer(AGREEMENT.size));
  AGREEMENT.wide.forEach((_, place) => view.setBigUint64(8 * place, BigInt(place + 1), true));
  view.setUint32(8 * AGREEMENT.wide.length, 3, true);
  view.setUint32(8 * AGREEMENT.wide.length + 4, 1, true);
  assert.deepEqual(readAgreement(view, 0), {
    draws: 1, drawsKnown: 2, drawsConverging: 3, drawsKept: 4, starts: 5, startsConverging: 6, startsKept: 7,
    converges: "uncertain", kept: "no",
  });
});

test("until it is known how sure a verdict is, it is of the plan, and neither good nor bad", () => {
  for (const [converges, kept, word] of [["yes", "yes", "Keeps the limit"], ["no", "no", "Misses the limit"]]) {
    const [late, none] = [undefined, null].map((agreement) => predicted(converges, kept, agreement));
    assert.deepEqual([isAwaited(late), isAwaited(none)], [true, false]);
    assert.deepEqual(verdictMark(late), ["mark", `${word}\u00a0\u2026`]);
    assert.deepEqual(verdictMark(none), ["mark", `${word} by the plan`]);
    assert.equal(sureLine(late), "By the plan alone\u00a0\u2026");
    assert.equal(sureLine(none), "By the plan alone");
    assert.match(words(late), / by the plan alone: .*kept, by the plan alone\.$/);
    assert.equal(answerWords(late, "kept"), `kept: ${kept}\u00a0\u2026`);
    assert.deepEqual(comparisonRows(late, [])[1][0].slice(-9), [...Array(8).fill(""), "rounds"]);
  }
});

test("a verdict that is not sure is uncertain, with the counts of `precopy-view predict`", () => {
  const agreement = { ...COUNTS, converges: "uncertain", kept: "uncertain" };
  const found = predicted("no", "no", agreement);
  assert.deepEqual(verdictsOf(found), { converges: "uncertain", kept: "uncertain" });
  assert.deepEqual(verdictMark(found), ["mark", "Uncertain"]);
  assert.equal(answerWords(found, "kept"), "kept: uncertain, in 12 of 20 redraws and from 3 of 9 starts");
  assert.equal(sureLine(found), "Kept: 12/20 redraws, 3/9 starts");
  assert.equal(words(found), "It is uncertain whether it converges (it does in 12 of 20 redraws and from 3 of 9 "
    + "starts): by the plan the guest writes faster than the link sends. By the plan the guest stands still for 20 ms; "
    + "it is uncertain whether the limit of 10 ms is kept (it is in 12 of 20 redraws and from 3 of 9 starts).");
  assert.deepEqual(comparisonRows(found, [])[1][0].slice(-9),
    ["uncertain", "uncertain", 20, 12, 12, 9, 3, 3, "rounds"]);
  const whole = predicted("no", "no", { ...agreement, draws: 0 });
  assert.equal(answerWords(whole, "converges"), "converges: uncertain, from 3 of 9 starts");
});

test("a sure verdict is told with its counts", () => {
  const all = { ...COUNTS, drawsConverging: 20, drawsKept: 20, startsConverging: 9, startsKept: 9 };
  const kept = predicted("yes", "yes", { ...all, converges: "yes", kept: "yes" });
  assert.deepEqual(verdictMark(kept), ["mark good", "Keeps the limit"]);
  assert.match(words(kept), /^It converges, in 20 of 20 .* of 30 ms is kept, in 20 of 20 .* 9 of 9 starts\.$/);
  const none = { ...COUNTS, drawsConverging: 0, drawsKept: 0, startsConverging: 0, startsKept: 0 };
  const missed = predicted("no", "no", { ...none, converges: "no", kept: "no" });
  assert.deepEqual(verdictMark(missed), ["mark bad", "Misses the limit"]);
  assert.match(words(missed), /^It does not converge \(it does in 0 of 20 .* is not kept \(it is in 0 of 20 /);
  const half = predicted("yes", "yes", { ...all, drawsConverging: 12, converges: "uncertain", kept: "yes" });
  assert.deepEqual(verdictMark(half), ["mark", "Kept, perhaps not bounded"]);
  assert.equal(sureLine(half), "Kept: 20/20 redraws, 9/9 starts; converges: 12/20 redraws, 9/9 starts");
});

test("where two standard errors of the downtime pass the limit, that is told", () => {
  const all = { ...COUNTS, drawsConverging: 20, drawsKept: 20, startsConverging: 9, startsKept: 9 };
  const agreement = { ...all, converges: "yes", kept: "uncertain" };
  const found = predicted("yes", "yes", agreement, { errors: { bytes: 0n, time: 0n, downtime: 5_001n } });
  assert.match(words(found), / With two standard errors the downtime is 30\.002 ms, and the limit is missed\.$/);
  assert.equal(sureLine(found), "Kept: 20/20 redraws, 9/9 starts, but not with 2 standard errors");
  const within = predicted("yes", "yes", agreement, { errors: { bytes: 0n, time: 0n, downtime: 5_000n } });
  assert.doesNotMatch(words(within) + sureLine(within), /standard errors/);
  const looks = { ...found, plan: { ...found.plan, isClark: false } };
  assert.doesNotMatch(words(looks) + sureLine(looks), /standard errors/);
});

/** A plan of looks that ends so. */
function looked(reason) {
  return { isClark: false, isStopped: reason === "few", reason, steps: 2_000, total: 5, stop: 7, left: 5, rounds: [] };
}

test("a hypervisor that does not stop the guest is told as such", () => {
  const none = { ...COUNTS, draws: 0, startsConverging: 0, startsKept: 0, converges: "no", kept: "no" };
  for (const [reason, why] of [["looks", "2,000 looks are done"],
    ["level", "the trace ends first, and the lists did not get shorter"]]) {
    const found = predicted("no", "no", none, { plan: looked(reason) });
    assert.equal(words(found), `It does not converge (it does from 0 of 9 starts): ${why}. The guest is not stopped, `
      + "and what is left would take 20 ms; the limit of 10 ms is not kept (it is from 0 of 9 starts).");
    assert.ok(warningsOf(found).includes("A hypervisor goes on, and takes longer: give more of the link."));
    const [columns, [row]] = comparisonRows(found, []);
    const cell = (name) => row[columns.indexOf(name)];
    assert.deepEqual(["rounds", "stop_us", "reason", "plan_by"].map(cell), [2_000, "", reason, "looks"]);
  }
  const few = predicted("yes", "yes", { ...none, converges: "yes", kept: "yes" }, { plan: looked("few") });
  assert.match(words(few), /: fewer than 17 pages of the sample were left\. The guest stands still for 20 ms; /);
});

test("of a guest that stood still, and of a plan that ends after its trace, it is not asked how sure they are", () => {
  for (const kept of ["uncertain", "unknown"]) {
    const found = predicted(kept, kept, undefined);
    assert.deepEqual([isAwaited(found), sureLine(found), answerWords(found, "kept")], [false, "", `kept: ${kept}`]);
  }
});

/** What is asked for next, and what is known, of answers that come late; nothing answers. */
function asking(prediction, plans = [prediction]) {
  const late = new LateAnswers(() => {});
  late.askAll = () => {};
  const follow = () => late.follow(trace, prediction, { plans, starts: [] }, () => []);
  follow();
  const tell = (kind, value) => {
    late.keep(late.wanted.find((some) => some.kind === kind).key, value);
    follow();
    late.tell(trace, { plans, starts: [] });
  };
  return { late, tell, kinds: () => late.wanted.map(({ kind }) => kind) };
}

test("how sure a plan is comes after its errors and before what is enough, and of kept plans at the end", () => {
  const kept = predicted("no", "no", undefined, { question: { link: 2n } });
  const { kinds } = asking(predicted("yes", "yes"), [predicted("yes", "yes"), kept]);
  assert.deepEqual(kinds(), ["forecast", "errors", "agreement", "remedies", "errors", "agreement"]);
  assert.deepEqual(asking(predicted("unknown", "unknown")).kinds(), ["forecast", "remedies"]);
});

test("what got no answer is asked again when that is said, and not at once", async () => {
  const [asked, answers] = [[], { agreement: { ...COUNTS, converges: "no", kept: "no" } }];
  const prediction = predicted("no", "no");
  const follow = () => late.follow(trace, prediction, { plans: [prediction], starts: [] }, () => []);
  const late = new LateAnswers((kind) => kind === "curve" || follow());
  const kinds = async () => {
    follow();
    await new Promise(setImmediate);
    return asked.splice(0).join(" ");
  };
  let isEnded = true;
  late.client = { open: async () => {}, ask: async (kind) => {
    asked.push(kind);
    if (isEnded) {
      throw new WorkerEnded("ended");
    }
    return answers[kind] ?? null;
  } };
  for (isEnded of [true, false]) {
    assert.deepEqual([await kinds(), await kinds()], ["forecast errors agreement remedies", ""]);
    late.askAgain();
  }
  assert.deepEqual([late.agreementOf(trace, prediction).kept, await kinds()], ["no", ""]);
});

test("beside a plan of looks it is told only if the trace ends first what comes of it like QEMU", () => {
  const forecast = { end: "few", kept: "no", converges: "no" };
  const told = (plan, found) => {
    const prediction = predicted("no", "no", undefined, { plan });
    const { tell, kinds } = asking(prediction);
    const isAsked = kinds().includes("forecast");
    if (isAsked) {
      tell("forecast", found);
    }
    return [isAsked, isAsked ? prediction.forecast : null];
  };
  assert.deepEqual(told(looked("few"), forecast), [false, null]);
  assert.deepEqual(told(looked("looks"), forecast), [true, null]);
  const cut = { ...forecast, end: "record" };
  assert.deepEqual(told(looked("looks"), cut), [true, cut]);
  assert.deepEqual(told(looked("level"), cut), [true, cut]);
  assert.deepEqual(told({ ...looked("few"), isClark: true }, forecast), [true, forecast]);
});

test("where a plan keeps the limit and that is not sure, nothing is offered as enough, nor asked for", () => {
  const remedies = { isKept: true, ends: true, link: null, downtime: null, speed: 50n };
  for (const [converges, kept, isSure] of [["yes", "yes", true], ["yes", "uncertain", false],
    ["uncertain", "yes", false]]) {
    const prediction = predicted("yes", "yes");
    const { late, tell, kinds } = asking(prediction);
    assert.equal(late.remediesOf(trace, prediction), undefined);
    tell("agreement", { ...COUNTS, converges, kept });
    assert.equal(kinds().includes("remedies"), isSure);
    if (isSure) {
      tell("remedies", remedies);
    }
    const { isUncertain = false, isStill = false, speed } = late.remediesOf(trace, prediction);
    assert.deepEqual([isUncertain, isStill, speed], [!isSure, false, isSure ? 50n : null]);
  }
});

test("where a plan misses the limit, what is enough by the plan alone is offered, however sure that is", () => {
  const prediction = predicted("no", "no");
  const { late, tell } = asking(prediction);
  tell("remedies", { isKept: false, ends: true, link: null, downtime: null, speed: 50n });
  assert.equal(late.remediesOf(trace, prediction).speed, 50n);
  tell("agreement", { ...COUNTS, converges: "uncertain", kept: "uncertain" });
  assert.equal(late.remediesOf(trace, prediction).speed, 50n);
  assert.equal(prediction.agreement.kept, "uncertain");
});
