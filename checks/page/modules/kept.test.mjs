import assert from "node:assert/strict";
import { test } from "node:test";
import { PlannerClient, WorkerEnded } from "../../../web/engine/planner-client.js";
import { takeRules } from "../../../web/model/asking.js";
import { withLimitsOf } from "../../../web/model/fitting.js";
import { foundBy } from "../../../web/model/found.js";
import { KeptPlans } from "../../../web/model/kept-plans.js";
import { presetOf, ROUND_SETTINGS, stateIn } from "../../../web/model/state.js";
import { refusedWords } from "../../../web/views/outcome.js";
import { differencesOf } from "../../../web/views/plan-view.js";

const A = { digest: "a", source: { name: "a.pcwt" }, sizes: { last: 9 } };
const B = { digest: "b", source: { name: "b.pcwt" }, sizes: { last: 9 } };

/** Plans over traces that are opened one after another; `shows` opens one, and has what is kept beside its plan. */
function kept() {
  const plans = new KeptPlans(async (trace, settings) => ({ value: { settings } }));
  let shown = null;
  return {
    plans,
    /** What is shown over a trace with some settings kept over it: of each its name, or the link. */
    async shows(trace, links) {
      plans.open(trace, shown);
      plans.forget();
      const state = { kept: links.map((link) => ({ link })), settings: { window: 5 } };
      shown = { trace, kept: await plans.all(trace, state) };
      return shown.kept.map(({ name, settings: { link } }) => `${link}${name ? ` of ${name}` : ""}`);
    },
  };
}

test("a plan that is kept over another trace has the name of that", async () => {
  const { shows } = kept();
  assert.deepEqual(await shows(A, [1]), ["1"]);
  assert.deepEqual(await shows(B, [2]), ["1 of a.pcwt", "2"]);
});

test("an address of the trace before shows what is kept over it once", async () => {
  const { shows } = kept();
  await shows(A, [1]);
  await shows(B, [2]);
  assert.deepEqual(await shows(A, [1]), ["2 of b.pcwt", "1"]);
  assert.deepEqual(await shows(B, [2]), ["1 of a.pcwt", "2"]);
  assert.deepEqual(await shows(A, []), ["2 of b.pcwt"]);
  assert.deepEqual(await shows(B, []), []);
});

test("a kept plan differs in what is asked, and not in the unit of an amount", () => {
  const { settings } = stateIn("link=1Gbit&clark=0");
  const differing = (words) => differencesOf(settings, stateIn(words).settings, 0);
  assert.equal(differing("link=1000Mbit&sample=9/9"), "Kept plan 1 has the same settings.");
  assert.equal(differing("link=2Gbit&tick=1000us"), "Kept plan 1 differs: link 2 Gbit/s.");
  assert.equal(differing("link=1Gbit&sample=5/9"), "Kept plan 1 differs: sample of 5 in 9.");
});

test("a trace that is opened again has what was kept over it", async () => {
  const { plans, shows } = kept();
  await shows(A, [1, 3]);
  await shows(B, []);
  plans.open(A, null);
  assert.deepEqual(plans.settings().map(({ link }) => link), [1, 3]);
  assert.deepEqual(plans.others, []);
  await shows(A, [1, 3]);
  await shows(A, [2, 4]);
  await shows(A, []);
  assert.deepEqual(plans.settings().map(({ link }) => link), [2, 4]);
  assert.deepEqual(plans.others, []);
});

test("a kept plan is shown with the windows of now, and with ticks where they are asked for now", async () => {
  const plans = new KeptPlans(async (trace, settings) => ({ value: settings.ticks }));
  const shown = (ticks) => plans.all(A, { kept: [{ link: 1, ticks: false }], settings: { window: 5, ticks } });
  const [[plain], [ticked]] = [await shown(false), await shown(true)];
  assert.deepEqual([plain.settings.window, plain.found.value, ticked.found.value], [5, false, true]);
});

test("places count what is shown", async () => {
  const { plans, shows } = kept();
  await shows(A, [1, 3]);
  await shows(B, [2]);
  await shows(A, [1, 3]);
  assert.deepEqual(plans.without(1, ["1", "3"]), ["3"]);
  assert.deepEqual(plans.without(0, ["1", "3"]), ["1", "3"]);
  assert.deepEqual(plans.others, []);
  assert.deepEqual(await shows(B, []), ["1 of a.pcwt", "3 of a.pcwt"]);
  plans.makeRoom([]);
  assert.deepEqual(plans.others.map(({ settings: { link } }) => link), [1, 3]);
  plans.makeRoom(["2"]);
  assert.deepEqual(plans.others.map(({ settings: { link } }) => link), [3]);
});

test("an address that has as many plans as there may be leaves no room for those over another trace", async () => {
  const { plans, shows } = kept();
  await shows(A, [1, 2, 3]);
  assert.deepEqual(await shows(B, [4]), ["2 of a.pcwt", "3 of a.pcwt", "4"]);
  assert.deepEqual(await shows(B, [4, 5, 6]), ["4", "5", "6"]);
  assert.deepEqual(plans.others, []);
  assert.deepEqual(await shows(A, [1, 2, 3]), ["1", "2", "3"]);
});

test("a plan whose planner has ended is planned again, and one that is refused is not", async () => {
  const [ended, refused] = [new WorkerEnded("ended"), new Error("refused")];
  const answers = [{ refusal: ended }, { value: 1 }, { refusal: refused }, { value: 2 }];
  const plans = new KeptPlans(async () => answers.shift());
  const over = async (link) => (await plans.all(A, { kept: [{ link }], settings: { window: 5 } }))[0].found;
  assert.equal((await over(1)).refusal, ended);
  assert.deepEqual([await over(1), await over(1)], [{ value: 1 }, { value: 1 }]);
  assert.deepEqual([(await over(2)).refusal, (await over(2)).refusal], [refused, refused]);
});

test("an error that the worker does not expect is told in place of a plan", async () => {
  const client = new PlannerClient("planner", () => {});
  const asked = new Promise((resolve, reject) => { client.waiting.set(1, { resolve, reject }); });
  client.hear({ number: 1, failed: "Error: no list" });
  const { refusal } = await foundBy(() => asked);
  assert.deepEqual(refusedWords(refusal), { name: "the planner failed.", sentence: "It has a defect: Error: no list" });
});

test("a plan that comes after another trace was opened is not of that", async () => {
  const late = [];
  const plans = new KeptPlans((trace) => new Promise((come) => { late.push(() => come({ value: trace.digest })); }));
  const state = { kept: [{ link: 1 }], settings: { window: 5 } };
  const over = async (trace) => (await plans.all(trace, state)).map(({ found }) => found.value);
  plans.open(A, null);
  const first = over(A);
  plans.open(B, null);
  plans.forget();
  late.shift()();
  assert.deepEqual(await first, ["a"]);
  const second = over(B);
  late.shift()?.();
  assert.deepEqual(await second, ["b"]);
});

test("a plan over an example beside a kept one is asked by the same rules", () => {
  takeRules({ settings: () => ({ min: 1, max: 2 }), windowRefusal: () => 0 });
  const kept = stateIn("link=1Gbit&downtime=20ms&first=40&increase=5&rounds=7&skip=1&clark=1&start=9").settings;
  const found = withLimitsOf(kept, presetOf("gzip"), { pages: 25, pageBytes: 4_096 });
  for (const name of [...ROUND_SETTINGS, "clark", "link", "downtime", "reserve"]) {
    assert.deepEqual(found[name], kept[name], name);
  }
  assert.equal(found.start, presetOf("gzip").start);
});
