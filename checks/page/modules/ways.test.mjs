import assert from "node:assert/strict";
import { test } from "node:test";
import { KeptPlans } from "../../../web/model/kept-plans.js";
import { firstPlace } from "../../../web/model/search.js";
import { firstWay } from "../../../web/model/ways.js";

test("the first way that ends within the trace is told, and each is asked for in turn", () => {
  const ways = ["few digits", "all digits"].map((name) => ({ name, question: name }));
  const told = (answers) => firstWay(ways, (question) => answers[question]);
  assert.equal(told({}).ask.name, "few digits");
  assert.equal(told({ "few digits": { kept: "no" } }).found.name, "few digits");
  assert.equal(told({ "few digits": { kept: "unknown" } }).ask.name, "all digits");
  assert.equal(told({ "few digits": null, "all digits": { kept: "yes" } }).found.answer.kept, "yes");
  assert.equal(told({ "few digits": null, "all digits": null }).found, null);
});

test("a place is found where something begins to hold", () => {
  for (let first = 0; first <= 20; first += 1) {
    assert.equal(firstPlace(20, (place) => place >= first), first);
  }
});

test("kept plans stay with the name of their trace, up to a bound", async () => {
  const plans = new KeptPlans(async (_, settings) => ({ value: { settings } }));
  const trace = (name) => ({ digest: name, sizes: { last: 9 }, source: { name } });
  const state = { kept: [{ rounds: 1 }, { rounds: 2 }], settings: { window: 5 } };
  plans.open(trace("one"), null);
  const shown = { trace: trace("one"), kept: await plans.all(trace("one"), state) };
  plans.open(trace("two"), shown);
  assert.deepEqual(plans.others.map(({ name, settings: { rounds } }) => [name, rounds]), [["one", 1], ["one", 2]]);
  plans.makeRoom([{ rounds: 3 }]);
  assert.deepEqual(plans.others.map(({ settings: { rounds } }) => rounds), [2]);
  assert.deepEqual(plans.without(1, [{ rounds: 3 }]), []);
  assert.equal(plans.others.length, 1);
});
