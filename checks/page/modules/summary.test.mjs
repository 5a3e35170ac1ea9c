import assert from "node:assert/strict";
import { test } from "node:test";
import { WorkerEnded, WorkerFailed } from "../../../web/engine/planner-client.js";
import { ControlRefusal } from "../../../web/model/asking.js";
import { PlanView } from "../../../web/views/plan-view.js";

/** The line at the foot of a narrow page, of what was refused. */
function summaryFor(refusal) {
  const made = () => ({ childNodes: [], setAttribute: () => {}, append: () => {} });
  const found = new Map();
  const byId = (name) => found.get(name) ?? found.set(name, made()).get(name);
  const body = made();
  globalThis.document = { getElementById: byId, createElement: made, body, activeElement: body };
  Object.assign(Object.create(PlanView.prototype), { last: null }).drawVerdict({ refusal });
  return byId("summary").textContent;
}

test("at the foot of the page a planner that gave no answer is not laid to the settings", () => {
  assert.equal(summaryFor(new WorkerEnded("the worker ended")), "No plan: the planner ended.");
  assert.equal(summaryFor(new WorkerFailed("Error: no list")), "No plan: the planner failed.");
  assert.equal(summaryFor(new ControlRefusal("link", "There is no number.")), "No plan with these settings");
});
