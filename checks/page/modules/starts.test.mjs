import assert from "node:assert/strict";
import { test } from "node:test";
import { WorkerEnded } from "../../../web/engine/planner-client.js";
import { StartsView } from "../../../web/views/starts-view.js";

/** Elements of a page by their names, which keep what is put into them. */
function elements() {
  const made = () => ({
    classList: { toggle: () => {} }, setAttribute: () => {}, append: () => {},
    replaceChildren(...parts) { this.parts = parts; },
  });
  const found = new Map();
  const byId = (name) => found.get(name) ?? found.set(name, made()).get(name);
  const body = { ...made(), isConnected: true, closest: () => null };
  globalThis.document = { getElementById: byId, createElement: made, body, activeElement: body };
  return byId;
}

function predicted(link, start = 0) {
  return {
    settings: { min: link, max: link, start, window: 5, base: null }, limits: { link: BigInt(link) },
    scale: { tick: 1_000n }, question: { clark: false }, state: { ticks: false }, cost: { kept: "yes" },
  };
}

/** A section over a trace whose worker ends, with what it shows of an answer. */
function section() {
  const byId = elements();
  const starts = async () => { throw new WorkerEnded("the worker ended"); };
  const view = Object.assign(Object.create(StartsView.prototype), {
    trace: { sizes: { last: 9 }, starts }, asked: null, failed: null, question: 0, isAsking: false,
    changed: () => {}, announce: () => {},
  });
  return { view, isSaid: () => byId("starts-answer").hidden === false };
}

test("why starts have no answer is said until another question would be asked", async () => {
  const { view, isSaid } = section();
  view.follow(predicted(1), 0);
  await view.ask();
  for (const same of [predicted(1), predicted(1, 7), undefined]) {
    view.follow(same, 0);
    assert.equal(isSaid(), true);
  }
  view.follow(predicted(2), 0);
  assert.equal(isSaid(), false);
  view.follow(predicted(1), 0);
  assert.equal(isSaid(), false);
});

test("why starts have no answer is said also if the settings have changed while they were planned", async () => {
  const { view, isSaid } = section();
  view.follow(predicted(1), 0);
  const asked = view.ask();
  view.follow(predicted(2), 0);
  await asked;
  view.follow(predicted(2), 0);
  assert.equal(isSaid(), true);
  view.follow(predicted(3), 0);
  assert.equal(isSaid(), false);
});
