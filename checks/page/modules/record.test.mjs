import assert from "node:assert/strict";
import { readFileSync } from "node:fs";
import { test } from "node:test";
import { differencesFrom, FIELDS, OPTIONAL, recordIn, RecordRefusal } from "../../../web/model/record.js";
import { TraceDesk } from "../../../web/views/trace-desk.js";

const TRACE = { sizes: { pages: 1_000, writes: 5_000, last: 4_999 }, digest: "0".repeat(64) };
const RECORD = {
  format: "precopy sample 1", trace_sha256: TRACE.digest, trace_pages: 1_000, trace_writes: 5_000, first_tick: 10,
  last_tick: 4_999, tick_seconds: 0.001, guest_pages: 1 << 22, guest_nonzero: 1 << 21, counted_pages: 1 << 20,
  sampled_pages: 2_000, sampled_nonzero: 1_000, method: "writes",
};
const read = (more) => recordIn(JSON.stringify({ ...RECORD, ...more }), TRACE);

test("a record says what ticks, pages and the start stand for", () => {
  const record = read({});
  const sample = { part: 1_000, whole: 1 << 21 };
  assert.deepEqual(record, { tick: 1_000, start: 10, sample, doubt: "", still: "" });
  const settings = { tick: { amount: 1_000 }, sample: { part: 1_000, whole: 1 << 21 }, start: 5_000 };
  assert.deepEqual(differencesFrom(record, settings), []);
  const late = read({ first_tick: 6_000, last_tick: 6_000 });
  assert.deepEqual([late.start, differencesFrom(late, { ...settings, start: 4_999 })], [4_999, []]);
  const others = { tick: { amount: 2 }, sample: null, start: 0 };
  assert.deepEqual(differencesFrom(record, others), ["tick", "sample", "start"]);
});

/** The record that comes with each trace of some files, by their names. */
async function recordsBeside(names) {
  let sources = [];
  const desk = Object.create(TraceDesk.prototype, {
    early: { value: null }, openFirst: { value: (some) => { sources = some; } },
  });
  await desk.takeFiles(names.map((name) => ({ name, size: 2, text: async () => "{}" })), {});
  return sources.map(({ name, record }) => [name, record?.name ?? null]);
}

test("of several records each trace has that of its name, or else the first", async () => {
  const pairs = [["a.pcwt", "a.json"], ["B.pcwt", "b.json"], ["c", "c.json"], ["d.pcwt", "b.json"]];
  const names = ["a.pcwt", "b.json", "B.pcwt", "c", "a.json", "c.json", "d.pcwt"];
  assert.deepEqual(await recordsBeside(names), pairs);
  assert.deepEqual(await recordsBeside(["a.pcwt", "other.json"]), [["a.pcwt", "other.json"]]);
  assert.deepEqual(await recordsBeside(["a.pcwt"]), [["a.pcwt", null]]);
});

test("no record makes a guest that is larger than it is", () => {
  for (const found of [1, 2, 10, 500, 1_000]) {
    const { sample, doubt } = read({ sampled_nonzero: found });
    assert.ok(sample.whole <= RECORD.guest_pages, `${found}: ${sample.whole}`);
    assert.equal(doubt === "", found === 1_000, `${found}: ${doubt}`);
  }
});

test("fields that do not go together are refused by their names", () => {
  const wrong = {
    trace_pages: 999, trace_writes: 1, trace_sha256: "1".repeat(64), first_tick: 5_000, last_tick: 4_998,
    sampled_pages: 999, counted_pages: 1_999, sampled_nonzero: 1_001, guest_nonzero: 999, format: "other",
    tick_seconds: 2, method: "constructor",
  };
  for (const [name, value] of Object.entries(wrong)) {
    const isRight = (error) => error instanceof RecordRefusal && error.field === name;
    assert.throws(() => read({ [name]: value }), isRight, name);
  }
  for (const share of [-0.1, 1.1, "1", null]) {
    assert.throws(() => read({ ran_share: share }), /\u201cran_share\u201d has a value that it cannot have/);
  }
  assert.throws(() => recordIn(null, TRACE), /too long/);
  assert.throws(() => recordIn(undefined, TRACE), /could not be read/);
  assert.throws(() => recordIn("{", TRACE), /no JSON/);
});

test("a guest that ran for less than 99 per cent of the recording stood still", () => {
  for (const share of [0.99, 0.995, 1]) {
    assert.equal(read({ ran_share: share }).still, "");
  }
  assert.equal(read({ ran_share: 0.9 }).still, "The guest stood still for 10.0 % of the recording.");
  assert.equal(read({ ran_share: 0 }).still, "The guest stood still for 100.0 % of the recording.");
});

const readJson = (path) => JSON.parse(readFileSync(new URL(`../../../${path}`, import.meta.url), "utf8"));
const SCHEMA = readJson("docs/record.schema.json");
// Fields that the planner has no use for, and values that a trace of the planner does not have.
const IGNORED = ["interval_seconds", "seed", "samples", "late", "taken_at", "taken_of"];
const NARROWER = { trace_sha256: ["x".repeat(64)], tick_seconds: [1.5, 2.5], sampled_pages: [1e9] };
const KEYWORDS = {
  type: (value, type) => (type === "integer" ? Number.isInteger(value) : typeof value === type),
  enum: (value, some) => some.includes(value),
  minLength: (value, least) => value.length >= least,
  maxLength: (value, most) => value.length <= most,
  minimum: (value, least) => value >= least,
  maximum: (value, most) => value <= most,
  exclusiveMinimum: (value, below) => value > below,
  exclusiveMaximum: (value, above) => value < above,
};

/** Whether the schema takes a value of a field. The type comes first: other keywords are of values that have it. */
function isTaken(name, value) {
  const { $ref, description, ...own } = SCHEMA.properties[name];
  const { type, ...others } = $ref ? SCHEMA.$defs[$ref.replace("#/$defs/", "")] : own;
  return Object.entries({ type, ...others }).every(([word, given]) => KEYWORDS[word](value, given));
}

test("the reader has the fields of the published schema", () => {
  const { properties, required } = SCHEMA;
  assert.deepEqual([...Object.keys(FIELDS), ...IGNORED].sort(), Object.keys(properties).sort());
  assert.deepEqual(OPTIONAL, Object.keys(properties).filter((name) => !required.includes(name)));
});

test("the reader takes of each field what the published schema takes", () => {
  const values = readJson("checks/recording/field_values.json");
  for (const [name, holds] of Object.entries(FIELDS)) {
    const other = values.filter((value) => holds(value) !== isTaken(name, value));
    assert.deepEqual(other, NARROWER[name] ?? [], name);
    assert.ok(other.every((value) => isTaken(name, value)), name);
    assert.ok(values.some((value) => !isTaken(name, value)), name);
  }
});

test("whether the section of the trace is in sight is told by the last of several entries", () => {
  const notice = { hidden: false, addEventListener: () => {} };
  globalThis.document = { getElementById: () => notice };
  let told = null;
  globalThis.IntersectionObserver = class {
    constructor(act) {
      told = (...seen) => act(seen.map((isIntersecting) => ({ isIntersecting })));
    }

    observe() {}
  };
  const desk = Object.create(TraceDesk.prototype);
  desk.watchSight();
  told(true, false);
  assert.deepEqual([desk.isSeen, notice.hidden], [false, false]);
  told(false, true);
  assert.deepEqual([desk.isSeen, notice.hidden], [true, true]);
});
