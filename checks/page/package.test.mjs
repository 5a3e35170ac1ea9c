import assert from "node:assert/strict";
import { test } from "node:test";
import { runInNewContext } from "node:vm";
import * as planner from "precopy-planner";

const { open, OpenTrace, Refused, NoMemory, QuestionRefused, SettingsRefused, TraceRefused } = planner;
const { QUESTION_DEFAULT, SETTINGS_DEFAULT } = planner;

// A trace of four pages of 16 bytes, with a write to page 1 at tick 5.
const BYTES = Uint8Array.of(
  ...[80, 67, 87, 84, 1, 4, 0, 0, 4, 0, 0, 0, 1, 0, 0, 0], ...[5, 0, 0, 0, 0, 0, 0, 0, 1, 0, 0, 0, 0, 0, 1, 0, 7],
);
const SIZES = { shift: 4, pageLength: 16, pages: 4, writes: 1, last: 5 };
const trace = await open(BYTES);
const ASKED = { link: 1_000, downtime: 3_000, page: 16 };
const OF_SETTINGS = ["plan", "rounds", "windows"];
const OF_QUESTIONS = ["predict", "agreement", "enough", "forecast"];
// Each call, with what must be given, and all that may be.
const CALLS = [
  ...OF_SETTINGS.map((call) => ({ call, given: {}, whole: SETTINGS_DEFAULT })),
  ...OF_QUESTIONS.map((call) => ({ call, given: ASKED, whole: { ...QUESTION_DEFAULT, ...ASKED } })),
];

/** Runs an act while a method of WebAssembly is another. */
async function meanwhile(owner, name, other, act) {
  const kept = owner[name];
  owner[name] = other;
  try {
    return await act();
  } finally {
    owner[name] = kept;
  }
}

test("bytes of each kind are a trace, and are copied", async () => {
  const behind = new Uint8Array([1, 2, 3, ...BYTES, 4, 5]);
  const shared = new Uint8Array(new SharedArrayBuffer(BYTES.length));
  shared.set(BYTES);
  // Test runners give each file globals of its own.
  const foreign = runInNewContext(`new Uint8Array(${BYTES.length})`);
  foreign.set(BYTES);
  const kinds = [
    BYTES, Buffer.from(BYTES), BYTES.slice().buffer, behind.subarray(3, -2), new Uint8ClampedArray(BYTES), shared,
    shared.buffer, new DataView(behind.buffer, 3, BYTES.length), foreign, foreign.buffer,
  ];
  for (const kind of kinds) {
    assert.deepEqual((await open(kind)).sizes, SIZES);
  }
  const lent = BYTES.slice();
  const opened = await open(lent);
  lent.fill(0);
  assert.deepEqual(opened.windows(), [{ number: 0, writes: 1, pages: 1, again: 0, fresh: 1 }]);
});

test("what is no bytes is a TypeError", async () => {
  for (const other of [undefined, null, 5, 5n, "PCWT", [80, 67, 87, 84], {}, new Blob([BYTES])]) {
    await assert.rejects(open(other), { name: "TypeError", message: /^a trace is given as its bytes/ });
  }
});

test("several traces are open at once, and each answers for itself", async () => {
  const many = Uint8Array.from(BYTES);
  many[8] = 9;
  const both = await Promise.all([open(BYTES), open(many)]);
  assert.deepEqual(both.map(({ sizes }) => sizes.pages), [4, 9]);
  // A page goes in a tick, so the write at tick 5 comes after the round of four pages, and into that of nine.
  assert.deepEqual(both.map((it) => it.plan().total), [4, 10]);
});

test("a number is a number or a bigint, and what is not given is as in the defaults", () => {
  for (const { call, given, whole } of CALLS) {
    const wide = Object.entries(whole).map(([name, it]) => [name, typeof it === "number" ? BigInt(it) : it]);
    const answer = trace[call](given);
    assert.deepEqual(trace[call](Object.fromEntries(wide)), answer);
    assert.deepEqual(trace[call](whole), answer);
    assert.deepEqual(trace[call]({ ...given, start: undefined, skip: undefined, base: null }), answer);
  }
});

/** Tries a value in the place of each number of each call, and what is then thrown. */
function throwsFor(value, isThrown) {
  for (const { call, given, whole } of CALLS) {
    for (const [name, usual] of Object.entries(whole)) {
      if (typeof usual !== "boolean" && !(value === null && usual === null)) {
        assert.throws(() => trace[call]({ ...given, [name]: value }), (error) => isThrown(error, name));
      }
    }
  }
}

test("a number that is not whole, or not held by 64 bits, is a RangeError", () => {
  for (const other of [-1, -1n, 0.5, NaN, Infinity, -Infinity, 2 ** 53, 2n ** 64n, -(2n ** 64n)]) {
    throwsFor(other, (error, name) =>
      error.constructor === RangeError && error.message.startsWith(`${name} is ${other}: `));
  }
});

test("what is no number is a TypeError", () => {
  for (const other of ["1", "", true, null, [], {}, Symbol("1")]) {
    throwsFor(other, (error, name) => error.constructor === TypeError && error.message === `${name} is no number`);
  }
});

test("a number above 2^53 is refused for what it is, and not for what a number or 64 bits hold of it", () => {
  const statusOf = (call, given) => {
    try {
      trace[call](given);
    } catch (error) {
      return error.status;
    }
    return 0;
  };
  const settings = ["min", "max", "increment", "threshold", "rounds", "start", "window", "base"];
  const asked = ["link", "downtime", "first", "reserve", "tick", "page", "sampled", "guest"];
  const others = ["increment", "rounds", "start", "base"];
  for (const value of [2n ** 53n + 2n, 2n ** 64n - 1n]) {
    for (const call of OF_SETTINGS) {
      const found = settings.map((name) => statusOf(call, { [name]: value }));
      assert.deepEqual(found, [21, 22, 23, 24, 25, 28, 26, 30]);
    }
    for (const call of OF_QUESTIONS) {
      const found = [...asked, ...others].map((name) => statusOf(call, { ...ASKED, clark: true, [name]: value }));
      assert.deepEqual(found, [84, 87, 85, 86, 81, 82, 83, 83, 23, 25, 28, 30]);
    }
  }
});

test("a flag is true or false", () => {
  for (const { call, given, whole } of CALLS) {
    for (const name of Object.keys(whole).filter((it) => typeof whole[it] === "boolean")) {
      for (const other of [0, 1, 0n, null, "", "true"]) {
        const message = `${name} is not true or false`;
        assert.throws(() => trace[call]({ ...given, [name]: other }), { name: "TypeError", message });
      }
    }
  }
});

test("what is not asked for is named, and so is what is missing", () => {
  for (const { call, given } of CALLS) {
    for (const other of ["mim", "hot", "size", "hasBase", "__proto", "toString"]) {
      const message = new RegExp(`^(settings|questions) have no ${other}$`);
      assert.throws(() => trace[call]({ ...given, [other]: 1 }), { name: "TypeError", message });
    }
    for (const other of [null, 5, "all", ...("link" in given ? [undefined] : [])]) {
      assert.throws(() => trace[call](other), { name: "TypeError", message: /are given as an object$/ });
    }
  }
  for (const name of ["link", "downtime"]) {
    const message = `${name} is not given`;
    assert.throws(() => trace.predict({ ...ASKED, [name]: undefined }), { name: "TypeError", message });
  }
});

test("defaults and sizes stay as they are", () => {
  for (const fixed of [SETTINGS_DEFAULT, QUESTION_DEFAULT, trace.sizes]) {
    assert.throws(() => { fixed.start = 1; }, TypeError);
    assert.throws(() => { fixed.last = 1; }, TypeError);
  }
  const before = trace.forecast({ ...ASKED, start: 9 });
  trace.forecast({ ...ASKED, start: 9 }).end = "few_left";
  assert.deepEqual(trace.forecast({ ...ASKED, start: 9 }), before);
  assert.equal(before.end, "not_begun");
});

test("a refusal has its kind, and is an error", async () => {
  const refusals = [
    [TraceRefused, () => open(new Uint8Array(15))],
    [SettingsRefused, async () => trace.plan({ min: 0 })],
    [SettingsRefused, async () => trace.predict({ ...ASKED, rounds: 0 })],
    [QuestionRefused, async () => trace.predict({ ...ASKED, page: 32 })],
  ];
  for (const [Kind, act] of refusals) {
    const error = await act().then(() => null, (refused) => refused);
    assert.ok(error instanceof Kind && error instanceof Refused && error instanceof Error);
    assert.equal(error.name, Kind.name);
    assert.equal(Object.getPrototypeOf(error), Kind.prototype);
  }
  const { code, message } = new Refused(61);
  assert.deepEqual([code, message], ["UNKNOWN", "no status of this package"]);
  const longest = await open(new Uint8Array(2 ** 28 + 1)).catch((error) => error);
  assert.deepEqual([longest.name, longest.status, longest.record], ["TraceRefused", 15, null]);
  assert.equal(longest.message, "trace E15: it has more than 2^28 bytes");
});

test("no memory to lend is a refusal", async () => {
  const grow = () => { throw new RangeError("no"); };
  const opening = () => open(BYTES).catch((error) => error);
  const refused = await meanwhile(WebAssembly.Memory.prototype, "grow", grow, opening);
  assert.ok(refused instanceof NoMemory);
  assert.deepEqual([refused.status, refused.code, refused.message], [16, "NO_MEMORY", "memory ran out"]);
  assert.deepEqual((await open(BYTES)).sizes, SIZES);
});

test("without memory of 64-bit addresses it is said what has it", async () => {
  const refused = await meanwhile(WebAssembly, "validate", () => false, () => open(BYTES).catch((error) => error));
  assert.equal(refused.constructor, Error);
  assert.match(refused.message, /^this Node has no WebAssembly memory of 64-bit addresses: say node --experimental/);
});

test("what only a defect can refuse is no refusal of the caller", async () => {
  const { set: kept } = Uint8Array.prototype;
  function set(source, ...at) {
    if (source.buffer === BYTES.buffer) {
      throw new Error("no");
    }
    return kept.call(this, source, ...at);
  }
  const thrown = await meanwhile(Uint8Array.prototype, "set", set, () => open(BYTES).catch((error) => error));
  assert.equal(thrown.constructor, Error);
  assert.equal(thrown.message, "the engine refuses with 17, which is a defect of this package");
});
