// Plans and predictions of a trace in Node. The proved planner and its loader are those of the page, which `make js`
// puts beside this file. Names are those of the library for C: its precopy_trace_predict is `predict` of an open trace.

import { readFile } from "node:fs/promises";
import { types } from "node:util";
import { hasWideMemory, Planner, Refusal } from "./engine/planner.js";
import { STATUSES } from "./statuses.js";

const MODULE = new URL("planner.wasm", import.meta.url);

/** The module's numbers are below this. */
const END = 2n ** 64n;

/** The settings of PRECOPY_SETTINGS_DEFAULT, without what is of reports alone and no call here uses. */
export const SETTINGS_DEFAULT = Object.freeze({
  min: 1_000, max: 5_000, increment: 500, threshold: 64, rounds: 30, start: 0, window: 1_000, base: null, skip: false,
});

/** The question of PRECOPY_QUESTION_DEFAULT, without the link and the downtime, which each question says. */
export const QUESTION_DEFAULT = Object.freeze({
  first: null, reserve: 0, tick: 1_000, page: 4_096, sampled: 1, guest: 1, increment: null, rounds: 30, start: 0,
  base: null, skip: false, clark: false,
});

/** What must be said of a question. */
const LIMITS = { link: undefined, downtime: undefined };

/** Why a migration like QEMU ends, by the engine's words for that; and what is told of one that has not begun. */
const FORECAST_ENDS = { few: "few_left", record: "trace_ends" };
const NOT_BEGUN = { end: "not_begun", looks: 0, time: 0n, bytes: 0n, left: 0n, downtime: 0n, kept: "unknown" };

// ---- What is refused.

/** A call refused: `status` is the library's number for that, and `code` its name; `record` is that of the trace. */
export class Refused extends Error {
  constructor(status, record = null) {
    const [code, line] = STATUSES[status] ?? ["UNKNOWN", "no status of this package"];
    super(record === null ? line : `${line} (record ${record})`);
    this.name = new.target.name;
    this.status = status;
    this.code = code;
    this.record = record;
  }
}

/** The bytes are not a trace. */
export class TraceRefused extends Refused {}

/** A setting is out of its range, or one that a question makes. */
export class SettingsRefused extends Refused {}

/** A question is out of its range, or the trace is not as it says. */
export class QuestionRefused extends Refused {}

/** Memory ran out. */
export class NoMemory extends Refused {}

/** The kinds of refusals, each with the last of its statuses. */
const KINDS = [[15, TraceRefused], [16, NoMemory], [40, SettingsRefused], [90, QuestionRefused]];

/** What is thrown in place of what the engine throws. */
function thrown(error) {
  if (!(error instanceof Refusal)) {
    return error;
  }
  const { number, record } = error;
  if (STATUSES[number] === undefined) {
    return new Error(`the engine refuses with ${number}, which is a defect of this package`);
  }
  const [, Kind] = KINDS.find(([last]) => number <= last);
  return new Kind(number, record);
}

// ---- What is asked.

function whole(name, value) {
  if (typeof value === "number" && !Number.isSafeInteger(value)) {
    throw new RangeError(`${name} is ${value}: a number is whole and below 2^53; a bigint may be greater`);
  }
  if (typeof value !== "number" && typeof value !== "bigint") {
    throw new TypeError(`${name} is ${value === undefined ? "not given" : "no number"}`);
  }
  if (value < 0 || value >= END) {
    throw new RangeError(`${name} is ${value}: it is 0 to 2^64 - 1`);
  }
  return BigInt(value);
}

function flag(name, value) {
  if (typeof value !== "boolean") {
    throw new TypeError(`${name} is not true or false`);
  }
  return value;
}

/** The value of a field, where undefined stands for the usual one. Only what is usually null may be null. */
function field(name, usual, given) {
  const value = given === undefined ? usual : given;
  if (value === null && usual === null) {
    return null;
  }
  return typeof usual === "boolean" ? flag(name, value) : whole(name, value);
}

/** The fields of an object, as the engine takes them; what is not given is as in `defaults`. */
function filled(what, defaults, given) {
  if (typeof given !== "object" || given === null) {
    throw new TypeError(`${what} are given as an object`);
  }
  const unknown = Object.keys(given).find((name) => !Object.hasOwn(defaults, name));
  if (unknown !== undefined) {
    throw new TypeError(`${what} have no ${unknown}`);
  }
  return Object.fromEntries(Object.entries(defaults).map(([name, usual]) => [name, field(name, usual, given[name])]));
}

function settingsOf(given) {
  return filled("settings", SETTINGS_DEFAULT, given);
}

function questionOf(given) {
  return filled("questions", { ...LIMITS, ...QUESTION_DEFAULT }, given);
}

function bytesOf(trace) {
  if (ArrayBuffer.isView(trace)) {
    return new Uint8Array(trace.buffer, trace.byteOffset, trace.byteLength);
  }
  if (types.isAnyArrayBuffer(trace)) {
    return new Uint8Array(trace);
  }
  throw new TypeError("a trace is given as its bytes: a Uint8Array, or an ArrayBuffer");
}

// ---- What is answered.

function numberOrNull(amount) {
  return amount === null ? null : Number(amount);
}

/** A trace that stays open: its bytes were tested once, and lie in a memory of its own. */
export class OpenTrace {
  #planner;

  constructor(planner) {
    const { pageBytes, ...sizes } = planner.sizes;
    this.#planner = planner;
    this.sizes = Object.freeze({ shift: Math.log2(pageBytes), pageLength: pageBytes, ...sizes });
  }

  /** What a call of the planner answers. */
  #told(call, asked) {
    try {
      return this.#planner[call](asked);
    } catch (error) {
      throw thrown(error);
    }
  }

  /** The sums of the plan of settings. */
  plan(settings = {}) {
    const { rounds, reason, stop, down, total } = this.#told("plan", settingsOf(settings));
    return { rounds: rounds.length, reason, stop, down, total };
  }

  /** The rounds of the plan of settings, in order. */
  rounds(settings = {}) {
    return this.#told("plan", settingsOf(settings)).rounds;
  }

  /** The windows in which the guest writes, in order. */
  windows(settings = {}) {
    const asked = settingsOf(settings);
    // The engine counts windows by a number. A window of 2^53 ticks is refused as each longer one is.
    const window = Number(asked.window < 2n ** 53n ? asked.window : 2n ** 53n);
    const { count, number, writes, pages, again, fresh } = this.#told("windows", { ...asked, window });
    return Array.from({ length: count }, (_, row) => ({
      number: number[row], writes: writes[row], pages: pages[row], again: again[row], fresh: fresh[row],
    }));
  }

  /** What the migration with the limits of a question will be. */
  predict(question) {
    const asked = questionOf(question);
    const { rows, ...told } = this.#told("predict", asked);
    return { ...told, errors: this.#told("errors", asked) };
  }

  /** How sure the verdicts of `predict` are. */
  agreement(question) {
    return this.#told("agreement", questionOf(question));
  }

  /** Whether the limit of a question is kept, and the least amounts that keep it. */
  enough(question) {
    const { speed, endingStart, ...told } = this.#told("remedies", questionOf(question));
    return { ...told, speed: numberOrNull(speed), endingStart: numberOrNull(endingStart) };
  }

  /** What the migration comes to if its hypervisor goes on as QEMU does. */
  forecast(question) {
    const told = this.#told("forecast", questionOf(question));
    return told === null ? { ...NOT_BEGUN } : { ...told, end: FORECAST_ENDS[told.end] };
  }
}

/** The module, which is compiled once. */
let module = null;

function compiled() {
  if (!hasWideMemory()) {
    throw new Error("this Node has no WebAssembly memory of 64-bit addresses: say node --experimental-wasm-memory64, "
      + "or take a later Node");
  }
  module ??= readFile(MODULE).then((bytes) => WebAssembly.compile(bytes));
  return module;
}

/** Opens a trace, given as its bytes, which are tested and copied. */
export async function open(trace) {
  const bytes = bytesOf(trace);
  const planner = Planner.open(await compiled(), bytes.length, [bytes]);
  return new OpenTrace(await planner.catch((error) => { throw thrown(error); }));
}
