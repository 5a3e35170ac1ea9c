// The record NAME.json that tools/record writes beside NAME.pcwt: what it says of ticks, start and guest.

import { counted, countOf } from "./numbers.js";

const FORMAT = "precopy sample 1";
const METHODS = ["writes", "values", "trace"];

/** What records of earlier versions do not tell. */
export const OPTIONAL = ["ran_share"];

/** A guest that ran for less of the time than this was not recorded as it is. */
const LEAST_SHARE = 0.99;

/** The longest of such a file, in bytes. */
export const MOST_RECORD_BYTES = 65_536;

/** Of some records that of a trace by its name, or else the first; undefined if there is none. */
export function recordBeside(trace, records) {
  const wanted = trace?.name.toLowerCase().replace(/(\.pcwt)?$/, ".json");
  return records.find(({ name }) => name.toLowerCase() === wanted) ?? records[0];
}

/** Why a record is refused: the field, and a sentence. */
export class RecordRefusal extends Error {
  constructor(field, sentence) {
    super(sentence);
    this.field = field;
  }
}

function isCount(value, least) {
  return Number.isSafeInteger(value) && value >= least;
}

/** What each field that the page reads must be. */
export const FIELDS = {
  format: (value) => value === FORMAT,
  trace_sha256: (value) => /^[0-9a-f]{64}$/.test(value),
  trace_pages: (value) => isCount(value, 1),
  trace_writes: (value) => isCount(value, 0),
  first_tick: (value) => isCount(value, 0),
  last_tick: (value) => isCount(value, 0),
  tick_seconds: (value) => typeof value === "number" && value >= 1e-6 && value <= 1
    && Math.abs(Math.round(value * 1e6) - value * 1e6) <= 1e-6,
  guest_pages: (value) => isCount(value, 1) && value <= 2 ** 32,
  guest_nonzero: (value) => isCount(value, 0),
  counted_pages: (value) => isCount(value, 1),
  sampled_pages: (value) => isCount(value, 1) && value <= 65_536,
  sampled_nonzero: (value) => isCount(value, 0),
  method: (value) => METHODS.includes(value),
  ran_share: (value) => typeof value === "number" && value >= 0 && value <= 1,
};

/** What the fields of a record must be by the trace beside it, and by one another. */
function requireFits(fields, { sizes, digest }) {
  const { sampled_pages: drawn, counted_pages: counted, guest_pages: guest } = fields;
  const rules = [
    ["trace_pages", fields.trace_pages === sizes.pages],
    ["trace_writes", fields.trace_writes === sizes.writes],
    ["trace_sha256", digest === null || fields.trace_sha256 === digest],
    ["first_tick", fields.first_tick <= fields.last_tick],
    ["last_tick", fields.last_tick >= sizes.last],
    ["sampled_pages", sizes.pages <= drawn && drawn <= guest],
    ["counted_pages", drawn <= counted && counted <= guest],
    ["sampled_nonzero", fields.sampled_nonzero <= sizes.pages],
    ["guest_nonzero", fields.sampled_nonzero <= fields.guest_nonzero && fields.guest_nonzero <= guest],
  ];
  const broken = rules.find(([, holds]) => !holds);
  if (broken) {
    const value = String(fields[broken[0]]);
    throw new RecordRefusal(broken[0], `${broken[0]} is ${value.slice(0, 24)}, which does not go with this trace and `
      + "the other fields.");
  }
}

function fieldsOf(text) {
  if (text === undefined) {
    throw new RecordRefusal("file", "It could not be read.");
  }
  if (text === null) {
    throw new RecordRefusal("size", `It is too long: a record has at most ${counted(MOST_RECORD_BYTES)} bytes.`);
  }
  let fields = null;
  try {
    fields = JSON.parse(text);
  } catch {
    throw new RecordRefusal("JSON", "It is no JSON.");
  }
  if (fields === null || typeof fields !== "object") {
    throw new RecordRefusal("JSON", "It is no JSON object.");
  }
  for (const [name, holds] of Object.entries(FIELDS)) {
    const isGiven = Object.hasOwn(fields, name);
    if (!isGiven && !OPTIONAL.includes(name)) {
      throw new RecordRefusal(name, `The field \u201c${name}\u201d is missing.`);
    }
    if (isGiven && !holds(fields[name])) {
      throw new RecordRefusal(name, `The field \u201c${name}\u201d has a value that it cannot have.`);
    }
  }
  return fields;
}

/**
 * The pages of the trace, and for how many of the guest they stand: those that are not zero, if they were counted and
 * come to no more than the guest has.
 */
function sampleOf({
  guest_nonzero: nonzero, sampled_nonzero: found, guest_pages: guest, sampled_pages: drawn, trace_pages: part,
}) {
  const isCounted = nonzero > 0 && found > 0 && part * nonzero <= found * guest;
  const weight = isCounted ? nonzero / found : guest / drawn;
  return { part, whole: Math.max(part, Math.round(part * weight)) };
}

/** So many standard errors are between counts of which one is doubted. */
const DOUBTED = 6;

/** What is unlikely of the pages that are not zero, in a sentence; nothing if it may well be. */
function doubtOf({
  guest_nonzero: nonzero, sampled_nonzero: found, guest_pages: guest, sampled_pages: drawn, counted_pages: counts,
}) {
  const share = nonzero / guest;
  const variance = drawn * share * (1 - share) * (1 + drawn / counts);
  const isLikely = Math.abs(found - drawn * share) <= DOUBTED * Math.sqrt(Math.max(1, variance));
  return isLikely ? "" : `${countOf(found, "page")} of ${counted(drawn)} in the sample, and ${counted(nonzero)} of `
    + `${counted(guest)} in the guest, are said to be not zero, which is unlikely.`;
}

/** For how much of a recording the guest stood still, in a sentence; nothing if it ran, or if that is not told. */
function stillOf({ ran_share: share = 1 }) {
  return share >= LEAST_SHARE ? "" : `The guest stood still for ${(100 * (1 - share)).toFixed(1)} % of the recording.`;
}

export function isSameSample(one, other) {
  const wordOf = (some) => (some === null || some.part === some.whole ? "all" : `${some.part}/${some.whole}`);
  return wordOf(one) === wordOf(other);
}

/** In what settings are other than a record says: a start may be later than that of the recording. */
export function differencesFrom(record, settings) {
  const differs = {
    tick: settings.tick.amount !== record.tick,
    sample: !isSameSample(settings.sample, record.sample),
    start: settings.start < record.start,
  };
  return Object.keys(differs).filter((name) => differs[name]);
}

/**
 * What a record says of a trace. Its text is null if it is too long, and undefined if it could not be read. Throws a
 * RecordRefusal by the name of the field that is not right.
 */
export function recordIn(text, trace) {
  const fields = fieldsOf(text);
  requireFits(fields, trace);
  const sample = sampleOf(fields);
  return {
    tick: Math.round(fields.tick_seconds * 1e6),
    // A guest that wrote nothing has a trace that ends before its recording begins.
    start: Math.min(fields.first_tick, trace.sizes.last),
    sample: sample.whole > sample.part ? sample : null,
    doubt: doubtOf(fields),
    still: stillOf(fields),
  };
}
