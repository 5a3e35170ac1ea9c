// The proved planner. It is a WebAssembly module that allocates nothing: this file lends it memory, and no other file
// touches that memory. Addresses and lengths are BigInt, since the memory has 64-bit addresses.

import { AGREEMENT, ANSWER, ERRORS, FORECAST, QUESTION, REMEDIES, ROUND, SETTINGS, SUMS } from "../model/interface.js";
import {
  readAgreement, readAnswer, readErrors, readForecast, readRemedies, REASONS, writeQuestion, writeSettings,
} from "../model/questions.js";

/** The most bytes of a trace. */
const MOST_TRACE_BYTES = 2 ** 28;

/** The most pages of a trace, the most rounds of a plan, and the most answers of which one is chosen. */
const MOST_PAGES = 65_536;
export const MOST_ROUNDS = 64;
const MOST_ANSWERS = 512;

/** Bytes of the structs and rows that the module reads and writes, and that the library does not have. */
const SIZES_SIZE = 24;
const CHOICE_SIZE = 16;
const WINDOW_SIZE = 40;
const TOUCH_SIZE = 16;
const PAGE_MARK_SIZE = 8;

/** Bytes of a page of WebAssembly memory. */
const MEMORY_PAGE = 65_536;

/** The bytes of a start among which one is chosen: an answer, and its standard errors. */
const START_SIZE = ANSWER.size + ERRORS.size;

/** What the module answers if memory was not there to lend, if a trace is too long, and if it could not be read. */
const NO_MEMORY = 16;
const TOO_LONG = 15;
export const READ_FAULT = 17;

/** A module with one memory of 64-bit addresses, and nothing else. */
const WIDE_MEMORY = new Uint8Array([0, 0x61, 0x73, 0x6d, 1, 0, 0, 0, 5, 3, 1, 4, 1]);

/** A refusal by its number; for a record of a trace, with the record's number from 0. */
export class Refusal extends Error {
  constructor(number, record = null) {
    super(`refusal ${number}`);
    this.number = number;
    this.record = record;
  }
}

/** Whether this browser has WebAssembly memory of 64-bit addresses. */
export function hasWideMemory() {
  return typeof WebAssembly === "object" && WebAssembly.validate(WIDE_MEMORY);
}

function alignedUp(address) {
  return Math.ceil(address / 8) * 8;
}

/** What is thrown in place of an error of the engine: a Refusal if memory ran out. */
function refusedFor(error) {
  return error instanceof RangeError ? new Refusal(NO_MEMORY) : error;
}

/** An instance of a module. Its first memory may be more than there is. */
async function instanceOf(module) {
  try {
    return await WebAssembly.instantiate(module, {});
  } catch (error) {
    throw refusedFor(error);
  }
}

/** Makes a memory longer by this many of its pages. Node 20 takes a number where others take a BigInt. */
function grow(memory, pages) {
  try {
    memory.grow(BigInt(pages));
  } catch (error) {
    if (!(error instanceof TypeError)) {
      throw error;
    }
    memory.grow(pages);
  }
}

/** Where each buffer lies that does not depend on the trace. */
function placesFrom(base) {
  const lengths = {
    record: 8, sizes: SIZES_SIZE, settings: SETTINGS.size, sums: SUMS.size, count: 8, rounds: MOST_ROUNDS * ROUND.size,
    question: QUESTION.size, answers: MOST_ANSWERS * START_SIZE, errors: ERRORS.size, choice: CHOICE_SIZE,
    remedies: REMEDIES.size, forecast: FORECAST.size, agreement: AGREEMENT.size,
    marks: MOST_PAGES / 8, bits: 3 * MOST_PAGES / 8, list: 2 * MOST_PAGES * 4, pageMarks: MOST_PAGES * PAGE_MARK_SIZE,
  };
  const places = {};
  let at = alignedUp(base);
  for (const [name, length] of Object.entries(lengths)) {
    places[name] = at;
    at = alignedUp(at + length);
  }
  places.trace = at;
  return places;
}

/** Planner over one trace, whose bytes lie in the module's memory. Rates are in pages per 1,000 ticks. */
export class Planner {
  constructor(instance) {
    this.calls = instance.exports;
    this.places = placesFrom(Number(this.calls.__heap_base.value));
    this.length = 0;
    this.sizes = null;
  }

  /**
   * Makes a planner over a trace of `size` bytes, which come in pieces. Throws a Refusal if they are no trace, if there
   * is no memory for them, or if they could not be read.
   */
  static async open(module, size, pieces) {
    if (size > MOST_TRACE_BYTES) {
      throw new Refusal(TOO_LONG);
    }
    const planner = new Planner(await instanceOf(module));
    planner.reserve(planner.places.trace + size);
    await planner.read(size, pieces);
    planner.check();
    return planner;
  }

  /** Makes a planner without a trace, which makes settings of limits. */
  static async withoutTrace(bytes) {
    const { instance } = await WebAssembly.instantiate(bytes, {});
    const planner = new Planner(instance);
    planner.reserve(planner.places.trace);
    return planner;
  }

  /** Makes the memory so long that `end` is its end or inside of it. */
  reserve(end) {
    const missing = end - this.calls.memory.buffer.byteLength;
    if (missing <= 0) {
      return;
    }
    try {
      grow(this.calls.memory, Math.ceil(missing / MEMORY_PAGE));
    } catch (error) {
      throw refusedFor(error);
    }
  }

  async read(size, pieces) {
    const bytes = new Uint8Array(this.calls.memory.buffer, this.places.trace, size);
    try {
      for await (const piece of pieces) {
        bytes.set(piece, this.length);
        this.length += piece.length;
      }
    } catch {
      throw new Refusal(READ_FAULT);
    }
    if (this.length !== size) {
      throw new Refusal(READ_FAULT);
    }
  }

  check() {
    const { record, sizes } = this.places;
    const number = this.calls.lent_check_trace(...this.slice("trace", this.length), BigInt(sizes), BigInt(record));
    if (number !== 0) {
      throw new Refusal(number, number >= 8 && number <= 13 ? this.view().getUint32(record, true) : null);
    }
    const view = this.view();
    this.sizes = {
      pageBytes: 2 ** view.getUint32(sizes, true),
      pages: view.getUint32(sizes + 4, true),
      writes: view.getUint32(sizes + 8, true),
      last: Number(view.getBigUint64(sizes + 16, true)),
    };
    this.places.touches = alignedUp(this.places.trace + this.length);
    this.places.rows = this.places.touches + this.sizes.writes * TOUCH_SIZE;
    this.reserve(this.places.rows);
  }

  /** The bytes of the trace, as they lie in the module's memory. */
  traceBytes() {
    return new Uint8Array(this.calls.memory.buffer, this.places.trace, this.length);
  }

  view() {
    return new DataView(this.calls.memory.buffer);
  }

  /** The address and the length of a buffer, as arguments. */
  slice(name, length) {
    return [BigInt(this.places[name]), BigInt(length)];
  }

  /** Calls the module, and throws what it refuses. `input` is the place of settings or of a question. */
  ask(name, input, more) {
    const number = this.calls[name](...this.slice("trace", this.length), BigInt(this.places[input]), ...more);
    if (number !== 0) {
      throw new Refusal(number);
    }
  }

  /** The settings that a question makes. Throws the Refusal of what is out of its range. */
  settings(question) {
    const { question: at, settings } = this.places;
    writeQuestion(this.view(), at, question);
    const number = this.calls.lent_question(BigInt(at), BigInt(settings));
    if (number !== 0) {
      throw new Refusal(number);
    }
    const [min, max, increment, threshold, rounds, start] = this.numbersAt(settings, 6);
    return { min, max, increment, threshold, rounds, start, base: question.base, skip: question.skip };
  }

  /** The number of the refusal of a length of windows, or 0. */
  windowRefusal(length) {
    writeSettings(this.view(), this.places.settings, {
      min: 1, max: 1, increment: 0, threshold: 1, rounds: 1, start: 0, window: length, base: null, skip: false,
    });
    return this.calls.lent_check_settings(BigInt(this.places.settings));
  }

  /** The room for a plan, as arguments. */
  planRoom() {
    const { pages, writes } = this.sizes;
    return [
      ...this.slice("touches", writes), ...this.slice("marks", Math.ceil(pages / 64)), ...this.slice("list", pages),
      ...this.slice("rounds", MOST_ROUNDS),
    ];
  }

  /** The bytes of the answer to a question: what the migration will be. Throws what is refused. */
  answerBytes(question) {
    writeQuestion(this.view(), this.places.question, question);
    this.ask("lent_predict", "question", [...this.planRoom(), BigInt(this.places.answers)]);
    return new Uint8Array(this.calls.memory.buffer.slice(this.places.answers, this.places.answers + ANSWER.size));
  }

  /** The answer to a question, with a row for each of Clark's rounds if it goes by them. */
  predict(question) {
    this.answerBytes(question);
    const answer = readAnswer(this.view(), this.places.answers);
    return { ...answer, rows: question.clark ? this.roundRows(answer.rounds) : [] };
  }

  /** The standard errors of the answer to a question, or null if there are none. */
  errors(question) {
    writeQuestion(this.view(), this.places.question, question);
    this.ask("lent_errors", "question", [
      ...this.slice("touches", this.sizes.writes), ...this.slice("list", 2 * MOST_PAGES),
      ...this.slice("bits", 3 * MOST_PAGES / 64), BigInt(this.places.errors),
    ]);
    return readErrors(this.view(), this.places.errors);
  }

  /** How sure the answer to a question is. It takes as long as 62 plans, and as 22 if no pages were sampled. */
  agreement(question) {
    writeQuestion(this.view(), this.places.question, question);
    this.ask("lent_agreement", "question", [
      ...this.slice("touches", this.sizes.writes), ...this.slice("bits", 3 * MOST_PAGES / 64),
      ...this.slice("list", 2 * MOST_PAGES), ...this.slice("rounds", MOST_ROUNDS), BigInt(this.places.agreement),
    ]);
    return readAgreement(this.view(), this.places.agreement);
  }

  /** Whether the limit of a question is kept, and what keeps it. It takes as long as 35 plans, and at most 187. */
  remedies(question) {
    writeQuestion(this.view(), this.places.question, question);
    this.ask("lent_remedies", "question", [...this.planRoom(), BigInt(this.places.remedies)]);
    return readRemedies(this.view(), this.places.remedies);
  }

  /** What comes of a question if the hypervisor goes on as QEMU does. It takes about as long as a plan. */
  forecast(question) {
    const { pages, writes } = this.sizes;
    writeQuestion(this.view(), this.places.question, question);
    this.ask("lent_forecast", "question", [
      ...this.slice("touches", writes), ...this.slice("marks", Math.ceil(pages / 64)), ...this.slice("list", pages),
      BigInt(this.places.forecast),
    ]);
    return readForecast(this.view(), this.places.forecast);
  }

  /** The standard errors of the answer to a question as bytes. */
  errorBytes(question) {
    this.errors(question);
    return new Uint8Array(this.calls.memory.buffer).slice(this.places.errors, this.places.errors + ERRORS.size);
  }

  /**
   * The places of the best and the worst of some answers to a question, given as their bytes; null if none tells
   * anything. Their standard errors are given in the same way, or null if they are not counted.
   */
  chosen(answers, errors, { downtime, clark }) {
    const memory = new Uint8Array(this.calls.memory.buffer);
    const nothing = new Uint8Array(ERRORS.size);
    answers.forEach((bytes, place) => {
      const at = this.places.answers + place * START_SIZE;
      memory.set(bytes, at);
      memory.set(errors[place] ?? nothing, at + ANSWER.size);
    });
    const starts = this.slice("answers", answers.length);
    const choice = BigInt(this.places.choice);
    const known = this.calls.lent_chosen_starts(...starts, BigInt(downtime), clark ? 1 : 0, choice);
    if (known === 0n) {
      return { best: null, worst: null };
    }
    const [best, worst] = this.numbersAt(this.places.choice, 2);
    return { best, worst };
  }

  /** A row for each of the rounds that the module wrote last. */
  roundRows(count) {
    return Array.from({ length: count }, (_, place) => {
      const [from, to, rate, pages, sent, dirtied] = this.numbersAt(this.places.rounds + place * ROUND.size, 6);
      return { from, to, rate, pages, sent, dirtied };
    });
  }

  /** The plan of settings: its sums, and a row for each round. Throws the Refusal of settings out of range. */
  plan(settings) {
    writeSettings(this.view(), this.places.settings, settings);
    this.ask("lent_plan", "settings", [...this.planRoom(), BigInt(this.places.sums)]);
    const [count, reason, stop, down, total] = this.numbersAt(this.places.sums, 5);
    const rounds = this.roundRows(count);
    return { rounds, reason: REASONS[reason], stop, down, total, left: rounds[count - 1].dirtied };
  }

  numbersAt(address, count) {
    const numbers = new BigUint64Array(this.calls.memory.buffer, address, count);
    return Array.from(numbers, Number);
  }

  /** The windows with a write, as columns of numbers; each window has `settings.window` ticks. */
  windows(settings) {
    const { pages, writes, last } = this.sizes;
    const rows = writes === 0 ? 0 : Math.min(writes, Math.floor(last / Math.max(1, settings.window)) + 1);
    this.reserve(this.places.rows + rows * WINDOW_SIZE);
    writeSettings(this.view(), this.places.settings, settings);
    this.ask("lent_windows", "settings", [
      ...this.slice("touches", writes), ...this.slice("pageMarks", pages), ...this.slice("rows", rows),
      BigInt(this.places.count),
    ]);
    const [count] = this.numbersAt(this.places.count, 1);
    return this.windowColumns(count);
  }

  windowColumns(count) {
    const halves = new Uint32Array(this.calls.memory.buffer, this.places.rows, count * (WINDOW_SIZE / 4));
    const columns = {
      count, number: new Float64Array(count), writes: new Uint32Array(count), pages: new Uint32Array(count),
      again: new Uint32Array(count), fresh: new Uint32Array(count),
    };
    for (let row = 0, at = 0; row < count; row += 1, at += WINDOW_SIZE / 4) {
      columns.number[row] = halves[at] + halves[at + 1] * 2 ** 32;
      columns.writes[row] = halves[at + 2];
      columns.pages[row] = halves[at + 4];
      columns.again[row] = halves[at + 6];
      columns.fresh[row] = halves[at + 8];
    }
    return columns;
  }
}
