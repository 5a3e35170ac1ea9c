/**
 * Plans and predictions of pre-copy live migrations over recorded traces of a guest's writes.
 *
 * Names and numbers are those of the library for C: what `include/precopy.h` calls `precopy_trace_predict` is `predict`
 * of an `OpenTrace`. A tick is the unit of time of a trace, and a question says how long it is. Rates of settings and
 * plans are in pages per 1,000 ticks, and those of questions and answers in bytes a second.
 *
 * - Counts, pages and ticks of answers are numbers, and exact.
 * - Bytes and microseconds of answers are bigints, since they may be above 2^53. `Number` makes a number of one, and
 *   `JSON.stringify` takes none.
 * - All calls of an open trace compute in the thread that makes them.
 */

/** A whole number from 0 to 2^64 - 1, as a number below 2^53 or a bigint. Any other is a `RangeError`. */
export type Whole = number | bigint;

/** The sizes of a trace. */
export interface Sizes {
  /** A page has 2^shift bytes; 4 to 12. */
  readonly shift: number;
  /** The bytes of a page. */
  readonly pageLength: number;
  /** How many pages the trace has; 1 to 65,536. */
  readonly pages: number;
  /** How many writes the trace has; at most 1,048,576. */
  readonly writes: number;
  /** The tick of the last write, or 0 if there is none. */
  readonly last: number;
}

/** The settings of a plan, each with the default of SETTINGS_DEFAULT. Rates are in pages per 1,000 ticks. */
export interface Settings {
  /** The rate of the first round, and the least one; 1 to 1,000,000. By default 1,000. */
  min?: Whole;
  /** The greatest rate, and that of the final copy; min to 1,000,000. By default 5,000. */
  max?: Whole;
  /** What is added to a dirtying rate to get the next rate; at most 1,000,000. By default 500. */
  increment?: Whole;
  /** Rounds end after one in which fewer pages than this were dirtied; 1 to 65,536. By default 64. */
  threshold?: Whole;
  /** The most rounds; 1 to 64. By default 30. */
  rounds?: Whole;
  /** The tick at which the first round begins; below 2^40. By default 0. */
  start?: Whole;
  /** Of `windows` alone: the ticks of a window; 1 to 2^40. By default 1,000. */
  window?: Whole;
  /** The destination begins with the memory before this tick, or with nothing if it is null; at most start. */
  base?: Whole | null;
  /** Whether pages of a round that were written again are left out of it. By default false. */
  skip?: boolean;
}

/**
 * What is asked of a migration, with the defaults of QUESTION_DEFAULT for all but the link and the downtime.
 *
 * A hypervisor like QEMU sends with the whole link, and looks at its dirty bitmap again when the pages that are left go
 * over it within the downtime. Clark's plan goes round by round, at rates that follow the guest's. `first`,
 * `increment`, `rounds` and `skip` are of his rounds alone; but the ranges of `increment` and `rounds` are tested of
 * both.
 */
export interface Question {
  /** What the migration may use of the link, in bytes a second. */
  link: Whole;
  /** The longest downtime, in microseconds. */
  downtime: Whole;
  /** What the first round may use, in bytes a second, or the whole link if it is null. By default null. */
  first?: Whole | null;
  /** The part of the downtime that goes to other things than pages, in microseconds. By default 0. */
  reserve?: Whole;
  /** The length of a tick, in microseconds; 1 to 1,000,000. By default 1,000. */
  tick?: Whole;
  /** The bytes of a page of the trace; by default 4,096. */
  page?: Whole;
  /** How many of the guest's pages were recorded. By default 1. */
  sampled?: Whole;
  /** How many pages the guest has; if all were recorded, any number that `sampled` is too. By default 1. */
  guest?: Whole;
  /**
   * What is added to a dirtying rate, in pages per 1,000 ticks, or a tenth of what the link has above the first round
   * if it is null. By default null.
   */
  increment?: Whole | null;
  /** The most rounds; 1 to 64. By default 30. */
  rounds?: Whole;
  /** The tick at which the migration begins; below 2^40. By default 0. */
  start?: Whole;
  /** The destination begins with the memory before this tick, or with nothing if it is null; at most start. */
  base?: Whole | null;
  /** Whether pages of a round that were written again are left out of it. By default false. */
  skip?: boolean;
  /** Whether the plan goes by Clark's rounds, and not by a hypervisor's looks. By default false. */
  clark?: boolean;
}

/**
 * Why pre-copying ends. A plan of rounds ends since few pages are left (`few`), since the next rate would be above the
 * greatest (`fast`), or since all rounds are done (`rounds`). One of looks ends since few pages are left, since 2,000
 * looks are done (`looks`), or since the trace ends first: while the lists of pages get shorter (`cut`), or not
 * (`level`).
 */
export type Reason = "few" | "fast" | "rounds" | "looks" | "cut" | "level";

/**
 * Whether something is so. It is unknown if the trace ends before the migration does, and uncertain if chance, or the
 * start, decides, which `agreement` alone tells.
 */
export type Verdict = "yes" | "no" | "unknown" | "uncertain";

/** The sums of a plan. */
export interface Sums {
  /** How many rounds there are. */
  rounds: number;
  /** Why they end: `few`, `fast` or `rounds`. */
  reason: Reason;
  /** The tick at which the guest is stopped. */
  stop: number;
  /** The downtime, in ticks. */
  down: number;
  /** The pages that are sent, over all rounds and after the stop. */
  total: number;
}

/** A round of a plan: from one tick to before another. */
export interface Round {
  /** Its first tick. */
  from: number;
  /** The first tick after it. */
  to: number;
  /** Its rate, in pages per 1,000 ticks. */
  rate: number;
  /** Its number of pages. */
  pages: number;
  /** How many of them it sends. */
  sent: number;
  /** How many pages are written meanwhile. */
  dirtied: number;
}

/** A window of the trace with a write. */
export interface Window {
  /** Its number J: it has the ticks from J * window to (J + 1) * window - 1, by the `window` of the settings. */
  number: number;
  /** How many writes it has. */
  writes: number;
  /** How many different pages these go to. */
  pages: number;
  /** How many of the pages are also written in window J - 1. */
  again: number;
  /** How many of the pages are written in no earlier window. */
  fresh: number;
}

/** How far the draw of a sample moves a prediction: standard errors. */
export interface Errors {
  /** Of the bytes. */
  bytes: bigint;
  /** Of the time, in microseconds. */
  time: bigint;
  /** Of the downtime, in microseconds. */
  downtime: bigint;
}

/**
 * What a migration will be. If a verdict is unknown, both are, and of the rest only `recorded` tells something: by
 * rounds the other numbers are of a plan that goes on without writes after the trace has ended, and by looks of a guest
 * that is stopped there. A bigint that 64 bits do not hold is 2^64 - 1.
 */
export interface Prediction {
  /** How many rounds or looks there are. */
  rounds: number;
  /** Why they end. */
  reason: Reason;
  /** The tick at which the guest is stopped. */
  stop: number;
  /** How long the pages that are left take, in ticks. */
  down: number;
  /** The pages of the trace that are sent, before the stop and after it. */
  total: number;
  /** How many of them are sent after the stop. */
  left: number;
  /** From the start until the guest runs again, in microseconds. */
  time: bigint;
  /** How many bytes of the guest are sent. */
  bytes: bigint;
  /** How long the guest stands still, with the reserve, in microseconds. */
  downtime: bigint;
  /** How long the trace goes on after the start, in microseconds. */
  recorded: bigint;
  /** Whether it ends since few pages are left. */
  converges: Verdict;
  /** Whether the guest is stopped, and for no longer than the limit. */
  kept: Verdict;
  /** Null if fewer than 2 pages were sampled, more than 65,536, or all. */
  errors: Errors | null;
}

/** How sure a prediction is. Of the starts those count from which the migration ends within the trace. */
export interface Agreement {
  /** How often the pages of a sample are drawn again: 20, or 0 if there are no standard errors. */
  draws: number;
  /** In how many of these draws the migration ends within the trace. */
  drawsKnown: number;
  /** In how many it converges. */
  drawsConverging: number;
  /** In how many it keeps the downtime limit. */
  drawsKept: number;
  /** From how many of at most 21 starts, spread over the trace, it ends within it. */
  starts: number;
  /** From how many it converges. */
  startsConverging: number;
  /** From how many it keeps the downtime limit. */
  startsKept: number;
  /** Whether it surely converges. */
  converges: Verdict;
  /** Whether it surely keeps the downtime limit. */
  kept: Verdict;
}

/**
 * What is enough for the downtime limit of a question, each amount by itself. From a limit that is not kept the link
 * and the downtime are searched upwards, to 64 times what is asked; from one that is kept downwards, to a 64th. Links
 * are whole kilobits a second, so multiples of 125 bytes.
 */
export interface Amounts {
  /** Whether the limit is kept: the migration converges within the trace, with a downtime within the limit. */
  isKept: boolean;
  /** Whether the migration ends within the trace. */
  ends: boolean;
  /** The least link, in bytes a second, or null if no link that was tried keeps the limit. */
  link: bigint | null;
  /** The least downtime, in microseconds, or null if none that was tried keeps the limit. */
  downtime: bigint | null;
  /** To how many per cent of its speed the guest is slowed, or null if no such speed keeps it, or its own does. */
  speed: number | null;
  /** The least link with which the migration ends within the trace, or null if it ends with its own, or with none. */
  endingLink: bigint | null;
  /** The latest start from which it does, as a tick, or null if it does from its own, or from none that was tried. */
  endingStart: number | null;
}

/** Why a migration like QEMU ends: few pages are left, the trace ends first, or the start is after the trace. */
export type ForecastEnd = "few_left" | "trace_ends" | "not_begun";

/** What a migration comes to if its hypervisor goes on as QEMU does, whatever the question says of Clark's rounds. */
export interface Forecast {
  /** If the trace ends first, the numbers are of a guest that is stopped there. If it is not begun, they are 0. */
  end: ForecastEnd;
  /** How many looks there are. */
  looks: number;
  /** From the start until the guest runs again, in microseconds. */
  time: bigint;
  /** How many bytes of the guest are sent. */
  bytes: bigint;
  /** How many of them are sent after the stop. */
  left: bigint;
  /** How long the guest stands still, with the reserve, in microseconds. */
  downtime: bigint;
  /** Whether the downtime is within its limit; unknown unless few pages are left. */
  kept: Verdict;
}

/** A trace that stays open. It was tested once, and lies in memory of its own, which is freed with the object. */
export class OpenTrace {
  private constructor();

  /** The sizes of the trace. */
  readonly sizes: Sizes;

  /** The sums of the plan of settings. */
  plan(settings?: Settings): Sums;

  /** The rounds of the plan of settings, in order; at most 64. */
  rounds(settings?: Settings): Round[];

  /** The windows in which the guest writes, in order. Of the settings `window` alone counts, but all are tested. */
  windows(settings?: Settings): Window[];

  /** What the migration with the limits of a question will be. With standard errors it takes 20 more plans. */
  predict(question: Question): Prediction;

  /** How sure the verdicts of `predict` are. It takes the time of 62 plans, or of 22 if there are no draws. */
  agreement(question: Question): Agreement;

  /** What is enough for the limit of a question. It takes the time of some 35 plans, and of at most 187. */
  enough(question: Question): Amounts;

  /** What the migration comes to like QEMU. It takes the time of a plan. */
  forecast(question: Question): Forecast;
}

/**
 * Opens a trace, given as its bytes. They are copied, and may be changed once the promise is settled. It is rejected
 * with `TraceRefused` if they are no trace, with `NoMemory`, and with an `Error` if this Node has no WebAssembly memory
 * of 64-bit addresses.
 */
export function open(trace: ArrayBufferView | ArrayBufferLike): Promise<OpenTrace>;

/** A call refused. The message is the library's sentence about that. */
export class Refused extends Error {
  constructor(status: number, record?: number | null);

  /** The number of the status in the `enum precopy_status` of `include/precopy.h`. */
  readonly status: number;

  /** Its name there, without PRECOPY_, as BAD_LINK. */
  readonly code: string;

  /** The number of the record of the trace, from 0, or null if none is named. */
  readonly record: number | null;
}

/** The bytes are not a trace; statuses 1 to 15. */
export class TraceRefused extends Refused {}

/** A setting is out of its range, or one that a question makes; statuses 21 to 30. */
export class SettingsRefused extends Refused {}

/** A question is out of its range, or the trace is not as it says; statuses 81 to 89. */
export class QuestionRefused extends Refused {}

/** Memory ran out; status 16. */
export class NoMemory extends Refused {}

/** The settings that count where none are given. */
export const SETTINGS_DEFAULT: Readonly<Required<Settings>>;

/** What counts where a question does not say it. */
export const QUESTION_DEFAULT: Readonly<Required<Omit<Question, "link" | "downtime">>>;
