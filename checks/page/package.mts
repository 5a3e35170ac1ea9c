// Uses the package for Node as its types allow. Each line below a @ts-expect-error must be refused by them.

import {
  open, QUESTION_DEFAULT, QuestionRefused, Refused, SETTINGS_DEFAULT, TraceRefused,
  type Agreement, type Amounts, type Errors, type Forecast, type ForecastEnd, type OpenTrace, type Prediction,
  type Question, type Reason, type Round, type Settings, type Sizes, type Sums, type Verdict, type Whole, type Window,
} from "precopy-planner";

const trace: OpenTrace = await open(new Uint8Array(16));
await open(new ArrayBuffer(16));
await open(new DataView(new ArrayBuffer(16)));
const sizes: Sizes = trace.sizes;
const settings: Settings = { min: 500, max: 4_000n, base: null, skip: true };
const question: Question = { link: 16n << 20n, downtime: 3_000, first: null };
const link: Whole = question.link;
const sums: Sums = trace.plan();
const rounds: Round[] = trace.rounds(settings);
const windows: Window[] = trace.windows({ window: 100 });
const found: Prediction = trace.predict(question);
const errors: Errors | null = found.errors;
const sure: Agreement = trace.agreement(question);
const least: Amounts = trace.enough({ ...QUESTION_DEFAULT, link, downtime: 1 });
const forecast: Forecast = trace.forecast(question);
const words: [Reason, Verdict, Verdict, ForecastEnd] = [sums.reason, found.kept, sure.converges, forecast.end];
const time: bigint = found.time + forecast.time + (errors?.time ?? 0n) + (least.link ?? 0n);
const count: number = sizes.pages + rounds.length + windows.length + sure.draws + (least.endingStart ?? 0);
const refused: Refused = new TraceRefused(8, 3);
const told: [number, string, number | null] = [refused.status, refused.code, refused.record];
export const all = [words, time, count, told, SETTINGS_DEFAULT.min, refused instanceof QuestionRefused];

// @ts-expect-error: bytes are a bigint
const bytes: number = found.bytes;
// @ts-expect-error: there may be no standard errors
found.errors.time;
// @ts-expect-error: there may be no such link
least.link + 1n;
// @ts-expect-error: a question says its link
trace.predict({ downtime: 1 });
// @ts-expect-error: a question is needed
trace.enough();
// @ts-expect-error: there is no such setting
trace.plan({ mim: 1 });
// @ts-expect-error: a start is not left out by null
trace.plan({ start: null });
// @ts-expect-error: a flag is no number
trace.forecast({ ...question, clark: 1 });
// @ts-expect-error: a text has no bytes
await open("PCWT");
// @ts-expect-error: sizes stay
sizes.pages = 1;
// @ts-expect-error: a default stays
SETTINGS_DEFAULT.min = 1;
// @ts-expect-error: no verdict is a reason
const reason: Reason = found.kept;
// @ts-expect-error: a trace is open by `open` alone
new (trace.constructor as typeof OpenTrace)();
