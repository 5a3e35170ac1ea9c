// A plan's outcome: the verdict, the plan beside those that are kept, and what was refused.

import { ControlRefusal } from "../model/asking.js";
import { LABELS } from "../model/control-list.js";
import { html } from "./elements.js";
import { briefBytes, briefTime } from "../model/brief.js";
import {
  bytesText, counted, countOf, errorTimeText, lengthText, momentText, pagesText, signed, timeText, unbroken,
} from "../model/numbers.js";
import {
  beginsLate, endingOf, isGood, isOfStill, isUnknown, reasonWords, warningsOf,
} from "../model/predictions.js";
import { WorkerEnded, WorkerFailed } from "../engine/planner-client.js";
import { Refusal } from "../engine/planner.js";
import {
  answerWords, isAwaited, isOfPlan, likelyBeyond, planMark, sureLine, sureWords, verdictsOf,
} from "../model/sureness.js";
import { microsOf } from "../model/units.js";
import { refusalWords } from "../model/refusals.js";

function sentText({ scale, plan, cost }) {
  const pages = pagesText(scale, plan.total);
  return scale.isSample ? `${countOf(cost.bytes / scale.page, "page")} of the guest; ${pages}` : pages;
}

function tickWords({ state }, words) {
  return state.ticks ? words : "";
}

/** The words of parts that say something. */
function joined(...parts) {
  return parts.filter(Boolean).join("; ");
}

/** A standard error, or that it is still to come. */
function errorText({ errors }, name, text) {
  return errors === undefined ? "\u00b1 \u2026" : errors && `\u00b1 ${text(errors[name])}`;
}

/**
 * The rows of the comparison: of a prediction, a number, its text, and more words. Of `isPrice` less is better. Of a
 * migration that ends after the trace there is nothing but the time that it takes at least.
 */
const ROWS = [
  { name: "downtime", title: "Downtime", isPrice: true, number: ({ cost }) => cost.downtime, text: timeText,
    more: (some) => joined(errorText(some, "downtime", errorTimeText), answerWords(some, "kept"),
      tickWords(some, `${countOf(some.plan.down, "tick")} for pages`)) },
  { name: "time", title: "Total time", isPrice: true, number: ({ cost }) => cost.time, text: timeText,
    more: (some) => joined(errorText(some, "time", errorTimeText),
      tickWords(some, `${countOf(some.plan.stop - some.settings.start, "tick")} of pre-copy`)),
    unknown: ({ cost }) => (cost.recorded > 0n ? `more than ${timeText(cost.recorded)}` : "unknown") },
  { name: "sent", title: "Sent", isPrice: true, number: ({ cost }) => cost.bytes, text: bytesText,
    more: (some) => joined(errorText(some, "bytes", bytesText), sentText(some)) },
  { name: "rounds", title: "", number: ({ plan }) => plan.steps, text: counted,
    more: (some) => joined(answerWords(some, "converges"), reasonWords(some)) },
  { name: "left", title: "Left at the stop", isPrice: true, isPages: true, number: ({ plan }) => plan.left,
    text: (pages, { scale }) => pagesText(scale, pages),
    more: ({ settings: { threshold } }) => (threshold === 1 ? "none left ends pre-copy"
      : `fewer than ${counted(threshold)} end pre-copy`) },
  { name: "stop", title: "Stop in the trace", isMoment: true, number: ({ plan, scale }) => microsOf(scale, plan.stop),
    text: (moment, { plan }) => (plan.isStopped ? momentText(moment) : "none"),
    more: (some) => tickWords(some, some.plan.isStopped ? `tick ${counted(some.plan.stop)}` : "") },
];

/** The verdict on a migration that ends after its trace. */
function unknownVerdict(prediction) {
  const { cost, last, scale } = prediction;
  if (beginsLate(prediction)) {
    return `The trace has ${unbroken(timeText(microsOf(scale, last)))}; it ends before the start.`;
  }
  const least = cost.recorded > 0n ? `, which takes more than ${unbroken(timeText(cost.recorded))}` : "";
  return `The trace ends before the migration does${least}: record longer.`;
}

function capital(words) {
  return words[0].toUpperCase() + words.slice(1);
}

/** Whether the limit is kept, and how sure that is, in a sentence. */
function pauseSentence(prediction, down, limit) {
  const { kept } = verdictsOf(prediction);
  const stands = prediction.plan.isStopped ? `the guest stands still for ${down}`
    : `the guest is not stopped, and what is left would take ${down}`;
  const isKept = `the limit of ${limit} is ${kept === "yes" ? "kept" : "not kept"}`;
  if (isOfPlan(prediction)) {
    return `${capital(stands)}; ${isKept}, by the plan alone.`;
  }
  const counts = sureWords(prediction, "kept");
  if (kept !== "uncertain") {
    return `${capital(stands)}; ${isKept}${kept === "yes" ? `, ${counts}` : ` (it is ${counts})`}.`;
  }
  const likely = likelyBeyond(prediction);
  const errors = likely === null ? ""
    : ` With two standard errors the downtime is ${unbroken(timeText(likely))}, and the limit is missed.`;
  return `By the plan ${stands}; it is uncertain whether the limit of ${limit} is kept (it is ${counts}).${errors}`;
}

/** The verdict on a prediction, in a line. */
export function verdictOf(prediction) {
  const { cost, limits } = prediction;
  if (isUnknown(prediction)) {
    return unknownVerdict(prediction);
  }
  const [down, limit] = [cost.downtime, limits.downtime].map((micros) => unbroken(timeText(micros)));
  if (isOfStill(prediction)) {
    return "It is uncertain whether it converges and keeps the limit: while it was recorded, the guest stood still, "
      + `and wrote nothing then. By the plan alone the downtime is ${down}; the limit is ${limit}.`;
  }
  return `${endingOf(prediction)} ${pauseSentence(prediction, down, limit)}`;
}

/** The word for verdicts, and whether they are good, bad or neither. */
function wordFor(verdicts, { total }) {
  if (verdicts.kept === "uncertain") {
    return ["mark", "Uncertain"];
  }
  if (total === 0) {
    return ["mark", "Nothing to send"];
  }
  if (isGood(verdicts)) {
    return ["mark good", "Keeps the limit"];
  }
  if (verdicts.kept === "yes" && verdicts.converges === "uncertain") {
    return ["mark", "Kept, perhaps not bounded"];
  }
  return ["mark bad", verdicts.kept === "no" ? "Misses the limit" : "Kept, but not bounded"];
}

/** The same for a prediction. What is of its plan alone is neither good nor bad. */
export function verdictMark(prediction) {
  if (isUnknown(prediction)) {
    return ["mark", "Unknown"];
  }
  const [className, word] = wordFor(verdictsOf(prediction), prediction.plan);
  return [isOfPlan(prediction) ? "mark" : className, `${word}${planMark(prediction)}`];
}

/** A pause beside its limit, with so many digits that two which differ look so, and one unit if both have the same. */
function pauseWords({ cost, limits }) {
  const [down, limit] = [cost.downtime, limits.downtime];
  const text = [briefTime, timeText, momentText].find((some) => some(down) !== some(limit)) ?? briefTime;
  const [pause, most] = [down, limit].map((micros) => unbroken(text(micros)));
  const [, unit] = pause.split("\u00a0");
  return `Pause ${pause} of ${most.replace(new RegExp(`^(\\S+)\u00a0${unit}$`), "$1")}`;
}

export function headlineWords(prediction) {
  const { cost } = prediction;
  if (isUnknown(prediction)) {
    return cost.recorded > 0n ? `Longer than the trace: more than ${lengthText(cost.recorded)}`
      : `The trace ends ${beginsLate(prediction) ? "before" : "at"} the start`;
  }
  return `${pauseWords(prediction)}, ${briefTime(cost.time)}, ${briefBytes(cost.bytes)}:`;
}

/** What a migration comes to, in one line, and how sure the verdict is, in another. */
export function headlineParts(prediction) {
  const [className, words] = verdictMark(prediction);
  const sure = sureLine(prediction);
  return [
    html("p", { class: "headline" }, `${headlineWords(prediction)} `, html("span", { class: className }, words)),
    ...(sure === "" ? [] : [html("p", { class: "sure" }, sure)]),
  ];
}

/** How the plan ends, and what speaks against it. */
export function reasonParts(prediction) {
  const warnings = warningsOf(prediction).map((sentence) => html("li", {}, sentence));
  return [
    html("p", { class: "verdict" }, verdictOf(prediction)),
    ...(warnings.length > 0 ? [html("ul", { class: "warnings" }, ...warnings)] : []),
  ];
}

const THIS_PLAN = "This plan";

function keptName(place) {
  return `Kept plan ${place + 1}`;
}

/** A number of a prediction, and more words; or that it is unknown. */
function cellWords(row, prediction) {
  return isUnknown(prediction) ? [row.unknown?.(prediction) ?? "unknown", ""]
    : [row.text(row.number(prediction), prediction), row.more(prediction)];
}

function cellOf(row, name, prediction, ...more) {
  const [words, others] = cellWords(row, prediction);
  return html("td", { role: "cell", "data-name": row.name, "data-plan": name }, html("b", {}, words), " ",
    html("small", {}, others), ...more);
}

/** How this plan differs from a kept one, and whether that is better or worse. */
function differenceOf(row, prediction, kept) {
  const difference = row.number(prediction) - row.number(kept);
  const words = unbroken(signed(difference, (amount) => row.text(amount, prediction)));
  const [className, mark] = difference == 0 || !row.isPrice ? ["difference", ""]
    : difference < 0 ? ["difference better", " \u25bc\u00a0better"] : ["difference worse", " \u25b2\u00a0worse"];
  return html("span", { class: className }, `this plan: ${words}${mark}`);
}

/** Whether a page of one trace stands for as much memory as one of another. */
function isSameScale(one, other) {
  return one.guest * one.page * other.sampled === other.guest * other.page * one.sampled;
}

/** Whether a number can be told apart of two plans: pages of one size, moments of one trace, steps of one kind. */
function isCompared({ title, isPages, isMoment }, prediction, { found: { value }, name }) {
  const isTold = isMoment ? !name && prediction.plan.isStopped && value.plan.isStopped
    : title !== "" || prediction.plan.isClark === value.plan.isClark;
  return ![prediction, value].some(isUnknown) && isTold
    && (!isPages || isSameScale(prediction.scale, value.scale));
}

function keptCell(row, prediction, kept, place) {
  const { found: { value } } = kept;
  if (!value) {
    return html("td", { role: "cell", "data-plan": keptName(place) }, "\u2013");
  }
  const differences = isCompared(row, prediction, kept) ? [differenceOf(row, prediction, value)] : [];
  return cellOf(row, keptName(place), value, ...differences);
}

/** The head of a kept plan's column, with the name of its trace if that is another, and what can be done with it. */
function keptHead({ name: trace }, place) {
  const name = keptName(place);
  const button = (kind, label, words) =>
    html("button", { type: "button", class: "small", [kind]: place, "aria-label": `${name}: ${label}` }, words);
  const exchange = trace ? [] : [button("data-exchanges", "exchange with this", "Exchange"), " "];
  return html("th", { scope: "col", role: "columnheader" }, name, " ", html("span", {}, ...exchange,
    button("data-drops", "drop", "Drop")), ...(trace ? [" ", html("bdi", { class: "trace-name" }, trace)] : []));
}

/** What plans have a number of. */
function stepsTitle(predictions) {
  const [ofRounds, ofLooks] = [true, false].map((kind) => predictions.some(({ plan }) => plan.isClark === kind));
  return ofRounds && ofLooks ? "Rounds or looks" : ofRounds ? "Rounds" : "Looks";
}

/**
 * The table of a plan, and beside it the plans that are kept, with the differences. Roles say that it is a table where
 * the style has the plans below each other.
 */
export function comparisonOf(prediction, kept) {
  const head = html("tr", { role: "row" }, html("td", { role: "cell" }),
    html("th", { scope: "col", role: "columnheader" }, THIS_PLAN), ...kept.map(keptHead));
  const steps = stepsTitle([prediction, ...kept.map(({ found }) => found.value).filter(Boolean)]);
  const rows = ROWS.map((row) => html("tr", { role: "row" },
    html("th", { scope: "row", role: "rowheader" }, row.title || steps), cellOf(row, THIS_PLAN, prediction),
    ...kept.map((some, place) => keptCell(row, prediction, some, place))));
  const caption = html("caption", { class: "hidden" }, "What the plan comes to");
  return html("table", { class: kept.length > 0 ? "comparison two" : "comparison", role: "table" }, caption,
    html("thead", { role: "rowgroup" }, head), html("tbody", { role: "rowgroup" }, ...rows));
}

/** The counts of an agreement that a file has, by the names of their columns. */
const COUNT_CELLS = [["redraws", "draws"], ["redraws_kept", "drawsKept"], ["redraws_converging", "drawsConverging"],
  ["starts", "starts"], ["starts_kept", "startsKept"], ["starts_converging", "startsConverging"]];

/** What a migration comes to as numbers; nothing if it ends after the trace. */
function priceCells(prediction) {
  const { cost, plan, scale } = prediction;
  return isUnknown(prediction) ? Array(6).fill("")
    : [cost.downtime, cost.time, cost.bytes, plan.steps, plan.left, plan.isStopped ? microsOf(scale, plan.stop) : ""];
}

/** The verdicts on a migration and the counts that say how sure they are, for a file; nothing that is still to come. */
function verdictCells(prediction) {
  const { agreement } = prediction;
  const { kept, converges } = isAwaited(prediction) ? { kept: "", converges: "" } : verdictsOf(prediction);
  return [kept, converges, ...COUNT_CELLS.map(([, name]) => agreement?.[name] ?? "")];
}

/** A plan, and those of the kept ones that are not refused, as columns and rows for a file. */
export function comparisonRows(prediction, kept) {
  const plans = [[THIS_PLAN, prediction], ...kept.map(({ found }, place) => [keptName(place), found.value])];
  const rows = plans.filter(([, some]) => some).map(([name, some]) => [name, ...priceCells(some),
    microsOf(some.scale, some.settings.start), isUnknown(some) ? "" : some.plan.reason, ...verdictCells(some),
    some.plan.isClark ? "rounds" : "looks"]);
  return [["plan", "downtime_us", "time_us", "sent_bytes", "rounds", "left_pages", "stop_us", "start_us", "reason",
    "kept", "converges", ...COUNT_CELLS.map(([column]) => column), "plan_by"], rows];
}

/** What was refused, in words: a name, and a sentence. */
export function refusedWords(error) {
  if (error instanceof WorkerFailed) {
    return { name: "the planner failed.", sentence: `It has a defect: ${error.message}` };
  }
  if (error instanceof WorkerEnded) {
    return { name: "the planner ended.", sentence: "It was started again, and ended again." };
  }
  return error instanceof ControlRefusal ? { name: LABELS[error.control], sentence: error.message }
    : refusalWords(error);
}

/** What was refused, as an element. A name that is a number is parted from its sentence. */
export function refusalPart(error, ...what) {
  const { name, sentence } = refusedWords(error);
  const said = error instanceof Refusal ? ` \u2013 ${sentence}` : ` ${sentence}`;
  return html("p", { class: "refusal" }, html("strong", {}, ...what.flatMap((part) => [part, " "]), name), said);
}
