// Predictions in words: how a plan ends, what speaks against it, and the words that set the same limits elsewhere. What
// a migration comes to is the module's answer, as that of `precopy-view predict`.

import { askedOf, OWN_INCREMENT } from "./asking.js";
import { hostCommands } from "./hosts.js";
import { bytesText, counted, countOf, timeText } from "./numbers.js";
import { commandWord } from "./quantities.js";
import { isOfPlan, sureWords, verdictsOf } from "./sureness.js";
import { limitsOf, RATE_UNITS, scaleOf, TIME_UNITS } from "./units.js";

/** If fewer pages than these are left, chance moves the downtime by more than a tenth. */
const MANY_PAGES = 100;

/** What keeps a limit where nothing is sure: nothing is offered. */
const NOTHING_SURE = {
  isUncertain: true, isKept: false, ends: true, link: null, downtime: null, speed: null, endingLink: null,
  endingStart: null,
};

/** Whether no verdict over a trace is sure: its guest stood still while it was recorded. */
function isUnsure({ record }) {
  return Boolean(record?.still);
}

/** An answer over a trace. Where none is sure its verdicts are `uncertain`, but for what is unknown in any case. */
export function answerOver(trace, answer) {
  return answer && isUnsure(trace) && answer.kept !== "unknown"
    ? { ...answer, converges: "uncertain", kept: "uncertain" } : answer;
}

/**
 * What keeps a limit over a trace, by the module's answer: undefined while that is still to come. Where the plan keeps
 * it and that is not sure, nothing is offered.
 */
export function remediesOver(trace, cost, agreement, remedies) {
  if (isUnsure(trace)) {
    return { ...NOTHING_SURE, isStill: true };
  }
  const isSure = !isGood(cost) || (agreement && isGood(agreement));
  return isSure ? remedies : agreement && NOTHING_SURE;
}

/** What a migration costs by an answer, in microseconds and bytes, and the verdicts. */
export function costIn({ time, bytes, downtime, recorded, converges, kept }) {
  return { time, bytes, downtime, recorded, converges, kept };
}

/** Asks what the migration will be by the state of the controls. Throws a refusal. Its standard errors come later. */
export async function predictionOf(guest, state) {
  const { sizes } = guest;
  const { question, settings } = askedOf(state, sizes);
  const { rows, ...answer } = await guest.predict(question);
  const { rounds: steps, reason, stop, down, total, left } = answer;
  const isClark = question.clark;
  return {
    state, question, settings, scale: scaleOf(state, sizes), limits: limitsOf(state), last: sizes.last,
    plan: { rounds: rows, steps, isClark, isStopped: isClark || reason === "few", reason, stop, down, total, left },
    cost: costIn(answer),
  };
}

/** Whether an answer, or what a migration costs by it, keeps its limit and comes down to it. */
export function isGood({ kept, converges }) {
  return kept === "yes" && converges === "yes";
}

/** Whether the trace ends before the migration does, so that nothing is known of it. */
export function isUnknown({ cost }) {
  return cost.kept === "unknown";
}

/** Whether a migration begins after the last tick of its trace. */
export function beginsLate({ settings, last }) {
  return settings.start > last;
}

/** Whether nothing that is told of a migration is sure, since its guest stood still. */
export function isOfStill({ cost }) {
  return cost.kept === "uncertain";
}

/** The tick at which a plan is over: if it stops the guest, when the rest is sent. */
export function endOf({ stop, down, isStopped }) {
  return isStopped ? stop + down : stop;
}

/** Whether the limit is kept, in words. */
export function keptWords({ kept }) {
  return { yes: "kept", no: "not kept", unknown: "unknown", uncertain: "uncertain" }[kept];
}

/** Why pre-copy ends, in words. */
export function reasonWords({ plan, settings, scale }) {
  const pages = scale.isSample ? "pages of the sample" : "pages";
  return {
    few: settings.threshold === 1 ? "no page was left"
      : `fewer than ${counted(settings.threshold)} ${pages} were left`,
    fast: "the guest writes faster than the link sends",
    rounds: `all ${countOf(settings.rounds, "round")} that are allowed are done`,
    looks: `${counted(plan.steps)} looks are done`,
    cut: "the trace ends first",
    level: "the trace ends first, and the lists did not get shorter",
  }[plan.reason];
}

/** How a plan that ends within the trace ends, and how sure that is, in a sentence. */
export function endingOf(prediction) {
  const [verdict, reason] = [verdictsOf(prediction).converges, reasonWords(prediction)];
  if (isOfPlan(prediction)) {
    return `It ${verdict === "yes" ? "converges" : "does not converge"}, by the plan alone: ${reason}.`;
  }
  const counts = sureWords(prediction, "converges");
  return {
    yes: `It converges, ${counts}: ${reason}.`,
    no: `It does not converge (it does ${counts}): ${reason}.`,
    uncertain: `It is uncertain whether it converges (it does ${counts}): by the plan ${reason}.`,
  }[verdict];
}

/** What comes of a plan like QEMU, in the words of `precopy-view predict`. */
export function forecastWords({ end, looks, time, bytes, left, downtime, kept }) {
  const told = end === "record"
    ? [`the trace ends first, looks ${looks}`, `sent ${bytesText(bytes - left)}`, `left ${bytesText(left)}`]
    : [`looks ${looks}`, `time ${timeText(time)}`, `sent ${bytesText(bytes)}`,
      `downtime ${timeText(downtime)}`, keptWords({ kept })];
  return `Like QEMU: ${told.map((words) => words.replaceAll(" ", "\u00a0")).join(", ")}`;
}

/** What speaks against a prediction, a sentence each. */
export function warningsOf(prediction) {
  if (isUnknown(prediction)) {
    return [];
  }
  const { plan, settings } = prediction;
  const warnings = [];
  if (plan.total === 0 && settings.base !== null) {
    warnings.push("No page is written between the copy and the start, so nothing is sent: take an earlier copy.");
  } else if (plan.left < MANY_PAGES) {
    warnings.push("Fewer than 100 pages decided the stop: a real migration may stop earlier or later, and its downtime "
      + "differ by more than a tenth.");
  }
  if (plan.reason === "fast") {
    warnings.push("Pre-copy gave up, so nothing bounds the downtime: give more of the link.");
  }
  if (plan.reason === "rounds") {
    warnings.push("Rounds ran out, so nothing bounds the downtime: allow more rounds.");
  }
  if (!plan.isStopped) {
    warnings.push("A hypervisor goes on, and takes longer: give more of the link.");
  }
  return warnings;
}

function baseWords({ base }) {
  return base === null ? "" : ` --base ${base}`;
}

function skipWord({ skip }) {
  return skip ? " --skip" : "";
}

/** The limits of a state as options of `precopy-view`. */
function limitWords(state, sizes, { limits, settings, scale, plan: { isClark } }) {
  const words = [`${isClark ? "--clark " : ""}--link ${commandWord(state.link, RATE_UNITS)}`];
  if (isClark && state.first !== 100) {
    words.push(`--first ${limits.first / RATE_UNITS.Kbit}Kbit`);
  }
  if (isClark && state.increase !== OWN_INCREMENT) {
    words.push(`--inc ${settings.increment}`);
  }
  words.push(`--downtime ${commandWord(state.downtime, TIME_UNITS)}`);
  words.push(`--reserve ${commandWord(state.reserve, TIME_UNITS)}`, `--tick ${commandWord(state.tick, TIME_UNITS)}`);
  if (sizes.pageBytes !== 4096) {
    words.push(`--page ${sizes.pageBytes}`);
  }
  if (scale.isSample) {
    words.push(`--sampled ${scale.sampled}/${scale.guest}`);
  }
  return words.join(" ");
}

/** The words that ask for this migration, and that give hypervisors the same limits; with notes where needed. */
export function commandsOf(state, sizes, prediction, firstStart) {
  const { limits, settings, plan: { isClark } } = prediction;
  const rates = `--min ${settings.min} --max ${settings.max} --inc ${settings.increment}`;
  const said = limitWords(state, sizes, prediction);
  const rounds = isClark ? ` --rounds ${settings.rounds}` : "";
  const more = `${baseWords(settings)}${skipWord(settings)} < TRACE`;
  const live = `precopy live ${rates} --threshold ${settings.threshold}${rounds} --start ${settings.start}${more}`;
  return {
    predict: { words: `precopy-view predict ${said}${rounds} --start ${settings.start}${more}` },
    when: { words: `precopy-view when ${said}${rounds} --from ${firstStart}${more}` },
    // A live migration goes by Clark's rounds.
    live: { words: isClark ? live : "" },
    ...hostCommands(limits, state.link),
  };
}
