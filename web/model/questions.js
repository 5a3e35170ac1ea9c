// Questions about a migration and their answers, as the module lays them out: in numbers of 64 bits, and after them of
// 32. Their meaning stands in `crates/predictions`.

import { AGREEMENT, ANSWER, ERRORS, FORECAST, QUESTION, REMEDIES, SETTINGS } from "./interface.js";

/** The module's reasons why a plan ends, and its verdicts. */
export const REASONS = ["few", "fast", "rounds", "looks", "cut", "level"];
const VERDICTS = ["yes", "no", "unknown", "uncertain"];

/** Why a migration like QEMU ends: few pages are left, the trace ends first, or it begins after the trace. */
const FORECAST_ENDS = ["few", "record", "none"];

/** Writes the fields of a struct; what is not given is 0. */
function write(view, at, { wide, narrow }, fields) {
  wide.forEach((name, place) => view.setBigUint64(at + 8 * place, BigInt(fields[name] ?? 0), true));
  narrow.forEach((name, place) => view.setUint32(at + 8 * wide.length + 4 * place, fields[name] ? 1 : 0, true));
}

/** Reads the fields of a struct: those of 64 bits as BigInt. */
function read(view, at, { wide, narrow }) {
  const words = wide.map((name, place) => [name, view.getBigUint64(at + 8 * place, true)]);
  const flags = narrow.map((name, place) => [name, view.getUint32(at + 8 * wide.length + 4 * place, true)]);
  return Object.fromEntries([...words, ...flags]);
}

/** Writes a question. A first round, an increment or a base of null is not given. */
export function writeQuestion(view, at, question) {
  const { first, increment, base } = question;
  const given = { hasFirst: first !== null, hasIncrement: increment !== null, hasBase: base !== null };
  write(view, at, QUESTION, { ...question, ...given });
}

/** Writes settings. A base of null is not given. */
export function writeSettings(view, at, settings) {
  write(view, at, SETTINGS, { ...settings, hot: settings.hot ?? 2, hasBase: settings.base !== null });
}

/** Reads an answer: counts and ticks as numbers, microseconds and bytes as BigInt, verdicts as words. */
export function readAnswer(view, at) {
  const { time, bytes, downtime, recorded, converges, kept, reason, ...counts } = read(view, at, ANSWER);
  const { rounds, stop, down, total, left } = counts;
  return {
    rounds: Number(rounds), reason: REASONS[reason], stop: Number(stop), down: Number(down), total: Number(total),
    left: Number(left), time, bytes, downtime, recorded, converges: VERDICTS[converges], kept: VERDICTS[kept],
  };
}

/** Reads standard errors, in bytes and microseconds, or null if there are none. */
export function readErrors(view, at) {
  const { bytes, time, downtime, hasErrors } = read(view, at, ERRORS);
  return hasErrors === 0 ? null : { bytes, time, downtime };
}

/** Reads how sure an answer is: counts of redraws and of starts as numbers, verdicts as words. */
export function readAgreement(view, at) {
  const { converges, kept, ...counts } = read(view, at, AGREEMENT);
  const numbers = Object.entries(counts).map(([name, count]) => [name, Number(count)]);
  return { ...Object.fromEntries(numbers), converges: VERDICTS[converges], kept: VERDICTS[kept] };
}

/**
 * Reads whether a limit is kept, and what keeps it: a link in bytes a second, a downtime in microseconds, and the speed
 * of the guest in per cent; whether the migration ends within the trace, and the link and the start that end it there.
 * What was not found is null.
 */
export function readRemedies(view, at) {
  const told = read(view, at, REMEDIES);
  const given = (name, hasName) => (told[hasName] === 0 ? null : told[name]);
  return {
    isKept: told.isKept !== 0, ends: told.ends !== 0, link: given("link", "hasLink"),
    downtime: given("downtime", "hasDowntime"), speed: given("speed", "hasSpeed"),
    endingLink: given("endingLink", "hasEndingLink"), endingStart: given("endingStart", "hasEndingStart"),
  };
}

/** Reads what comes of a migration like QEMU: microseconds and bytes as BigInt; null if it begins after the trace. */
export function readForecast(view, at) {
  const { end, looks, kept, ...costs } = read(view, at, FORECAST);
  return FORECAST_ENDS[end] === "none" ? null
    : { ...costs, end: FORECAST_ENDS[end], looks: Number(looks), kept: VERDICTS[kept] };
}
