// Numbers and quantities as people type them: with commas or spaces between thousands, without a digit before the
// point, with or without a unit.

import { quantityIn, quantityOf } from "./quantities.js";
import { RATE_UNITS, TIME_UNITS } from "./units.js";

/** A number, and what follows it. */
const TYPED = /^(\d{1,3}(?:[, \u00a0\u2009\u202f]\d{3})+|\d+)?(?:\.(\d*))?\s*(\D*)$/u;

/** Other words for units. What could be bits or bytes, as `mb`, is none. */
const RATE_WORDS = new Map(Object.keys(RATE_UNITS).filter((unit) => !/^.B$/.test(unit))
  .map((unit) => [unit.toLowerCase(), unit]));
for (const [letter, name] of [["k", "Kbit"], ["m", "Mbit"], ["g", "Gbit"]]) {
  RATE_WORDS.set(`${letter}bps`, name);
}
for (const letter of "KMG") {
  RATE_WORDS.set(`${letter}b/s`, `${letter}bit`);
  RATE_WORDS.set(`${letter}Bps`, `${letter}B`);
}
const TIME_WORDS = new Map([
  ["\u00b5s", "us"], ["\u03bcs", "us"], ["msec", "ms"], ["sec", "s"], ["min", "m"],
  ...[["microsecond", "us"], ["millisecond", "ms"], ["second", "s"], ["minute", "m"], ["hour", "h"]]
    .flatMap(([word, unit]) => [[word, unit], [`${word}s`, unit]]),
  ...["us", "ms", "s", "m", "h"].map((unit) => [unit, unit]),
]);

/** The unit that a word says, of those of rates or of times; undefined if it says none. */
function unitIn(word, units) {
  if (units === RATE_UNITS) {
    const plain = word.replace(/\/s(ec)?$/, "");
    const isOfBytes = /^.Bps$/i.test(plain) && plain.includes("B");
    return Object.hasOwn(RATE_UNITS, plain) ? plain
      : RATE_WORDS.get(word) ?? RATE_WORDS.get(isOfBytes ? plain : plain.toLowerCase());
  }
  return TIME_WORDS.get(word) ?? TIME_WORDS.get(word.toLowerCase());
}

/** The number that is typed as a plain decimal, and the word after it; null if none is. */
function partsOf(text) {
  const [, whole = "", rest = "", word] = TYPED.exec(text.trim()) ?? [];
  const isNumber = word !== undefined && whole + rest !== "";
  return isNumber ? { number: `${whole.replace(/\D/g, "") || "0"}${rest && `.${rest}`}`, word: word.trim() } : null;
}

/** The quantity that is typed, in its own unit if that is typed too, else in this one; null if none is. */
export function typedQuantity(text, unit, units) {
  const parts = partsOf(text);
  if (parts === null) {
    return null;
  }
  const said = parts.word === "" ? unit : unitIn(parts.word, units);
  return said === undefined ? null
    : quantityOf(parts.number, said, units) ?? quantityIn(`${parts.number}${said}`, units);
}

/** The ticks that are typed: as a time, or if it is said so as ticks; null if it is neither. */
export function typedTicks(text, tick, isInTicks) {
  const parts = partsOf(text);
  if (parts === null || tick === 0n) {
    return null;
  }
  if (/^ticks?$/.test(parts.word) || (parts.word === "" && isInTicks)) {
    return /^\d{1,15}$/.test(parts.number) ? Number(parts.number) : null;
  }
  const time = typedQuantity(text, "s", TIME_UNITS);
  return time === null ? null : Number(BigInt(time.amount) / tick);
}

/** The number that is typed, with no word after it but those of its control; null if none is. */
export function typedNumber(text, words = []) {
  const parts = partsOf(text);
  return parts !== null && (parts.word === "" || words.includes(parts.word)) ? parts.number : null;
}
