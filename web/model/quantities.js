// Rates and times as the controls say them: an amount in bytes a second or microseconds, and the unit that it is shown
// in. A change of the unit keeps the amount. Sliders are logarithmic, in round numbers. Words are those of
// `precopy-view`.

import { decimalText } from "./numbers.js";
import { RATE_UNITS, TIME_UNITS } from "./units.js";

/** How many places a slider has. */
export const PLACES = 400;

/** The most of an amount: what a number of JavaScript holds exactly. */
const MOST_AMOUNT = BigInt(Number.MAX_SAFE_INTEGER);

/** Units that belong together, from the least up: a slider stays among them. */
const FAMILIES = [
  ["us", "ms", "s"], ["Kbit", "Mbit", "Gbit"], ["KB", "MB", "GB"], ["KiB", "MiB", "GiB"],
];

/** The least count in which a slider shows an amount in a unit that does not divide it. */
const LEAST_COUNT = 10;

/** The most digits behind a point. */
const MOST_PLACES = 6;

/** All digits of a number together make less than this. */
const END_OF_DIGITS = 1n << 64n;

/** Longer units of time, which words may have but no control shows: how many seconds one is. */
const LONG_UNITS = { m: 60n, h: 3_600n };

function familyOf(unit) {
  return FAMILIES.find((names) => names.includes(unit));
}

/** The amount of a decimal number in a unit of this size, rounded down, or null if it is none. */
function amountOfDecimal(word, size) {
  const found = /^([0-9]+)(?:\.([0-9]{1,6}))?$/.exec(word);
  const digits = found ? BigInt(found[1] + (found[2] ?? "")) : END_OF_DIGITS;
  const amount = digits < END_OF_DIGITS ? (digits * size) / 10n ** BigInt((found[2] ?? "").length) : null;
  return amount === null || amount > MOST_AMOUNT ? null : Number(amount);
}

/** The quantity of a decimal count in a unit, or null if it is none. */
export function quantityOf(word, unit, units) {
  const amount = Object.hasOwn(units, unit) ? amountOfDecimal(word, units[unit]) : null;
  return amount === null ? null : { amount, unit };
}

/** The quantity that a word says, or null if it says none. */
export function quantityIn(word, units) {
  const found = /^([0-9.]+)([A-Za-z]+)$/.exec(word);
  if (found && units === TIME_UNITS && Object.hasOwn(LONG_UNITS, found[2])) {
    const amount = amountOfDecimal(found[1], LONG_UNITS[found[2]] * units.s);
    return amount === null ? null : { amount, unit: "s" };
  }
  return found && quantityOf(found[1], found[2], units);
}

/** The count of an amount in a unit with the fewest digits that leads back to the amount, or null if no count does. */
function exactCount(amount, size) {
  for (let digits = 0; digits <= MOST_PLACES; digits += 1) {
    const power = 10n ** BigInt(digits);
    const scaled = (BigInt(amount) * power + size - 1n) / size;
    if ((scaled * size) / power === BigInt(amount)) {
      return decimalText(scaled, power, digits);
    }
  }
  return null;
}

/** The count of a quantity as a field shows it: if none leads back to the amount, then rounded down. */
export function shownCount({ amount, unit }, units) {
  return exactCount(amount, units[unit]) ?? decimalText(BigInt(amount), units[unit], MOST_PLACES);
}

/** A quantity as `precopy-view` and the address take it: in its own unit if that can be, else by the shortest word. */
export function commandWord({ amount, unit }, units) {
  const own = exactCount(amount, units[unit]);
  if (own !== null) {
    return `${own}${unit}`;
  }
  const counts = Object.entries(units).map(([name, size]) => [exactCount(amount, size), name]);
  const words = counts.filter(([count]) => count !== null).map(([count, name]) => `${count}${name}`);
  return words.reduce((shortest, word) => (word.length < shortest.length ? word : shortest));
}

/** A quantity as a word of the address. */
export function wordOfQuantity(quantity) {
  return commandWord(quantity, Object.hasOwn(TIME_UNITS, quantity.unit) ? TIME_UNITS : RATE_UNITS);
}

/** A number of few digits near this one. */
function roundNumber(number) {
  const power = 10 ** Math.floor(Math.log10(number));
  const lead = number / power;
  const step = lead < 2 ? 0.05 : lead < 5 ? 0.1 : 0.2;
  return Number((Math.round(lead / step) * step * power).toPrecision(3));
}

/** The place of an amount on a slider from `low` to `high`. */
export function placeOf(amount, low, high) {
  const share = Math.log(Math.max(amount, low) / low) / Math.log(high / low);
  return Math.round(Math.min(share, 1) * PLACES);
}

/** The amount at a place of a slider. */
export function amountAt(place, low, high) {
  return low * (high / low) ** (place / PLACES);
}

/** A whole number of few digits near a place of a slider. */
export function countAt(place, low, high) {
  return Math.min(high, Math.max(low, Math.round(roundNumber(amountAt(place, low, high)))));
}

/** A quantity near an amount, in the family of a unit. */
export function quantityNear(amount, unit, units) {
  const family = familyOf(unit);
  const least = Number(units[family[0]]);
  const isBinary = unit.endsWith("iB");
  const count = isBinary ? amount / least : Math.max(1, Math.round(roundNumber(amount / least)));
  for (const name of [...family].reverse()) {
    const factor = Number(units[name]) / least;
    if (isBinary ? Math.round((1024 * count) / factor) >= 1024 * LEAST_COUNT : count % factor === 0) {
      return { amount: Math.round(count / factor) * factor * least, unit: name };
    }
  }
  return { amount: Math.max(1, Math.round(count)) * least, unit: family[0] };
}

/** The name of a unit as it is shown. */
export function unitName(unit, units) {
  return `${unit}${units === RATE_UNITS ? "/s" : ""}`;
}

/** A quantity in words. */
export function quantityWords(quantity, units) {
  return `${shownCount(quantity, units)} ${unitName(quantity.unit, units)}`;
}

/** Whether a unit of rate counts bits. */
export function isInBits(unit) {
  return unit.endsWith("bit");
}

/** The most digits behind a point of a number with few digits. */
const MOST_DIGITS = 9;

/** The least number of digits behind a point, up to a bound, with which a quotient makes `least` without its point. */
function digitsFor(number, divisor, least) {
  let digits = 0;
  while (digits < MOST_DIGITS && (number * 10n ** BigInt(digits)) / divisor < least) {
    digits += 1;
  }
  return digits;
}

/** A quotient of whole numbers without its point, rounded, if it has so many digits behind it. */
function rounded(number, divisor, digits) {
  return (2n * number * 10n ** BigInt(digits) + divisor) / (2n * divisor);
}

/** A quotient of whole numbers with about three digits: of a greater one no digit is left out before its point. */
export function fewDigitsText(number, divisor) {
  const digits = digitsFor(number, divisor, 100n);
  return decimalText(rounded(number, divisor, digits), 10n ** BigInt(digits), digits);
}

/** A count with about three digits, and its unit: of some, the first of which it has one once it is rounded. */
export function briefCount(amount, units) {
  const counts = units.map(([size, name]) => [fewDigitsText(amount, size), name, size]);
  return counts.find(([count]) => Number(count) >= 1) ?? counts.at(-1);
}

/** The most digits behind the points of a column, unless its least number has only zeros with them. */
const MOST_OF_COLUMN = 3;

/** How many digits a decimal number has behind its point. */
export function digitsBehind(text) {
  return text.split(".")[1]?.length ?? 0;
}

/**
 * Quotients, pairs of whole numbers, as the texts of a column: each with as many digits behind its point as one of them
 * needs for about three digits, but no more than a bound.
 */
export function columnTexts(quotients) {
  const needed = quotients.map(([number, divisor]) => digitsBehind(fewDigitsText(number, divisor)));
  const seen = quotients.map(([number, divisor]) => digitsFor(number, divisor, 1n));
  const digits = Math.min(Math.max(...needed), Math.max(MOST_OF_COLUMN, ...seen));
  return quotients.map(([number, divisor]) => {
    const all = String(rounded(number, divisor, digits)).padStart(digits + 1, "0");
    return digits === 0 ? all : `${all.slice(0, -digits)}.${all.slice(-digits)}`;
  });
}

/** A number with about three digits. */
export function fewDigits(number) {
  return number < 100 ? Number(number.toPrecision(3)) : Math.round(number);
}

/** The greatest unit of the family of this one that an amount with about three digits has one of, or else this one. */
export function roundedUnit(amount, unit, units) {
  const isReached = (name) => Number(fewDigitsText(BigInt(amount), units[name])) >= 1;
  return [...familyOf(unit)].reverse().find(isReached) ?? unit;
}

/** About how much an amount is, in words of the family of a unit. */
export function roundedWords(amount, unit, units) {
  const names = amount === 0n ? [unit] : [...familyOf(unit)].reverse();
  const [count, name] = briefCount(amount, names.map((some) => [units[some], some]));
  return `${count} ${unitName(name, units)}`;
}

/** An amount in a unit in which a count leads back to it: of the family of this unit, or else of another. */
export function exactQuantity(amount, unit, units) {
  const families = [familyOf(unit), ...FAMILIES.filter(([first]) => Object.hasOwn(units, first))];
  const quantities = families.map(([first]) => inFittingUnit(amount, first, units));
  return quantities.find((some) => exactCount(amount, units[some.unit]) !== null) ?? { amount, unit: families[1][0] };
}

/** The least amount of so many digits in a unit of the family of this one that is no less than an amount. */
export function roundedUp(amount, unit, units, digits) {
  const size = units[inFittingUnit(amount, familyOf(unit)[0], units).unit];
  const power = 10n ** BigInt(digitsFor(BigInt(amount), size, 10n ** BigInt(digits - 1)));
  const count = (BigInt(amount) * power + size - 1n) / size;
  return Number((count * size) / power);
}

/** An amount in the greatest unit that it has one of, of the family of this unit. */
export function inFittingUnit(amount, unit, units) {
  const family = [...familyOf(unit)].reverse();
  return { amount, unit: family.find((name) => amount >= units[name]) ?? unit };
}
