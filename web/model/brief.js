// What is said at one glance: times and sizes with about three digits, rounded.

import { bytesText, lengthText, SIZE_UNITS, unbroken } from "./numbers.js";
import { briefCount } from "./quantities.js";

const LONG_TIME = 60_000_000n;

/** The units of times at one glance, from the greatest. */
export const SHORT_UNITS = [[1_000_000n, "s"], [1_000n, "ms"], [1n, "us"]];

/** A time in microseconds. */
export function briefTime(micros) {
  const [count, name] = briefCount(micros, SHORT_UNITS);
  if (micros === 0n || (name === "s" && Number(count) >= 60)) {
    return lengthText(micros > 0n && micros < LONG_TIME ? LONG_TIME : micros);
  }
  return `${count}\u00a0${name}`;
}

/** A size in bytes. */
export function briefBytes(bytes) {
  const [count, name] = briefCount(bytes, SIZE_UNITS);
  return name === "bytes" ? unbroken(bytesText(bytes)) : `${count}\u00a0${name}`;
}
