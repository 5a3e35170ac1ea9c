// Numbers as text, without commas where they have a unit. Times, errors of times, moments and sizes have the forms of
// `precopy-view predict`.

/** The units of sizes, from the greatest to bytes, and their names. */
export const SIZE_UNITS = [[1n << 30n, "GiB"], [1n << 20n, "MiB"], [1n << 10n, "KiB"], [1n, "bytes"]];

/** A number, with commas between thousands. */
export function counted(number) {
  const [whole, ...rest] = String(number).split(".");
  return [whole.replace(/\B(?=(\d{3})+$)/g, ","), ...rest].join(".");
}

/** A number and a noun, which takes an s unless the number is 1. */
export function countOf(number, noun) {
  return `${counted(number)} ${noun}${number == 1 ? "" : "s"}`;
}

/** Pages of the trace in words: those of a sample are told from the guest's. */
export function pagesText({ isSample }, pages) {
  return `${countOf(pages, "page")}${isSample ? " of the sample" : ""}`;
}

/** A quotient of whole numbers as a decimal, with at most `digits` after the point, rounded down, without zeros. */
export function decimalText(number, divisor, digits) {
  const whole = number / divisor;
  const scaled = ((number % divisor) * 10n ** BigInt(digits)) / divisor;
  const rest = String(scaled).padStart(digits, "0").replace(/0+$/, "");
  return rest && digits > 0 ? `${whole}.${rest}` : String(whole);
}

/** A time, given in microseconds: seconds with three digits after the point, rounded down. */
function secondsText(micros) {
  const millis = micros / 1_000n;
  return `${millis / 1_000n}.${String(millis % 1_000n).padStart(3, "0")} s`;
}

/** A moment, in microseconds since a begin: seconds with three digits after the point if these are exact, else six. */
export function momentText(micros) {
  const whole = micros / 1_000_000n;
  return micros % 1_000n === 0n ? secondsText(micros) : `${whole}.${String(micros % 1_000_000n).padStart(6, "0")} s`;
}

/** How long something takes, in microseconds: in the greatest unit that it has one of. Only seconds are rounded. */
export function timeText(micros) {
  if (micros === 0n) {
    return "0 s";
  }
  if (micros < 1_000n) {
    return `${micros} us`;
  }
  return micros < 1_000_000n ? `${decimalText(micros, 1_000n, 3)} ms` : secondsText(micros);
}

/** How long something lasts, in microseconds: from a minute on in minutes, from an hour on in hours, rounded down. */
export function lengthText(micros) {
  const minutes = micros / 60_000_000n;
  if (minutes === 0n) {
    return unbroken(timeText(micros));
  }
  const words = minutes < 60n ? `${minutes} min ${(micros / 1_000_000n) % 60n} s`
    : `${minutes / 60n} h ${minutes % 60n} min`;
  return words.replaceAll(" ", "\u00a0");
}

/** The standard error of a time, in microseconds: as a time, with few digits, rounded down. */
export function errorTimeText(micros) {
  const digits = micros < 10_000n ? 1 : 0;
  return micros < 1_000n || micros >= 1_000_000n ? timeText(micros) : `${decimalText(micros, 1_000n, digits)} ms`;
}

/** A text whose number and unit stay on one line. */
export function unbroken(text) {
  return text.replace(" ", "\u00a0");
}

/** A size, in the greatest unit that it has one of, with two digits after the point, rounded down; bytes without. */
export function bytesText(bytes) {
  if (bytes === 1n) {
    return "1 byte";
  }
  const [unit, name] = SIZE_UNITS.find(([size]) => bytes >= size) ?? SIZE_UNITS.at(-1);
  const hundredths = (bytes * 100n) / unit;
  const rest = unit === 1n ? "" : `.${String(hundredths % 100n).padStart(2, "0")}`;
  return `${hundredths / 100n}${rest} ${name}`;
}

/** A rate in bytes a second, in the greatest decimal unit that it has one of. */
export function rateText(bytes) {
  const steps = [[1_000_000_000n, "GB/s"], [1_000_000n, "MB/s"], [1_000n, "KB/s"]];
  const [unit, name] = steps.find(([size]) => bytes >= size) ?? [1n, "B/s"];
  return `${decimalText(bytes, unit, 2)} ${name}`;
}

/** A difference of two numbers as text: its sign, and what `text` makes of its amount. */
export function signed(difference, text) {
  if (difference == 0) {
    return "same";
  }
  return difference < 0 ? `\u2212${text(-difference)}` : `+${text(difference)}`;
}
