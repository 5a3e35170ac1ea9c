import assert from "node:assert/strict";
import { test } from "node:test";
import { typedNumber, typedQuantity, typedTicks } from "../../../web/model/typing.js";
import { RATE_UNITS, TIME_UNITS } from "../../../web/model/units.js";
import { Controls } from "../../../web/views/controls.js";

test("a quantity is taken with or without a unit", () => {
  const taken = [
    ["1,000", "Mbit", RATE_UNITS, 125_000_000, "Mbit"], [" 64 ", "MiB", RATE_UNITS, 64 * 2 ** 20, "MiB"],
    ["1 Gbit/s", "MiB", RATE_UNITS, 125_000_000, "Gbit"], ["10gbps", "KB", RATE_UNITS, 1_250_000_000, "Gbit"],
    [".5", "s", TIME_UNITS, 500_000, "s"], ["300ms", "s", TIME_UNITS, 300_000, "ms"],
    ["2 min", "ms", TIME_UNITS, 120_000_000, "s"], ["9 \u00b5s", "s", TIME_UNITS, 9, "us"],
    ["1 000 000", "us", TIME_UNITS, 1_000_000, "us"], ["10 Gb/s", "KB", RATE_UNITS, 1_250_000_000, "Gbit"],
    ["64 MBps", "KB", RATE_UNITS, 64_000_000, "MB"], ["64 Mbps", "KB", RATE_UNITS, 8_000_000, "Mbit"],
    ["1 GBps", "Mbit", RATE_UNITS, 1_000_000_000, "GB"], ["64 mbps", "KB", RATE_UNITS, 8_000_000, "Mbit"],
    ["1 second", "ms", TIME_UNITS, 1_000_000, "s"], ["3 hours", "ms", TIME_UNITS, 10_800_000_000, "s"],
  ];
  for (const [text, own, units, amount, unit] of taken) {
    assert.deepEqual(typedQuantity(text, own, units), { amount, unit }, text);
  }
});

test("what is no quantity is not taken", () => {
  const others = ["1constructor", "1__proto__", "8 mb", "8 Mb", "8 MBPS", "8 mBps"];
  for (const text of ["", ".", "-1", "1e3", "1,00", "1,0000", "1.2.3", "12x", ...others]) {
    assert.equal(typedQuantity(text, "Mbit", RATE_UNITS), null, text);
  }
});

test("ticks are typed as a time, or as they are", () => {
  assert.equal(typedTicks("1.5", 1_000n, false), 1_500);
  assert.equal(typedTicks("1500 ticks", 1_000n, false), 1_500);
  assert.equal(typedTicks("1500", 1_000n, true), 1_500);
  assert.equal(typedTicks("2 ms", 1_000n, true), 2);
  assert.equal(typedTicks("1.5", 0n, false), null);
  assert.equal(typedTicks("1.5 ticks", 1_000n, false), null);
});

test("a number may have the noun of its control", () => {
  assert.equal(typedNumber("25 %", ["%"]), "25");
  assert.equal(typedNumber("25 %"), null);
});

test("an arrow key steps a number, and ticks stay ticks", () => {
  const stepped = (value, key) => {
    const field = { value };
    Controls.prototype.stepped.call({ typed: () => {} }, { field }, { key, preventDefault: () => {} });
    return field.value;
  };
  const steps = [
    ["1000 ticks", "ArrowUp", "1001 ticks"], ["1 tick", "ArrowDown", "0 ticks"], ["1,000", "ArrowUp", "1001"],
    ["0.5", "ArrowDown", "0"], ["25 %", "ArrowUp", "26"], ["2 ms", "ArrowUp", "2 ms"], ["7", "Home", "7"],
  ];
  for (const [value, key, wanted] of steps) {
    assert.equal(stepped(value, key), wanted, `${value}, ${key}`);
  }
  assert.equal(typedTicks(stepped("1000 ticks", "ArrowUp"), 1_000n, false), 1_001);
});
