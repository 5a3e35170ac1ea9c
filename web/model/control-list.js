// Which controls there are, in their groups. `low` and `high` are the ends of a slider; a number may go beyond them. Of
// what is plain it is not said what it comes to. Only Clark's rounds have what is of them.

import { RATE_UNITS, TIME_UNITS } from "./units.js";

const OF_ROUNDS = { isOfRounds: true };
const RATE = { units: RATE_UNITS, low: 125_000, high: 12_500_000_000 };

/** The settings that most plans are about, and below them all others, in groups. */
const MAIN = {
  title: "Settings",
  controls: [
    { name: "link", label: "Link rate", ...RATE },
    { name: "downtime", label: "Downtime limit", units: TIME_UNITS, low: 1_000, high: 10_000_000 },
    { name: "start", label: "Start", low: 0, high: 0, isTick: true },
  ],
};

const MORE = [
  {
    title: "Stop of the guest",
    controls: [
      { name: "reserve", label: "Reserve for switchover", units: TIME_UNITS, low: 1_000, high: 1_000_000,
        hasZero: true },
    ],
  },
  {
    title: "Migration",
    controls: [
      { name: "warm", label: "Warm start: the destination has a copy", isSwitch: true },
      { name: "base", label: "Copy taken before", low: 0, high: 0, isTick: true },
      { name: "clark", label: "Clark's rounds", isSwitch: true },
      { name: "first", label: "First round", unit: "% of the link", low: 1, high: 100, isPercent: true, ...OF_ROUNDS },
      { name: "increase", label: "Increment", unit: "% of the rest", low: 0, high: 100, isPercent: true, ...OF_ROUNDS },
      { name: "rounds", label: "Most rounds", unit: "rounds", low: 1, high: 64, isPlain: true, ...OF_ROUNDS },
      { name: "skip", label: "Skip pages rewritten before being sent", isSwitch: true, ...OF_ROUNDS },
    ],
  },
  {
    title: "Trace",
    controls: [
      { name: "tick", label: "Length of a tick", units: TIME_UNITS, low: 1, high: 1_000_000, isPlain: true },
      { name: "sample", label: "A traced page stands for", unit: "guest pages", low: 1, high: 4096, isLog: true,
        isSample: true },
      { name: "window", label: "Window", low: 1, high: 1000, isLog: true, isTick: true },
      { name: "ticks", label: "Show ticks beside times", isSwitch: true },
    ],
  },
];

export const GROUPS = { main: MAIN, more: MORE };

/** The label of each control, by its name. */
export const LABELS = Object.fromEntries([MAIN, ...MORE].flatMap(({ controls }) =>
  controls.map(({ name, label }) => [name, label])));
