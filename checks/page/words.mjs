// Reads words of quantities as the page does: `node words.mjs` with pairs of a kind and a word as JSON on standard
// input. What is refused is null. Amounts are written as the words that the page makes of them, too.

import { readFileSync } from "node:fs";
import { quantityIn, wordOfQuantity } from "./model/quantities.js";
import { RATE_UNITS, TIME_UNITS } from "./model/units.js";

const units = { time: TIME_UNITS, rate: RATE_UNITS };
const answers = JSON.parse(readFileSync(0, "utf8")).map(([kind, word]) => {
  const found = quantityIn(word, units[kind]);
  return found && [found.amount, quantityIn(wordOfQuantity(found), units[kind]).amount];
});
console.log(JSON.stringify(answers));
