// Writes amounts as the page does: `node texts.mjs` with amounts as JSON on standard input, in decimal. Each is a
// time that something takes, the error of one, a moment, and a size.

import { readFileSync } from "node:fs";
import { bytesText, errorTimeText, momentText, timeText } from "./model/numbers.js";

const texts = [timeText, errorTimeText, momentText, bytesText];
const amounts = JSON.parse(readFileSync(0, "utf8")).map(BigInt);
console.log(JSON.stringify(amounts.map((amount) => texts.map((text) => text(amount)))));
