// Asks the page's module in Node what checks/predictions asks: `node predictions.mjs MODULE TRACE` with a list of
// questions as JSON on standard input, whose numbers are words. One that is refused is answered by its number.

import { readFileSync } from "node:fs";
import { Planner, Refusal } from "./engine/planner.js";

const [module, trace] = process.argv.slice(2).map((path) => readFileSync(path));
const planner = await Planner.open(await WebAssembly.compile(module), trace.length, [trace]);

function answerTo(question) {
  try {
    const { rows, ...told } = planner.predict(question);
    const errors = told.kept === "unknown" ? null : planner.errors(question);
    const agreement = planner.agreement(question);
    return { ...told, errors, agreement, remedies: planner.remedies(question), forecast: planner.forecast(question) };
  } catch (error) {
    if (!(error instanceof Refusal)) {
      throw error;
    }
    return { refusal: error.number };
  }
}

const answers = JSON.parse(readFileSync(0, "utf8")).map(answerTo);
console.log(JSON.stringify(answers, (_, value) => (typeof value === "bigint" ? String(value) : value)));
