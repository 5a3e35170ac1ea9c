// Asks the package for Node, by its name, what checks ask: `node package.mjs` with a list of jobs as JSON on standard
// input. A job has the path of a trace, and the calls that are made of it, each a name and what it is given. In both
// directions a bigint is a word that ends in n. A refusal is told by all that it has.

import { readFileSync } from "node:fs";
import * as planner from "precopy-planner";

const { open, OpenTrace, Refused, SETTINGS_DEFAULT, QUESTION_DEFAULT } = planner;

const given = (_, value) => (typeof value === "string" && /^\d+n$/.test(value) ? BigInt(value.slice(0, -1)) : value);
const told = (_, value) => (typeof value === "bigint" ? `${value}n` : value);

async function answerOf(call) {
  try {
    return await call();
  } catch (error) {
    if (!(error instanceof Refused)) {
      throw error;
    }
    const { name, status, code, record, message } = error;
    return { refused: name, status, code, record, message };
  }
}

async function answersOf({ trace, calls }) {
  const opened = await answerOf(() => open(readFileSync(trace)));
  if (!(opened instanceof OpenTrace)) {
    return [opened];
  }
  const answers = [opened.sizes];
  for (const [call, words] of calls) {
    answers.push(await answerOf(() => opened[call](words)));
  }
  return answers;
}

const answers = [];
for (const job of JSON.parse(readFileSync(0, "utf8"), given)) {
  answers.push(await answersOf(job));
}
const names = Object.keys(planner).sort();
const calls = Object.getOwnPropertyNames(OpenTrace.prototype).filter((name) => name !== "constructor").sort();
console.log(JSON.stringify({ names, calls, SETTINGS_DEFAULT, QUESTION_DEFAULT, answers }, told));
