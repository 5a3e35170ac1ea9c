// The planner's worker: it reads and tests a trace, and plans. It runs the page's own program.

import { lightLength, lightTrace, writesIn } from "./light-trace.js";
import { comeTo, lookRows, lookSettings } from "./look-lists.js";
import { Planner, READ_FAULT, Refusal } from "./planner.js";
import { readAnswer } from "../model/questions.js";
import { Sha256 } from "./sha256.js";
import { Slice } from "./slices.js";
import { piecesOf } from "./trace-source.js";
import { WritesMap } from "./writes-map.js";

/** The worker's own state: the module, the trace, and the number of the many answers that are asked for. */
const held = { module: null, planner: null, map: null, many: null };

/** The planner over the open trace. There is none if another worker could not read the trace of the first again. */
function planner() {
  if (held.planner === null) {
    throw new Refusal(READ_FAULT);
  }
  return held.planner;
}

/** The writes of the open trace, which are read once. */
function writesMap() {
  const { sizes } = planner();
  held.map ??= new WritesMap(writesIn(planner().traceBytes(), sizes.writes), sizes.pages);
  return held.map;
}

/** The pieces of a blob; each goes into a digest, and the share that is read is told. */
async function* digested(blob, digest, number) {
  let done = 0;
  for await (const piece of piecesOf(blob)) {
    digest.add(piece);
    done += piece.length;
    postMessage({ number, share: done / blob.size });
    yield piece;
  }
}

/** Opens a trace; an open one stays until then. Answers a light one too, if that is shorter by far. */
async function openTrace({ number, blob }) {
  const digest = new Sha256();
  const opened = await Planner.open(held.module, blob.size, digested(blob, digest, number));
  const { sizes } = opened;
  const isShorter = 2 * lightLength(sizes) < blob.size;
  const light = isShorter ? lightTrace(writesIn(opened.traceBytes(), sizes.writes), sizes) : null;
  const found = { sizes, digest: digest.digest(), light: light && new Blob([light]) };
  // Nothing is refused from here on, as for want of memory: the page has the same trace open.
  held.planner = opened;
  held.map = null;
  held.many = null;
  return found;
}

/** The answer to a question, with a row for each round or list of its plan. */
function predict({ question }) {
  const answer = planner().predict(question);
  if (question.clark) {
    return answer;
  }
  const settings = lookSettings(question, planner().settings(question), planner().sizes.last);
  const rows = lookRows(writesMap(), planner().sizes.pages, settings);
  if (!comeTo(rows, answer)) {
    throw new Error("the lists of the plan do not come to the module's answer");
  }
  return { ...answer, rows };
}

/** Leaves the thread to others if a slice of time is over, and says whether many answers are still asked for. */
async function goesOn(number, slice, share) {
  if (slice.isOver()) {
    postMessage({ number, share });
    await slice.next();
  }
  return held.many === number;
}

/**
 * The best and the worst of many answers. Errors never make a start better, so only those of a start that is the best
 * without them are counted: the one that stays the best with them is.
 */
async function chosenOf(number, questions, answers, slice) {
  const errors = answers.map(() => null);
  const choose = () => planner().chosen(answers, errors, questions[0]);
  let chosen = choose();
  while (chosen.best !== null && errors[chosen.best] === null) {
    errors[chosen.best] = planner().errorBytes(questions[chosen.best]);
    if (!await goesOn(number, slice, 1)) {
      return null;
    }
    chosen = choose();
  }
  return chosen;
}

/**
 * The answers to many questions, and which of them is the best and which the worst; a slice of time after another,
 * unless others are asked for meanwhile, or none.
 */
async function manyAnswers({ number, questions }) {
  held.many = number;
  const answers = [];
  const slice = new Slice();
  for (const question of questions) {
    answers.push(planner().answerBytes(question));
    if (!await goesOn(number, slice, answers.length / questions.length)) {
      return null;
    }
  }
  const chosen = await chosenOf(number, questions, answers, slice);
  const told = answers.map((bytes) => readAnswer(new DataView(bytes.buffer), 0));
  return chosen && { answers: told, chosen };
}

/** Holds a lock for as long as this worker lives, if the browser has locks: who waits for it learns of its end. */
function holdLock(name) {
  return new Promise((resolve) => {
    const hold = () => {
      resolve(true);
      return new Promise(() => {});
    };
    (navigator.locks?.request(name, hold) ?? Promise.reject()).catch(() => resolve(false));
  });
}

const ANSWERS = {
  module: async ({ bytes, lock }) => {
    held.module = await WebAssembly.compile(bytes);
    return holdLock(lock);
  },
  open: openTrace,
  predict,
  answer: ({ question }) => planner().predict(question),
  errors: ({ question }) => planner().errors(question),
  agreement: ({ question }) => planner().agreement(question),
  forecast: ({ question }) => planner().forecast(question),
  remedies: ({ question }) => planner().remedies(question),
  windows: ({ settings }) => planner().windows(settings),
  map: (grid) => writesMap().count(grid),
  rounds: (asked) => writesMap().rounds(asked),
  answers: manyAnswers,
  cancel: () => {
    held.many = null;
    return true;
  },
};

/** Columns of numbers go to the page as they are. Anything else is copied. */
function buffersIn(value) {
  return Object.values(value ?? {}).filter(ArrayBuffer.isView).map(({ buffer }) => buffer);
}

async function answer({ number, name, asked }) {
  try {
    const value = await ANSWERS[name]({ ...asked, number });
    postMessage({ number, value }, buffersIn(value));
  } catch (error) {
    const refused = error instanceof Refusal ? { number: error.number, record: error.record } : null;
    postMessage({ number, refused, failed: refused ? null : String(error) });
  }
}

/** Serves the page, if this program runs in a worker. Questions are answered in turn; many answers come beside them. */
export function serve() {
  let turn = Promise.resolve();
  onmessage = ({ data }) => {
    if (data.name === "cancel") {
      answer(data);
    } else {
      turn = turn.then(() => {
        const answered = answer(data);
        return data.name === "answers" ? null : answered;
      });
    }
  };
}
