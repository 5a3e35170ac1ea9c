import assert from "node:assert/strict";
import { test } from "node:test";
import { QUESTION } from "../../../web/model/interface.js";
import { writeQuestion } from "../../../web/model/questions.js";

const ASKED = { link: 1n, downtime: 2n, reserve: 3n, tick: 4n, page: 16, sampled: 5, guest: 6, rounds: 7, start: 8 };

/** The numbers of a question as it is written: twelve of 64 bits, and five of 32. */
function written(question) {
  const view = new DataView(new ArrayBuffer(QUESTION.size));
  writeQuestion(view, 0, question);
  const wide = Array.from({ length: 12 }, (_, place) => Number(view.getBigUint64(8 * place, true)));
  return [...wide, ...Array.from({ length: 5 }, (_, place) => view.getUint32(96 + 4 * place, true))];
}

test("a question is written as the library lays it out", () => {
  const cold = { ...ASKED, first: null, increment: null, base: null, skip: false, clark: false };
  assert.deepEqual(written(cold), [1, 0, 2, 3, 4, 16, 5, 6, 0, 7, 8, 0, 0, 0, 0, 0, 0]);
  const warm = { ...ASKED, first: 9n, increment: 10, base: 11, skip: true, clark: true };
  assert.deepEqual(written(warm), [1, 9, 2, 3, 4, 16, 5, 6, 10, 7, 8, 11, 1, 1, 1, 1, 1]);
});
