import assert from "node:assert/strict";
import { test } from "node:test";
import { serve } from "../../../web/engine/planner-worker.js";
import { drawing } from "./drawing.mjs";

const HEADER = 16;
const PAGE_BITS = 12;
const PAGES = 40;

/** A trace whose writes have so many bytes each, of a length that may be another one than they have. */
function traceOf(ticks, length, said = length) {
  const draw = drawing(ticks.length);
  const bytes = new Uint8Array(HEADER + ticks.length * (HEADER + length));
  const view = new DataView(bytes.buffer);
  view.setUint32(8, PAGES, true);
  view.setUint32(12, ticks.length, true);
  ticks.forEach((tick, place) => {
    const at = HEADER + place * (HEADER + length);
    view.setUint32(at, tick, true);
    view.setUint32(at + 8, draw(PAGES), true);
    view.setUint16(at + 14, said, true);
  });
  return bytes;
}

/** An instance of the module that takes each trace by its head. */
function instance() {
  const memory = { buffer: new ArrayBuffer(1 << 22) };
  const check = (at, length, sizes) => {
    const [view, trace] = [new DataView(memory.buffer), Number(at)];
    view.setUint32(Number(sizes), PAGE_BITS, true);
    [8, 12].forEach((field, place) =>
      view.setUint32(Number(sizes) + 4 + 4 * place, view.getUint32(trace + field, true), true));
    view.setBigUint64(Number(sizes) + 16, 99n, true);
    return 0;
  };
  return { exports: { memory, __heap_base: { value: 0 }, lent_check_trace: check } };
}

/** Asks a worker, and has its answer without what it tells on the way. */
function worker() {
  const waiting = new Map();
  globalThis.onmessage = null;
  globalThis.postMessage = (told) => told.share === undefined && waiting.get(told.number)(told);
  WebAssembly.instantiate = async () => instance();
  serve();
  return (number, name, asked) => new Promise((resolve) => {
    waiting.set(number, resolve);
    globalThis.onmessage({ data: { number, name, asked } });
  });
}

test("a trace that is refused once it was read leaves the open one as it is", async () => {
  const ask = worker();
  const blobOf = (...words) => new Blob([traceOf(...words)]);
  const opened = await ask(1, "open", { blob: blobOf([1, 2, 3], 1) });
  assert.deepEqual([opened.value.sizes.writes, opened.value.light], [3, null]);
  const long = await ask(2, "open", { blob: blobOf([4, 5], 100) });
  assert.deepEqual([long.value.sizes.writes, long.value.light.size], [2, HEADER + 2 * 17]);
  // Its light trace cannot be made, as if memory ran out.
  const { failed } = await ask(3, "open", { blob: blobOf([6, 7, 8, 9], 100, 60_000) });
  assert.match(failed, /^RangeError/);
  const { value } = await ask(4, "map", { first: 0, last: 10, columns: 10, rows: 1, fromPage: 0, endPage: PAGES });
  assert.deepEqual([...value.cells], [0, 0, 0, 0, 1, 1, 0, 0, 0, 0]);
});
