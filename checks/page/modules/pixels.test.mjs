import assert from "node:assert/strict";
import { test } from "node:test";
import { paintTurns, paintWrites } from "../../../web/views/map-canvas.js";
import { heatOf } from "../../../web/model/heat.js";
import { drawing } from "./drawing.mjs";

const COLOURS = {
  "--paper": "#fffffe", "--sent": "#3f8cf0", "--dirtied": "#82071e", "--skipped": "#818b98",
  "--heat-1": "#bf8700", "--heat-2": "#9a6700", "--heat-3": "#7d4e00", "--heat-4": "#5a3600", "--heat-5": "#2f1b00",
};
const KINDS = ["--sent", "--dirtied", "--skipped"];

globalThis.document = { getElementById: (name) => name };
globalThis.getComputedStyle = (element) => {
  assert.equal(element, "map");
  return { getPropertyValue: (name) => COLOURS[name] };
};

/** A canvas that keeps its pixels, each as red, green, blue and how opaque it is. */
function canvasOf() {
  const canvas = { getContext: () => ({ createImageData, putImageData }) };
  const createImageData = (width, height) => ({ width, height, data: new Uint8ClampedArray(4 * width * height) });
  const putImageData = ({ width, data }) => {
    canvas.at = (x, line) => [...data.subarray(4 * (line * width + x), 4 * (line * width + x) + 4)];
  };
  return canvas;
}

function pixelOf(name) {
  return name === null ? [0, 0, 0, 0] : [...[1, 3, 5].map((at) => parseInt(COLOURS[name].slice(at, at + 2), 16)), 255];
}

/** What a pixel has: rectangle by rectangle, first all halos, and then each kind of turn over those before it. */
function wantedAt(x, line, boxes) {
  const isIn = ([left, top, right, bottom], across, down) =>
    x >= left - across && x < right + across && line >= top - down && line < bottom + down;
  const kinds = KINDS.filter((_, kind) => boxes.some((box) => box.kind === kind + 1 && isIn(box.edges, 0, 0)));
  return kinds.at(-1) ?? (boxes.some(({ edges }) => isIn(edges, 1, 0) || isIn(edges, 0, 2) || isIn(edges, 1, 2))
    ? "--paper" : null);
}

test("turns are painted over their halo, and kinds over each other", () => {
  const draw = drawing(7);
  for (const [rows, high, lines] of [[1, 256, 8], [10, 64, 8], [40, 100, 5], [64, 128, 4], [64, 64, 3]]) {
    const grid = { columns: 12, rows };
    const cells = Uint8Array.from({ length: 12 * rows }, () => Math.max(0, draw(9) - 5));
    const canvas = canvasOf();
    paintTurns(canvas, grid, cells, { width: 25, height: high });
    assert.deepEqual([canvas.width, canvas.height], [25, 2 * high]);
    const boxes = [...cells].map((kind, cell) => {
      const [row, column] = [Math.floor(cell / 12), cell % 12];
      const top = Math.round(((row + 0.5) * 2 * high) / rows - lines / 2);
      return { kind, edges: [Math.round((column * 25) / 12), top, Math.round(((column + 1) * 25) / 12), top + lines] };
    }).filter(({ kind }) => kind > 0);
    for (let line = 0; line < 2 * high; line += 1) {
      const near = boxes.filter(({ edges: [, top, , bottom] }) => line >= top - 2 && line < bottom + 2);
      for (let x = 0; x < 25; x += 1) {
        assert.deepEqual(canvas.at(x, line), pixelOf(wantedAt(x, line, near)), `${rows} rows: ${x}, ${line}`);
      }
    }
  }
});

test("a map without turns has no pixel, and one of more columns than pixels those that there is room for", () => {
  const canvas = canvasOf();
  paintTurns(canvas, { columns: 4, rows: 2 }, new Uint8Array(8), { width: 8, height: 4 });
  assert.deepEqual([canvas.at(0, 0), canvas.at(7, 7)], [[0, 0, 0, 0], [0, 0, 0, 0]]);
  paintTurns(canvas, { columns: 40, rows: 1 }, new Uint8Array(40).fill(1), { width: 10, height: 4 });
  assert.deepEqual(Array.from({ length: 10 }, (_, x) => canvas.at(x, 4)), Array(10).fill(pixelOf("--sent")));
});

test("a cell of writes has the colour of its step", () => {
  const [steps, cells] = [[1, 2, 5, 9], Uint32Array.of(0, 1, 2, 4, 5, 8, 9, 1_000)];
  const canvas = canvasOf();
  paintWrites(canvas, { grid: { columns: 4, rows: 2 }, cells }, steps);
  const wanted = [...cells].map((count) => (count === 0 ? null : `--heat-${heatOf(count, steps)}`)).map(pixelOf);
  assert.deepEqual([...cells].map((_, cell) => canvas.at(cell % 4, Math.floor(cell / 4))), wanted);
});
