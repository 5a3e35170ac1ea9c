// The map's pixels: the writes of each cell as a colour, and over them the turns of pages in the rounds of a plan.

import { byId } from "./elements.js";
import { heatOf, HEATS } from "../model/heat.js";

/** How many lines of the turns' canvas one of the page's pixels has; across it has as many pixels as the page. */
const LINES_OF_PIXEL = 2;

/** How many of these lines the turns of a row have at most and at least, and how many the halo has above and below. */
const MOST_TURN_LINES = 8;
const LEAST_TURN_LINES = 3;
const HALO_LINES = 2;

/** The layers of the turns' canvas, from 1 on, each over those before it: the halo, and the kinds of turns. */
const LAYERS = ["--paper", "--sent", "--dirtied", "--skipped"];
const HALO = 1;
const LAYER_OF_KIND = Uint8Array.of(0, 2, 3, 4);

/** A pixel with nothing, and after it colours of the page's style. */
function colourPixels(names) {
  const style = getComputedStyle(byId("map"));
  const bytes = names.flatMap((name) => {
    const word = style.getPropertyValue(name).trim();
    return [...[1, 3, 5].map((at) => Number.parseInt(word.slice(at, at + 2), 16)), 255];
  });
  return new Uint32Array(Uint8Array.of(0, 0, 0, 0, ...bytes).buffer);
}

/** Paints how often the cells of a grid are written. */
export function paintWrites(canvas, { grid: { columns, rows }, cells }, steps) {
  const colours = colourPixels(Array.from({ length: HEATS }, (_, step) => `--heat-${step + 1}`));
  [canvas.width, canvas.height] = [columns, rows];
  const pen = canvas.getContext("2d");
  const image = pen.createImageData(columns, rows);
  const pixels = new Uint32Array(image.data.buffer);
  for (let cell = 0; cell < cells.length; cell += 1) {
    pixels[cell] = colours[heatOf(cells[cell], steps)];
  }
  pen.putImageData(image, 0, 0);
}

/** The lines that the turns of a row have: from one up to another. */
function linesOf(row, rows, lines) {
  const step = lines / rows;
  const high = Math.round(Math.max(LEAST_TURN_LINES, Math.min(MOST_TURN_LINES, step)));
  const from = Math.round((row + 0.5) * step - high / 2);
  return [from, from + high];
}

/** Which layer is seen in each line and column: 0 is none. */
function layersOf(cells, { columns, rows }, lines) {
  const layers = new Uint8Array(columns * lines);
  for (let row = 0; row < rows; row += 1) {
    const [from, to] = linesOf(row, rows, lines);
    const [first, end] = [Math.max(0, from - HALO_LINES), Math.min(lines, to + HALO_LINES)];
    for (let column = 0; column < columns; column += 1) {
      const layer = LAYER_OF_KIND[cells[row * columns + column]];
      for (let line = layer === 0 ? end : first; line < end; line += 1) {
        const at = line * columns + column;
        layers[at] = Math.max(layers[at], line >= from && line < to ? layer : HALO);
      }
    }
  }
  return layers;
}

/** Fills the pixels of a line with what its columns have. Beside a column with a turn the next pixel has the halo. */
function fillLine(pixels, layers, edges, colours) {
  for (let column = 0; column < layers.length; column += 1) {
    const [from, to] = [edges[column], edges[column + 1]];
    if (layers[column] > 0) {
      for (let x = from; x < to; x += 1) {
        pixels[x] = colours[layers[column]];
      }
    } else if (from < to) {
      pixels[from] = colours[layers[column - 1] > 0 ? HALO : 0];
      pixels[to - 1] = layers[column + 1] > 0 ? colours[HALO] : pixels[to - 1];
    }
  }
}

/** Paints the turns of pages, with a halo that parts them from the writes below. */
export function paintTurns(canvas, { columns, rows }, cells, { width, height }) {
  const colours = colourPixels(LAYERS);
  [canvas.width, canvas.height] = [width, LINES_OF_PIXEL * height];
  const pen = canvas.getContext("2d");
  const image = pen.createImageData(canvas.width, canvas.height);
  const pixels = new Uint32Array(image.data.buffer);
  const layers = layersOf(cells, { columns, rows }, image.height);
  const edges = Array.from({ length: columns + 1 }, (_, column) => Math.round((column * image.width) / columns));
  for (let line = 0; line < image.height; line += 1) {
    fillLine(pixels.subarray(line * image.width, (line + 1) * image.width),
      layers.subarray(line * columns, (line + 1) * columns), edges, colours);
  }
  pen.putImageData(image, 0, 0);
}
