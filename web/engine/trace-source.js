// Where a trace comes from: a file that the user chooses, or an example inside the page. Both give its bytes in pieces.

import { lightTrace } from "./light-trace.js";

/** The examples, as the page has them: gzipped, in base64, in elements of these names. */
const EXAMPLES = {
  gzip: { element: "example-gzip", name: "gzip.light.pcwt" },
  sqlite: { element: "example-sqlite", name: "sqlite.light.pcwt", record: "record-sqlite" },
};

/** The bytes of an element's base64, unzipped. */
export async function embeddedBytes(element) {
  const letters = atob(document.getElementById(element).textContent.trim());
  const zipped = Uint8Array.from(letters, (letter) => letter.charCodeAt(0));
  const stream = new Blob([zipped]).stream().pipeThrough(new DecompressionStream("gzip"));
  return new Uint8Array(await new Response(stream).arrayBuffer());
}

/**
 * The trace of an example, which the page has as its header, the ticks of its writes since the one before, and their
 * pages: of each the low bytes, and then the high ones.
 */
function exampleTrace(bytes) {
  const view = new DataView(bytes.buffer);
  const [pages, count] = [view.getUint32(8, true), view.getUint32(12, true)];
  const writes = { ticks: new Float64Array(count), pages: new Uint32Array(count) };
  const planes = [0, 1, 2, 3].map((plane) => bytes.subarray(16 + plane * count));
  let tick = 0;
  for (let place = 0; place < count; place += 1) {
    tick += planes[0][place] + 256 * planes[1][place];
    writes.ticks[place] = tick;
    writes.pages[place] = planes[2][place] + 256 * planes[3][place];
  }
  return lightTrace(writes, { pages, pageBytes: 2 ** bytes[5], writes: count });
}

/** An example by its short name: a trace as a name and a blob, and its record, if there is one. */
export async function exampleSource(example) {
  const { element, name, record } = EXAMPLES[example];
  const text = record ? new TextDecoder().decode(await embeddedBytes(record)) : null;
  return {
    name, example, blob: new Blob([exampleTrace(await embeddedBytes(element))]),
    record: record ? { name: name.replace(/pcwt$/, "json"), text } : null,
  };
}

/** The bytes of a blob, piece by piece. */
export async function* piecesOf(blob) {
  const reader = blob.stream().getReader();
  for (;;) {
    const { done, value } = await reader.read();
    if (done) {
      return;
    }
    yield value;
  }
}
