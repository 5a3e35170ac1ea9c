// What a plan needs of a trace: tick and page of each write. From them a light trace is made, with one byte for each
// write, which plans as the whole does and is far shorter.

const HEADER = 16;
const RECORD = 16;
const LIGHT_RECORD = 17;

/** The ticks and pages of a trace's writes. The bytes have been tested. */
export function writesIn(bytes, count) {
  const view = new DataView(bytes.buffer, bytes.byteOffset, bytes.byteLength);
  const writes = { ticks: new Float64Array(count), pages: new Uint32Array(count) };
  for (let place = 0, at = HEADER; place < count; place += 1) {
    writes.ticks[place] = view.getUint32(at, true) + view.getUint32(at + 4, true) * 2 ** 32;
    writes.pages[place] = view.getUint32(at + 8, true);
    at += RECORD + view.getUint16(at + 14, true);
  }
  return writes;
}

/** How many bytes the light trace of so many writes has. */
export function lightLength({ writes }) {
  return HEADER + writes * LIGHT_RECORD;
}

/** A trace of the same writes with a byte each: it has other memory, and the same plans. */
export function lightTrace(writes, sizes) {
  const { pages, pageBytes, writes: count } = sizes;
  const bytes = new Uint8Array(lightLength(sizes));
  const view = new DataView(bytes.buffer);
  bytes.set([0x50, 0x43, 0x57, 0x54, 1, Math.log2(pageBytes)]);
  view.setUint32(8, pages, true);
  view.setUint32(12, count, true);
  for (let place = 0, at = HEADER; place < count; place += 1, at += LIGHT_RECORD) {
    const tick = writes.ticks[place];
    view.setUint32(at, tick % 2 ** 32, true);
    view.setUint32(at + 4, Math.floor(tick / 2 ** 32), true);
    view.setUint32(at + 8, writes.pages[place], true);
    view.setUint16(at + 14, 1, true);
    bytes[at + RECORD] = 1;
  }
  return bytes;
}
