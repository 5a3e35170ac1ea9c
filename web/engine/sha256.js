// SHA-256 of bytes that come in pieces (FIPS 180-4). The browser's own takes them only at once, and not on each page.

const BLOCK = 64;

/** The first 32 bits of the fractions of roots of the first primes, the square roots of 8 and the cube roots of 64. */
function primeFractions(count, root) {
  const fractions = [];
  for (let number = 2; fractions.length < count; number += 1) {
    let isPrime = true;
    for (let divisor = 2; divisor * divisor <= number; divisor += 1) {
      isPrime &&= number % divisor !== 0;
    }
    if (isPrime) {
      fractions.push(Number(rootFraction(BigInt(number), BigInt(root))));
    }
  }
  return fractions;
}

/** The first 32 bits of the fraction of a root, exactly. */
function rootFraction(number, root) {
  const wanted = number << (32n * root);
  let [low, high] = [0n, 1n << 40n];
  while (high - low > 1n) {
    const middle = (low + high) >> 1n;
    if (middle ** root <= wanted) {
      low = middle;
    } else {
      high = middle;
    }
  }
  return low & 0xffffffffn;
}

const ROUND_WORDS = Int32Array.from(primeFractions(64, 3), (word) => word | 0);

export class Sha256 {
  constructor() {
    this.sums = Int32Array.from(primeFractions(8, 2), (word) => word | 0);
    this.words = new Int32Array(BLOCK);
    this.block = new Uint8Array(BLOCK);
    this.view = new DataView(this.block.buffer);
    this.held = 0;
    this.length = 0;
  }

  add(bytes) {
    this.length += bytes.length;
    for (let at = 0; at < bytes.length;) {
      const count = Math.min(BLOCK - this.held, bytes.length - at);
      this.block.set(bytes.subarray(at, at + count), this.held);
      this.held += count;
      at += count;
      if (this.held === BLOCK) {
        this.mix();
      }
    }
  }

  mix() {
    const { words } = this;
    for (let at = 0; at < 16; at += 1) {
      words[at] = this.view.getInt32(at * 4);
    }
    for (let at = 16; at < 64; at += 1) {
      const early = words[at - 15];
      const late = words[at - 2];
      const first = ((early >>> 7) | (early << 25)) ^ ((early >>> 18) | (early << 14)) ^ (early >>> 3);
      const second = ((late >>> 17) | (late << 15)) ^ ((late >>> 19) | (late << 13)) ^ (late >>> 10);
      words[at] = (words[at - 16] + first + words[at - 7] + second) | 0;
    }
    this.turn();
    this.held = 0;
  }

  /** The rounds over the words of a block. */
  turn() {
    const { words, sums } = this;
    let a = sums[0];
    let b = sums[1];
    let c = sums[2];
    let d = sums[3];
    let e = sums[4];
    let f = sums[5];
    let g = sums[6];
    let h = sums[7];
    for (let at = 0; at < 64; at += 1) {
      const turned = ((e >>> 6) | (e << 26)) ^ ((e >>> 11) | (e << 21)) ^ ((e >>> 25) | (e << 7));
      const one = (h + turned + ((e & f) ^ (~e & g)) + ROUND_WORDS[at] + words[at]) | 0;
      const other = ((a >>> 2) | (a << 30)) ^ ((a >>> 13) | (a << 19)) ^ ((a >>> 22) | (a << 10));
      const two = (other + ((a & b) ^ (a & c) ^ (b & c))) | 0;
      h = g;
      g = f;
      f = e;
      e = (d + one) | 0;
      d = c;
      c = b;
      b = a;
      a = (one + two) | 0;
    }
    sums[0] += a;
    sums[1] += b;
    sums[2] += c;
    sums[3] += d;
    sums[4] += e;
    sums[5] += f;
    sums[6] += g;
    sums[7] += h;
  }

  /** The digest of all bytes, in hexadecimal digits. */
  digest() {
    const bits = BigInt(this.length) * 8n;
    const zeros = (2 * BLOCK - 9 - this.held) % BLOCK;
    const end = new DataView(new ArrayBuffer(zeros + 9));
    end.setUint8(0, 0x80);
    end.setBigUint64(zeros + 1, bits);
    this.add(new Uint8Array(end.buffer));
    return Array.from(this.sums, (word) => (word >>> 0).toString(16).padStart(8, "0")).join("");
  }
}
