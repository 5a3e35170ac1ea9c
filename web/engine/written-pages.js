// The pages that are written in a stretch of time, and those that a migration begins with.

import { firstPlace } from "../model/search.js";

/** How many marks are looked at in one step. */
const IN_WORD = 4;

/** The pages that are written in a stretch of time, which grows at its end. */
export class WrittenPages {
  constructor({ ticks, pages }, pageCount) {
    this.ticks = ticks;
    this.pages = pages;
    this.pageCount = pageCount;
    this.words = new Uint32Array(Math.ceil(pageCount / IN_WORD));
    this.marks = new Uint8Array(this.words.buffer);
    this.room = new Uint32Array(this.marks.length);
    [this.next, this.count] = [0, 0];
  }

  /** Begins with the writes from a tick on. */
  begin(tick) {
    this.marks.fill(0);
    this.count = 0;
    this.next = firstPlace(this.ticks.length, (place) => this.ticks[place] >= tick);
  }

  /** Goes on to the last write before a tick. */
  goTo(tick) {
    while (this.next < this.ticks.length && this.ticks[this.next] < tick) {
      this.mark(this.pages[this.next]);
      this.next += 1;
    }
  }

  mark(page) {
    this.count += 1 - this.marks[page];
    this.marks[page] = 1;
  }

  /** The pages that are written so far, in ascending order. */
  list() {
    let count = 0;
    for (let word = 0; word < this.words.length; word += 1) {
      if (this.words[word] !== 0) {
        for (let page = word * IN_WORD; page < (word + 1) * IN_WORD; page += 1) {
          this.room[count] = page;
          count += this.marks[page];
        }
      }
    }
    return this.room.slice(0, count);
  }

  /** These and others, in ascending order. */
  listWith(pages) {
    for (const page of pages) {
      this.mark(page);
    }
    return this.list();
  }
}

/** The pages that the destination lacks at the start. */
export function firstPages(written, { base, start }) {
  if (base === null) {
    return new Uint32Array(written.pageCount).map((_, page) => page);
  }
  written.begin(base);
  written.goTo(start);
  return written.list();
}
