// Work that is done a slice of time after another, so that its thread answers others meanwhile.

/** How long a slice is, in milliseconds. */
const SLICE = 20;

/** Lets others go first. */
export function nextTask() {
  return new Promise((resume) => setTimeout(resume));
}

export class Slice {
  constructor() {
    this.until = performance.now() + SLICE;
  }

  isOver() {
    return performance.now() >= this.until;
  }

  /** Lets others go first, and begins another slice. */
  async next() {
    await nextTask();
    this.until = performance.now() + SLICE;
  }
}
