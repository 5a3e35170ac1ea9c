/** Random numbers below a bound, the same in each run. */
export function drawing(seed) {
  let state = seed;
  return (bound) => {
    state = (Math.imul(state, 1_664_525) + 1_013_904_223) >>> 0;
    return Math.floor((state / 2 ** 32) * bound);
  };
}

/** A trace of at most 40 pages, with fewer writes than `most`, at ticks below `ticks`. */
export function drawnTrace(draw, most, ticks) {
  const pageCount = 1 + draw(40);
  const touches = Array.from({ length: draw(most) }, () => ({ tick: draw(ticks), page: draw(pageCount) }));
  touches.sort((one, other) => one.tick - other.tick);
  return { pageCount, touches };
}
