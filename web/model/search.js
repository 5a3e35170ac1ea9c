// Search in what is sorted.

/** The least place from 0 up to `count` from which on something holds; `count` if there is none. */
export function firstPlace(count, holds) {
  let [low, high] = [0, count];
  while (low < high) {
    const middle = (low + high) >> 1;
    if (holds(middle)) {
      high = middle;
    } else {
      low = middle + 1;
    }
  }
  return low;
}
