// A mouse that is drawn over a picture takes a stretch of it nearer; in a picture with rows a field of it.

import { area } from "./elements.js";

/** The least width and height of what is drawn over, in pixels. */
const LEAST_STRETCH = 8;
const LEAST_HEIGHT = 24;

/** Two places in ascending order, if they are far enough from each other. */
function rangeOf(one, other, least) {
  return Math.abs(one - other) < least ? null : [Math.min(one, other), Math.max(one, other)];
}

export class Brush {
  /**
   * `isReady` says whether something can be taken, `hasRows` whether the height counts. `taken` is called with the
   * places `across` and `down`, of which one may be null.
   */
  constructor(plot, { isReady, hasRows }, taken) {
    this.plot = plot;
    this.hasRows = hasRows;
    this.from = null;
    plot.addEventListener("pointerdown", (event) => {
      const isBegun = event.pointerType === "mouse" && event.button === 0 && isReady();
      this.from = isBegun ? this.placeOf(event) : null;
    });
    addEventListener("pointermove", (event) => this.from && this.show(this.fieldTo(event)));
    addEventListener("pointerup", (event) => this.from && this.end(this.fieldTo(event), taken));
    // The browser takes the mouse over, as to drag words that are selected.
    addEventListener("pointercancel", () => this.from && this.end({ across: null, down: null }, taken));
  }

  placeOf({ clientX, clientY }) {
    const { left, top } = this.plot.getBoundingClientRect();
    return { x: clientX - left, y: clientY - top };
  }

  /** What is drawn over up to a place. */
  fieldTo(event) {
    const { x, y } = this.placeOf(event);
    return {
      across: rangeOf(this.from.x, x, LEAST_STRETCH),
      down: this.hasRows ? rangeOf(this.from.y, y, LEAST_HEIGHT) : null,
    };
  }

  end(field, taken) {
    this.from = null;
    this.show({ across: null, down: null });
    if (field.across || field.down) {
      taken(field);
    }
  }

  show({ across, down }) {
    const picture = this.plot.querySelector("svg");
    picture?.querySelector(".brush")?.remove();
    if (picture && (across || down)) {
      const [left, right] = across ?? [0, Number(picture.getAttribute("width"))];
      const [top, bottom] = down ?? [0, Number(picture.getAttribute("height"))];
      picture.append(area("brush", left, top, right - left, bottom - top));
    }
  }
}
