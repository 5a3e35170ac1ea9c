// What the user can go back to: each settled state is an address of the browser's history, and two buttons go there.

import { byId, mark } from "./elements.js";

/** So long the browser may take to go to another state, in milliseconds. Until it is there no press counts. */
const LONGEST_WAY = 1_000;

export class Past {
  /** `settle` has a change that is not settled yet become an address. */
  constructor(settle) {
    this.settle = settle;
    // Where this state is among those that the user can go to.
    this.place = history.state?.place ?? 0;
    this.lastPlace = this.place;
    this.isSettled = false;
    this.going = null;
    byId("undo").addEventListener("click", () => this.go(byId("undo"), -1));
    byId("redo").addEventListener("click", () => this.go(byId("redo"), 1));
  }

  go(button, steps) {
    if (this.going === null && button.getAttribute("aria-disabled") === "false") {
      this.settle();
      this.going = setTimeout(() => { this.going = null; }, LONGEST_WAY);
      history.go(steps);
    }
  }

  /** Adds a state by its address, with more that belongs to it; the first one is that of the page. */
  add(fragment, more) {
    if (location.hash !== fragment && this.isSettled) {
      this.place += 1;
      this.lastPlace = this.place;
      history.pushState({ ...more, place: this.place }, "", fragment);
    } else {
      history.replaceState({ ...more, place: this.place }, "", fragment);
    }
    this.isSettled = true;
    this.show();
  }

  /** Learns that the user went to another address, or wrote one. Returns what belongs to it. */
  follow() {
    clearTimeout(this.going);
    this.going = null;
    if (history.state?.place === undefined) {
      this.lastPlace = this.place + 1;
      history.replaceState({ place: this.lastPlace }, "");
    }
    this.place = history.state.place;
    this.lastPlace = Math.max(this.lastPlace, this.place);
    this.show();
    return history.state;
  }

  show() {
    mark(byId("undo"), "aria-disabled", String(this.place === 0));
    mark(byId("redo"), "aria-disabled", String(this.place === this.lastPlace));
  }
}
