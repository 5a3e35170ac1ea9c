// Looking at the items of a picture, one at a time, by pointer, by finger or by keyboard.

import { area, html, isCommand, keepFocus } from "./elements.js";

/** Pixels from the pointer to the words beside it. */
const TIP_GAP = 14;

/**
 * Lets the user look at the items of a picture. `look` has `count` items, `find`s an item by its place in pixels, has
 * `words` of an item and its `span` in pixels, the `panels` in which it is marked, and says if there is `none`. It may
 * have `choose`, which Enter, Space and a click call; a click gives its place too. A finger only looks: then the
 * `offer` button takes what was looked at. It may have marks `beside` that of the item.
 */
export class Inspector {
  constructor(plot, readout, name, offer = null) {
    this.plot = plot;
    this.readout = readout;
    this.offer = offer;
    this.at = null;
    this.look = null;
    this.tellMoment = () => {};
    this.finger = matchMedia("(pointer: coarse)");
    this.tip = html("div", { class: "tip", "aria-hidden": "true" });
    const attributes = { tabindex: "0", role: "slider", "aria-label": name, "aria-valuemin": "0" };
    Object.entries(attributes).forEach(([key, value]) => plot.setAttribute(key, value));
    this.spell(null, "");
    plot.addEventListener("pointermove", (event) => this.point(event));
    plot.addEventListener("pointerleave", () => this.show(null));
    plot.addEventListener("click", (event) => this.click(event));
    plot.addEventListener("keydown", (event) => this.press(event));
    offer?.addEventListener("click", () => this.take(this.offered));
    this.finger.addEventListener("change", () => this.show(this.at));
    this.readout.textContent = this.hint();
    this.readout.classList.add("idle");
  }

  /** How items are looked at, with a finger or with a pointer and keys; or that there is none. */
  hint() {
    if (this.isEmpty()) {
      return this.look.none;
    }
    const { hint, touch } = this.readout.dataset;
    return touch && this.finger.matches ? touch : hint;
  }

  /** `tell` is called with the place that is looked at, in pixels, and with null. */
  share(tell) {
    this.tellMoment = tell;
  }

  /** Marks a place, in pixels, at which another picture is looked at; with null none. */
  mark(place) {
    this.plot.querySelectorAll(".moment").forEach((old) => old.remove());
    const picture = this.plot.querySelector("svg");
    if (place !== null && picture && this.look) {
      picture.append(...this.look.panels.map(({ top, height }) => area("moment", place - 0.5, top, 1, height)));
    }
  }

  isEmpty() {
    return this.look?.count === 0 && Boolean(this.look.none);
  }

  /** Takes the items of a picture that has just been drawn, or none. What is offered was of the one before. */
  hold(look) {
    this.look = look;
    this.withdraw();
    this.plot.setAttribute("aria-valuemax", String(Math.max(0, (look?.count ?? 0) - 1)));
    this.show(this.at !== null && this.at < (look?.count ?? 0) ? this.at : null);
  }

  placeOf(event) {
    return event.clientX - this.plot.getBoundingClientRect().left;
  }

  point(event) {
    if (this.look && this.look.count > 0) {
      this.show(this.look.find(this.placeOf(event)), event);
    }
  }

  click(event) {
    if (!this.look || this.look.count === 0) {
      return;
    }
    const place = this.placeOf(event);
    const at = this.look.find(place);
    if (event.pointerType === "touch" || event.pointerType === "pen") {
      this.show(at);
      this.offerItem(at);
    } else if (this.look.choose) {
      this.look.choose(at, place);
    }
  }

  offerItem(at) {
    this.offered = at;
    if (this.offer && this.look.choose) {
      this.offer.hidden = false;
      this.offer.textContent = this.look.offer(at);
    }
  }

  withdraw() {
    if (this.offer?.hidden === false) {
      keepFocus(() => { this.offer.hidden = true; }, () => this.plot);
    }
  }

  take(at) {
    this.withdraw();
    if (this.look && at < this.look.count) {
      this.look.choose(at);
    }
  }

  press(event) {
    if (isCommand(event)) {
      return;
    }
    const last = (this.look?.count ?? 0) - 1;
    const at = this.at ?? -1;
    const big = Math.max(1, Math.round(last / 10));
    const steps = new Map([
      ["ArrowRight", at + 1], ["ArrowUp", at + 1], ["ArrowLeft", at - 1], ["ArrowDown", at - 1],
      ["PageUp", at + big], ["PageDown", at - big], ["Home", 0], ["End", last],
    ]);
    if (last >= 0 && steps.has(event.key)) {
      event.preventDefault();
      this.show(Math.min(Math.max(steps.get(event.key), 0), last));
    } else if ((event.key === "Enter" || event.key === " ") && this.look) {
      event.preventDefault();
      if (this.at !== null && this.look.choose) {
        this.look.choose(this.at);
      }
    }
  }

  /** Says an item to a screen reader, or that none is looked at. */
  spell(at, words) {
    this.plot.setAttribute("aria-valuenow", String(at ?? 0));
    this.plot.setAttribute("aria-valuetext", words || "none");
  }

  /** Marks an item, and announces it. */
  show(at, event = null) {
    this.at = at;
    this.plot.querySelectorAll(".looked").forEach((old) => old.remove());
    const words = at === null ? "" : this.look.words(at);
    this.readout.textContent = words || this.hint();
    this.readout.classList.toggle("idle", words === "" && !this.isEmpty());
    this.spell(at, words);
    this.tip.remove();
    const [left, right] = at === null ? [0, 0] : this.look.span(at);
    this.tellMoment(at === null ? null : event ? this.placeOf(event) : (left + right) / 2);
    if (at !== null) {
      const picture = this.plot.querySelector("svg");
      picture.prepend(...this.look.panels.map(({ top, height }) =>
        area("looked", left, top, Math.max(2, right - left), height)), ...(this.look.beside?.() ?? []));
      if (event?.pointerType === "mouse") {
        this.showTip(words, event, Number(picture.getAttribute("width")));
      }
    }
  }

  /** Says an item beside the pointer. */
  showTip(words, event, width) {
    const box = this.plot.getBoundingClientRect();
    const [x, y] = [event.clientX - box.left, event.clientY - box.top];
    this.tip.textContent = words;
    this.tip.style.setProperty("top", `${Math.max(0, Math.min(y + TIP_GAP, box.height - 70))}px`);
    const isLeft = x > width / 2;
    this.tip.style.setProperty("left", isLeft ? "auto" : `${x + TIP_GAP}px`);
    this.tip.style.setProperty("right", isLeft ? `${Math.max(0, box.width - x + TIP_GAP)}px` : "auto");
    this.plot.append(this.tip);
  }
}
