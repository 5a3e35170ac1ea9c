// The section of commands: the words that ask for the same migration elsewhere, what a hypervisor cannot be told, and
// the page's address.

import { announce, byId, html, tellIn } from "./elements.js";
import { commandsOf } from "../model/predictions.js";
import { firstStartOf } from "../model/starts.js";

/** What a button says, and for how long it says that something was copied, in milliseconds. */
const COPY = "Copy";
const TOLD = 1_500;

/** The parts of a text. Words are not broken at their hyphens, nor what is read after its sign. */
function wordsWhole(text) {
  const isWhole = (part) => part.includes("-") || part.startsWith("<");
  return text.split(/(< \S+|\S*-\S*)/).filter(Boolean).map((part) =>
    (isWhole(part) ? html("span", { class: "word" }, part) : part));
}

/** Has a button say another word, with which its name begins too. */
function say(button, word) {
  button.textContent = word;
  button.ariaLabel = button.ariaLabel.replace(/^\w+/, word);
}

function copyButtons() {
  return document.querySelectorAll("[data-copies]");
}

export class CommandsView {
  constructor() {
    this.shown = {};
    copyButtons().forEach((button) => button.addEventListener("click", () => this.copy(button)));
  }

  /**
   * Shows the commands of a prediction over a trace that begins at a tick. Without one the last ones stay, grey, unless
   * they are of another trace.
   */
  draw(prediction, sizes, begin) {
    byId("commands").classList.toggle("stale", !prediction);
    if (prediction) {
      const first = firstStartOf(sizes, prediction.settings.base, begin);
      const commands = commandsOf(prediction.state, sizes, prediction, first);
      Object.entries(commands).forEach(([name, command]) => this.show(name, command));
      byId("warm-note").hidden = prediction.settings.base === null;
    } else if (sizes !== this.sizes) {
      Object.keys(this.shown).forEach((name) => this.show(name, { words: "" }));
      byId("warm-note").hidden = true;
    }
    this.sizes = sizes;
    copyButtons().forEach((button) => {
      const { copies } = button.dataset;
      button.disabled = copies !== "address" && (!prediction || byId(copies).textContent === "");
    });
  }

  /** Shows a command, if it is another one than before, and its note. */
  show(name, { words, note = "" }) {
    if (this.shown[name] !== words) {
      this.shown[name] = words;
      byId(`command-${name}`).replaceChildren(...wordsWhole(words));
      byId(`command-${name}`).hidden = words === "";
    }
    const place = document.querySelector(`[data-note=${name}]`);
    if (place) {
      tellIn(place, note);
      place.hidden = note === "";
    }
    byId(`command-${name}`).parentElement.hidden = words === "" && note === "";
  }

  /** Shows the part of the page's address that has the settings. */
  tellAddress(fragment) {
    tellIn(byId("address"), fragment);
  }

  async copy(button) {
    const { copies } = button.dataset;
    const words = copies === "address" ? location.href : byId(copies).textContent;
    announce("");
    try {
      await navigator.clipboard.writeText(words);
      say(button, "Copied");
    } catch {
      getSelection().selectAllChildren(byId(copies));
      say(button, "Selected");
    }
    announce(button.ariaLabel);
    setTimeout(() => say(button, COPY), TOLD);
  }
}
