// The sections of the plan: the verdict, the comparison with the plans that are kept, and the rounds or lists of all.
// If settings make no plan, the last one stays, grey.

import { ControlRefusal } from "../model/asking.js";
import { byId, html, keepFocus, renew, tellIn } from "./elements.js";
import { nounsOf } from "../model/nouns.js";
import { bytesText, momentText, timeText } from "../model/numbers.js";
import { saveButtons } from "./exports.js";
import { Inspector } from "./inspector.js";
import { limitBar } from "./limit-bar.js";
import {
  comparisonOf, comparisonRows, headlineParts, reasonParts, refusalPart, refusedWords, verdictOf,
} from "./outcome.js";
import { NoAnswer } from "../engine/planner-client.js";
import { watchWidths, widthOf } from "./plot.js";
import { beginsLate, forecastWords, isUnknown, keptWords } from "../model/predictions.js";
import { quantityWords } from "../model/quantities.js";
import { isSameSample } from "../model/record.js";
import { reachOf, roundsLook, roundsPicture } from "./rounds-chart.js";
import { ROUND_SETTINGS } from "../model/state.js";
import { isAwaited, planMark, verdictsOf } from "../model/sureness.js";
import { roundsFile, roundsTable } from "./tables.js";
import { amountOf, microsOf, RATE_UNITS, TIME_UNITS } from "../model/units.js";

/** The predictions of kept plans that are not refused. */
export function keptPredictions(kept) {
  return kept.map(({ found }) => found.value).filter(Boolean);
}

function momentOf(ticks, { tick }) {
  return momentText(microsOf({ tick: amountOf(tick) }, ticks));
}

/** The words for each part of the settings, by which a kept plan is told from the other. */
const WORDS = {
  link: (value) => `link ${quantityWords(value, RATE_UNITS)}`,
  first: (value) => `first round ${value} %`,
  increase: (value) => `increment ${value} %`,
  downtime: (value) => `downtime limit ${quantityWords(value, TIME_UNITS)}`,
  reserve: (value) => `reserve ${quantityWords(value, TIME_UNITS)}`,
  start: (value, settings) => `start at ${momentOf(value, settings)}`,
  rounds: (value) => `at most ${value} rounds`,
  skip: (value) => (value ? "skips pages" : "skips no pages"),
  clark: (value) => (value ? "Clark's rounds" : "a hypervisor's looks"),
  base: (value, settings) => (value === null ? "cold start" : `copy before ${momentOf(value, settings)}`),
  tick: (value) => `tick ${quantityWords(value, TIME_UNITS)}`,
  sample: (value) => (value === null ? "all pages" : `sample of ${value.part} in ${value.whole}`),
};

/** In what the settings of a kept plan differ, in words. An amount is the same in each unit. */
export function differencesOf(settings, kept, place) {
  const isAsked = (name) => settings.clark || kept.clark || !ROUND_SETTINGS.includes(name);
  const isSame = (name) => (name === "sample" ? isSameSample(settings.sample, kept.sample)
    : (settings[name]?.amount ?? settings[name]) === (kept[name]?.amount ?? kept[name]));
  const differing = Object.keys(WORDS).filter((name) => isAsked(name) && !isSame(name));
  return differing.length === 0 ? `Kept plan ${place + 1} has the same settings.`
    : `Kept plan ${place + 1} differs: ${differing.map((name) => WORDS[name](kept[name], kept)).join(", ")}.`;
}

/** What the sign before a standard error means. */
const STANDARD_ERROR = "\u00b1 is one standard error: how far a number moves if other pages of the guest are sampled.";

/** A figure with the rounds of a plan, or its lists. */
class RoundsFigure {
  constructor(name, title, times) {
    this.title = html("figcaption", {}, title);
    this.plot = html("div", { class: "plot", id: `rounds-plot-${name}` });
    this.readout = html("p", { class: "readout", "data-hint": "Point at the picture, or step with the arrow keys.",
      "data-touch": "Tap the picture to read it." });
    this.table = html("div", { class: "scrolls", id: `rounds-table-${name}` });
    this.whose = title && ` of ${title.toLowerCase()}`;
    const saves = saveButtons(`rounds-${name}`, `the plan${title && `, ${title}`}`, {
      picture: () => this.plot.querySelector("svg"),
      table: () => this.prediction && roundsFile(this.prediction),
    });
    this.prediction = null;
    this.summary = html("summary", {});
    this.details = html("details", {}, this.summary, this.table, saves);
    this.whole = html("figure", { id: `plan-${name}` }, this.title, this.plot, this.readout, this.details);
    this.inspector = new Inspector(this.plot, this.readout, `Course of the plan${title && `, ${title}`}`);
    this.axis = null;
    // The time of another trace is none of this one's.
    times.add(this.plot, this.inspector, () => this.axis && !this.isOther && {
      axis: this.axis, from: this.prediction.settings.start, ticks: 1 / Number(this.prediction.scale.tick),
    });
  }

  /** Draws a plan within a reach; `isOther` says that it is over another trace. */
  draw(prediction, reach, isOther = false) {
    [this.prediction, this.isOther] = [prediction, isOther];
    tellIn(this.summary, `Table of ${nounsOf(prediction.plan).many}${this.whose}`);
    const drawn = roundsPicture(widthOf(this.plot), prediction, reach);
    this.axis = drawn.axis;
    this.plot.replaceChildren(drawn.picture);
    this.inspector.hold(roundsLook(drawn, prediction, reach));
    this.table.replaceChildren(roundsTable(prediction, reach.unit));
  }
}

export class PlanView {
  /** `lead` leads to a control by its name, `fit` fits all settings to the trace; `times` are the plots over time. */
  constructor(lead, fit, changed, times) {
    this.times = times;
    this.figures = [new RoundsFigure("this", "", times)];
    this.lead = lead;
    this.fit = fit;
    this.changed = changed;
    this.last = null;
    byId("plans").append(this.figures[0].whole);
    byId("comparison").after(saveButtons("prediction", "the prediction", {
      table: () => this.last && comparisonRows(this.last, this.kept),
    }));
    this.kept = [];
    byId("headline").addEventListener("click", ({ target }) => this.press(target));
    byId("past-settings").addEventListener("click", (event) => this.goTo(event));
    watchWidths([this.figures[0].plot, byId("limit-bar")], changed);
  }

  /** Leads to the prediction. The link's own address has no settings, and is not gone to. */
  goTo(event) {
    event.preventDefault();
    byId("outcome").scrollIntoView();
    byId("outcome").focus({ preventScroll: true });
  }

  /** Forgets the last plan, which was of another trace. */
  forget() {
    this.last = null;
  }

  /** Shows a prediction beside the kept ones, or why there is none, with the last one grey. */
  draw(settings, found, kept) {
    this.last = found.value ?? this.last;
    for (const id of ["limit-bar", "reasons", "rounds"]) {
      byId(id).classList.toggle("stale", !found.value);
    }
    byId("reasons").hidden = this.last === null;
    byId("rounds").hidden = this.last === null;
    byId("stale-note").hidden = found.value !== undefined || this.last === null;
    this.drawVerdict(found);
    this.noteUnknown(kept);
    this.drawPlans(settings, kept);
    for (const button of document.querySelectorAll("#outcome .saves button, #rounds .saves button")) {
      button.disabled = !found.value;
    }
  }

  /** Says what was found, in a line and in reasons; the reasons of the last plan stay. */
  drawVerdict(found) {
    const parts = found.value ? headlineParts(found.value) : this.refusedParts(found.refusal);
    this.refusal = found.refusal ?? null;
    keepFocus(() => renew(byId("headline"), ...parts), () => byId("outcome"));
    if (this.last) {
      renew(byId("reason-words"), ...reasonParts(this.last));
    }
    tellIn(byId("summary"), found.value ? this.summaryOf(found.value) : this.refusedSummary(found.refusal));
  }

  /** Says of rounds that go on after the trace what they are of. Looks end with it. */
  noteUnknown(kept) {
    const plans = [["the start", this.last],
      ...kept.map(({ found }, place) => [`the start of kept plan ${place + 1}`, found.value])];
    const beyond = plans.filter(([, some]) => some?.plan.isClark && isUnknown(some));
    const ends = beyond.map(([start, some]) => (some.cost.recorded > 0n
      ? `${timeText(some.cost.recorded)} after ${start}` : `${beginsLate(some) ? "before" : "at"} ${start}`));
    byId("rounds-note").hidden = ends.length === 0;
    if (ends.length > 0) {
      byId("rounds-note").textContent = `The trace ends ${ends.join(", ")}. What is drawn later is of a guest that `
        + "writes nothing from then on.";
    }
  }

  drawPlans(settings, kept) {
    if (this.last) {
      this.drawComparison(settings, kept);
      this.drawRounds(this.last, kept);
    } else {
      this.drawBar();
    }
  }

  /** Draws what has become known of plans that are drawn. */
  drawLate(settings, found, kept) {
    this.drawVerdict(found);
    if (this.last) {
      this.drawComparison(settings, kept);
    }
  }

  /** Draws the downtime of the last plan beside its limit; nothing if it is unknown. */
  drawBar() {
    const isKnown = this.last !== null && !isUnknown(this.last);
    byId("limit-bar").hidden = !isKnown;
    byId("limit-bar").replaceChildren(...(isKnown ? [limitBar(widthOf(byId("limit-bar")), this.last)] : []));
  }

  /** Says what comes of the last plan like QEMU. While that is still to come, the line is busy. */
  drawForecast() {
    const forecast = this.last?.forecast;
    const line = byId("like-qemu");
    line.setAttribute("aria-busy", String(this.last !== null && forecast === undefined));
    tellIn(line, forecast ? forecastWords(forecast) : "");
  }

  /** Draws the numbers of the plans. Standard errors and verdicts that are still to come make it busy. */
  drawComparison(settings, kept) {
    this.drawBar();
    this.drawForecast();
    const words = kept.map((some, place) => this.keptWords(settings, some, place));
    const predictions = [this.last, ...keptPredictions(kept)];
    const meaning = predictions.some(({ errors }) => errors) ? [html("p", { class: "derived" }, STANDARD_ERROR)] : [];
    keepFocus(() => renew(byId("comparison"), comparisonOf(this.last, kept), ...words, ...meaning),
      () => byId("comparison").querySelector("[data-drops]") ?? byId("keep"));
    const isBusy = predictions.some((some) => some.errors === undefined || isAwaited(some));
    byId("comparison").setAttribute("aria-busy", String(isBusy));
  }

  /** A button beside a refusal leads out of it. */
  press({ id }) {
    const ways = new Map([
      ["fit", this.fit], ["try-again", this.changed], ["lead", () => this.lead(this.refusal.control)],
    ]);
    ways.get(id)?.();
  }

  /** Why there is no plan, with ways out. */
  refusedParts(refusal) {
    const button = (id, words) => html("button", { type: "button", id }, words);
    const fit = button("fit", "Fit all settings to the trace");
    if (!(refusal instanceof ControlRefusal)) {
      const way = refusal instanceof NoAnswer ? button("try-again", "Try again") : fit;
      return [refusalPart(refusal, "No plan:"), html("div", { class: "actions" }, way)];
    }
    const { name, sentence } = refusedWords(refusal);
    const lead = button("lead", `Go to \u201c${name}\u201d`);
    const said = html("p", { class: "refusal", "data-control": refusal.control },
      html("strong", {}, `No plan. ${name}:`), ` ${sentence}`);
    return [said, html("div", { class: "actions" }, lead, fit)];
  }

  keptWords(settings, { found, settings: own, name }, place) {
    if (name) {
      return html("p", { class: "derived" }, `Kept plan ${place + 1} is over `, html("bdi", {}, name), ".");
    }
    return found.refusal ? refusalPart(found.refusal, `Kept plan ${place + 1} is refused:`)
      : html("p", { class: "derived" }, differencesOf(settings, own, place));
  }

  /** That there is no plan, in a line. If the planner gave no answer, that is not for the settings. */
  refusedSummary(refusal) {
    return refusal instanceof NoAnswer ? `No plan: ${refusedWords(refusal).name}` : "No plan with these settings";
  }

  summaryOf(prediction) {
    const { cost } = prediction;
    if (isUnknown(prediction)) {
      return "Unknown: the trace ends before the migration does";
    }
    const verdict = `${keptWords(verdictsOf(prediction))}${planMark(prediction)}`;
    const downtime = `Downtime ${timeText(cost.downtime)}, ${verdict}`;
    const parts = [downtime, `time ${timeText(cost.time)}`, `sent ${bytesText(cost.bytes)}`];
    return parts.map((part) => part.replaceAll(" ", "\u00a0")).join(" \u00b7 ");
  }

  /** What was found, as it is announced; null while it is still to come how sure that is. */
  wordsOf({ value, refusal }) {
    if (value) {
      return isAwaited(value) ? null : verdictOf(value);
    }
    return this.refusedParts(refusal)[0].textContent;
  }

  drawRounds(prediction, kept) {
    const others = kept.map(({ found }) => found.value ?? null);
    const { title, unsent } = nounsOf(prediction.plan);
    tellIn(byId("rounds-title"), title);
    tellIn(byId("unsent-key"), unsent);
    this.kept = kept;
    const reach = reachOf([prediction, ...others.filter(Boolean)], this.times.range);
    this.figureAt(0).title.textContent = others.some(Boolean) ? "This plan" : "";
    this.figureAt(0).draw(prediction, reach);
    others.forEach((other, place) => {
      const figure = this.figureAt(place + 1);
      figure.whole.hidden = other === null;
      if (other) {
        figure.draw(other, reach, Boolean(kept[place].name));
      }
    });
    this.figures.slice(others.length + 1).forEach((figure) => { figure.whole.hidden = true; });
    byId("plans").dataset.plans = 1 + others.filter(Boolean).length;
  }

  figureAt(place) {
    if (!this.figures[place]) {
      const figure = new RoundsFigure(`kept-${place}`, `Kept plan ${place}`, this.times);
      byId("plans").append(figure.whole);
      watchWidths([figure.plot], this.changed);
      this.figures[place] = figure;
    }
    this.figures[place].whole.hidden = false;
    return this.figures[place];
  }
}
