// The section on when to move: it asks the worker what the migration costs from many starts, and draws the answer.

import { byId, html, keepFocus } from "./elements.js";
import { foundBy } from "../model/found.js";
import { bytesText, countOf, signed, timeText, unbroken } from "../model/numbers.js";
import { firstStartOf, startCosts, startRows, startTicks } from "../model/starts.js";
import { AWAITED, costWords, startsLook, startsPicture, startWords } from "./starts-chart.js";
import { saveButtons } from "./exports.js";
import { Inspector } from "./inspector.js";
import { refusalPart } from "./outcome.js";
import { ERRORS_BELOW } from "../model/sureness.js";

/** Which of two starts is the better one. A hypervisor stops the guest only when what is left fits the limit. */
function betterWords({ clark }) {
  const likely = clark ? "is likely to keep the limit, with two standard errors of its downtime," : "keeps the limit";
  return `A start that ${likely} is better than any other. Of two such starts that which sends less is better; of two `
    + "others that whose downtime is likely to be shorter. The worst start is told without errors. Whether a start "
    + "keeps the limit is of its plan alone.";
}

const DOUBTFUL = "The best start has its downtime less than two standard errors below the limit: it may well miss it, "
  + "and so may every other start.";

/** What a question about starts is about, as a word. */
function keyOf({ settings, limits, scale, question }, ticks) {
  const { start, window, ...more } = settings;
  const amounts = [...Object.values(limits), ...Object.values(scale)].map(String);
  return JSON.stringify([more, amounts, ticks[0], question.clark]);
}

export class StartsView {
  /** `choose` takes a start, `changed` has the answer drawn, `announce` says it, and `times` are plots over time. */
  constructor(choose, changed, announce, times) {
    this.choose = choose;
    this.changed = changed;
    this.announce = announce;
    this.plot = byId("starts-plot");
    this.inspector = new Inspector(this.plot, byId("starts-readout"), "Starts", byId("starts-take"));
    this.asked = null;
    /** The question for which it is said that the last one had no answer. */
    this.failed = null;
    this.question = 0;
    this.isAsking = false;
    this.times = times;
    times.add(this.plot, this.inspector, () => this.asked && this.drawnOn && { axis: this.drawnOn, from: 0, ticks: 1 });
    byId("take-best").after(saveButtons("starts", "the starts", {
      picture: () => this.plot.querySelector("svg"), table: () => this.asked && startRows(this.asked),
    }));
    byId("ask").addEventListener("click", () => (this.isAsking ? this.cancel() : this.ask()));
    byId("take-best").addEventListener("click", () => this.choose(this.asked.chosen.best.start));
  }

  /** Takes another trace: what is known of starts is of no use then. */
  take(trace) {
    this.trace = trace;
    [this.asked, this.failed] = [null, null];
    this.question += 1;
    byId("starts-answer").hidden = true;
    this.busy(null);
  }

  /** Learns the prediction that is shown: a question is about its settings. */
  follow(prediction, begin) {
    this.prediction = prediction;
    if (prediction) {
      const first = firstStartOf(this.trace.sizes, prediction.settings.base, begin);
      this.ticks = startTicks(this.trace.sizes.last, first);
    }
    byId("ask").disabled = !prediction && !this.isAsking;
    byId("ask").textContent = this.isAsking ? "Cancel" : `Plan ${countOf(this.ticks?.length ?? 0, "start")}`;
    const isOld = this.asked !== null && (!prediction || keyOf(prediction, this.ticks) !== this.asked.key);
    byId("starts").classList.toggle("old", isOld);
    byId("starts-old").hidden = !isOld;
    byId("take-best").disabled = isOld || !this.asked?.chosen.best;
    if (this.asked && this.asked.hasTicks !== (prediction?.state.ticks ?? this.asked.hasTicks)) {
      this.asked = { ...this.asked, hasTicks: prediction.state.ticks };
    }
    this.forgetFailed();
    this.tell();
  }

  /** Takes back why a search had no answer, once another one would be asked for. */
  forgetFailed() {
    if (this.failed !== null && this.prediction && keyOf(this.prediction, this.ticks) !== this.failed) {
      this.failed = null;
      keepFocus(() => { byId("starts-answer").hidden = true; }, () => byId("ask"));
    }
  }

  busy(share) {
    this.isAsking = share !== null;
    byId("starts-progress").hidden = share === null;
    byId("starts-progress").value = share ?? 0;
  }

  cancel() {
    this.question += 1;
    this.trace.cancelStarts();
    this.busy(null);
    this.changed();
  }

  async ask() {
    const { prediction, ticks, trace } = this;
    this.question += 1;
    const { question } = this;
    this.busy(0);
    this.changed();
    const told = (share) => question === this.question && this.busy(share);
    const { value, refusal } = await foundBy(() => trace.starts(prediction.question, ticks, told));
    if (question === this.question && refusal) {
      this.fail(refusal, prediction);
    } else if (question === this.question && value) {
      this.finish(prediction, ticks, value);
    }
  }

  finish(prediction, ticks, found) {
    const { scale, limits, state } = prediction;
    const { costs, chosen } = startCosts(ticks, found);
    // The best and the worst start have standard errors, which come later, as a prediction has.
    const withQuestion = (at) => at && { ...at, scale, question: { ...prediction.question, start: at.start } };
    this.asked = {
      costs, chosen: { best: withQuestion(chosen.best), worst: withQuestion(chosen.worst) }, scale, limits,
      key: keyOf(prediction, ticks), hasTicks: state.ticks,
    };
    this.failed = null;
    this.busy(null);
    byId("starts-answer").hidden = false;
    byId("take-best").hidden = false;
    this.changed();
    const words = this.choiceLines().map((part) => part.textContent).join(" ");
    this.announce(words.replaceAll(AWAITED, ""));
  }

  /** Says why there is no answer to what was asked for a prediction, which may be another one by now. */
  fail(error, prediction) {
    [this.asked, this.failed] = [null, keyOf(this.prediction ?? prediction, this.ticks)];
    this.busy(null);
    byId("starts-answer").hidden = false;
    byId("take-best").hidden = true;
    byId("starts-choice").replaceChildren(refusalPart(error, "Refused:"));
    this.changed();
  }

  /** What of the answer has standard errors. */
  chosen() {
    const { best, worst } = this.asked?.chosen ?? {};
    return best ? [best, worst] : [];
  }

  /** Says the best and the worst start, and what the best saves. */
  tell() {
    if (!this.asked) {
      return;
    }
    byId("starts-choice").setAttribute("aria-busy", String(this.chosen().some(({ errors }) => errors === undefined)));
    byId("starts-choice").replaceChildren(...this.choiceLines(), ...this.savingParts(this.asked.chosen));
  }

  /** The best and the worst start. If they are one, all starts that tell something cost the same. */
  choiceLines() {
    const { chosen: { best, worst }, hasTicks } = this.asked;
    const line = (name, words) => html("p", {}, html("strong", {}, `${name}: `), words);
    if (!best) {
      return [html("p", {}, "No migration ends within the trace: record longer.")];
    }
    if (best.start === worst.start) {
      return [line("Each start whose migration ends within the trace", costWords(best.cost, best.errors))];
    }
    const lines = [["Best start", best], ["Worst start", worst]].map(([name, at]) =>
      line(name, startWords(this.asked, at, hasTicks)));
    return [...lines, ...this.doubts(best), html("p", { class: "hint" }, betterWords(best.question))];
  }

  /** Says of a start that keeps the limit if chance may well make it miss that. */
  doubts({ cost, errors, question }) {
    const isDoubtful = question.clark && errors && cost.kept === "yes"
      && cost.downtime + ERRORS_BELOW * errors.downtime > this.asked.limits.downtime;
    return isDoubtful ? [html("p", { class: "hint" }, DOUBTFUL)] : [];
  }

  /** The start of now against the best. Nothing is said of the best one if all cost the same. */
  savingParts({ best, worst }) {
    const { prediction } = this;
    if (!best || !prediction || keyOf(prediction, this.ticks) !== this.asked.key) {
      return [];
    }
    const { cost } = prediction;
    if (cost.kept === "unknown") {
      return [html("p", { id: "saving" }, "This plan ends after the trace: what the best saves is unknown.")];
    }
    const isBest = prediction.settings.start === best.start;
    if (isBest && best.start === worst.start) {
      return [];
    }
    const saved = (text, name) => unbroken(signed(best.cost[name] - cost[name], text));
    const words = isBest ? "This plan starts there."
      : `At the best start instead of this one: time\u00a0${saved(timeText, "time")}, sent\u00a0`
        + `${saved(bytesText, "bytes")}, downtime\u00a0${saved(timeText, "downtime")}.`;
    return [html("p", { id: "saving" }, words)];
  }

  /** Draws the answer, if there is one, on the axis of the windows; only if one of the two is another one. */
  draw(axis) {
    if (this.drawnOf === this.asked && this.drawnOn === axis) {
      return;
    }
    [this.drawnOf, this.drawnOn] = [this.asked, axis];
    if (!this.asked || !axis) {
      this.plot.replaceChildren();
      this.inspector.hold(null);
      return;
    }
    this.plot.replaceChildren(startsPicture(axis, this.asked));
    this.inspector.hold(startsLook(axis, this.asked, (start) => this.times.isBrushed || this.choose(start)));
  }
}
