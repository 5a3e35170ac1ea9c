// What takes long to answer: standard errors, how sure verdicts are, what comes of a plan like QEMU, what keeps a
// limit, and whether a rounded amount does too. A worker of its own answers it, so that no plan waits. Only what is
// shown is asked for: what was asked before and has no answer yet is left out.

import { fewDigitsOffers } from "../model/offers.js";
import { foundBy } from "../model/found.js";
import { PlannerClient } from "./planner-client.js";
import { answerOver, isGood, isUnknown, remediesOver } from "../model/predictions.js";
import { mayBeSure } from "../model/sureness.js";
import { firstWay, waysOf } from "../model/ways.js";

/** How many answers are kept. */
const MOST_KNOWN = 512;

/** A kind of answer to a question about a trace, as a word. */
function lateKey(kind, { digest }, question) {
  return [kind, digest, ...Object.entries(question).flat()].join(" ");
}

/** Whether a prediction may have standard errors. */
function mayHaveErrors(prediction) {
  return prediction.scale.isSample && !isUnknown(prediction);
}

/** Whether it may be told what comes of a prediction like QEMU. */
function mayBeForecast({ plan }) {
  return plan.isClark || plan.reason !== "few";
}

export class LateAnswers {
  /** `told` is called after each answer, with its kind. */
  constructor(told) {
    this.told = told;
    this.client = new PlannerClient("aside", () => {});
    this.known = new Map();
    this.failed = new Set();
    this.open = null;
    this.unread = null;
    this.wanted = [];
    this.curves = [];
    this.isAsking = false;
  }

  /**
   * Learns what is shown: the prediction whose limit counts, if there is one, the plans whose verdicts are shown, and
   * starts, of which errors are. What `questionsOfCurves` returns comes last, and is not made before all else is known.
   */
  follow(trace, prediction, { plans, starts }, questionsOfCurves) {
    const ask = (kind, { question }) => ({ kind, trace, question, key: lateKey(kind, trace, question) });
    const errors = [...plans, ...starts].filter(mayHaveErrors).map((some) => ask("errors", some));
    const sure = plans.filter(mayBeSure).map((some) => ask("agreement", some));
    const forecast = prediction && mayBeForecast(prediction) ? [ask("forecast", prediction)] : [];
    const isOpen = prediction && this.leastOf(trace, prediction) === undefined;
    const remedies = isOpen ? [ask("remedies", prediction)] : [];
    const offers = prediction ? this.offersOf(trace, prediction).map((some) => ask("answer", some)) : [];
    const ways = prediction ? Object.values(this.waysOf(trace, prediction)) : [];
    const asked = ways.filter((way) => way.ask).map((way) => ask("answer", way.ask));
    const first = [...forecast, ...errors.slice(0, 1), ...sure.slice(0, 1)];
    this.wanted = [...first, ...remedies, ...offers, ...asked, ...errors.slice(1), ...sure.slice(1)];
    this.curves = null;
    this.curvesOf = () => questionsOfCurves().map((question) => ({ ...ask("answer", { question }), of: "curve" }));
    if (!this.isAsking) {
      this.askAll();
    }
  }

  /** The standard errors of a prediction: null if there are none, and undefined if they are still to come. */
  errorsOf(trace, prediction) {
    return mayHaveErrors(prediction) ? this.known.get(lateKey("errors", trace, prediction.question)) : null;
  }

  /** Tells plans and starts that are shown what is known of them. */
  tell(trace, { plans, starts }) {
    [...plans, ...starts].forEach((some) => { some.errors = this.errorsOf(trace, some); });
    plans.forEach((some) => {
      some.agreement = this.agreementOf(trace, some);
      some.forecast = this.forecastOf(trace, some);
    });
  }

  /** How sure the verdicts of a prediction are: null if nothing tells it, and undefined if it is still to come. */
  agreementOf(trace, prediction) {
    return mayBeSure(prediction) ? this.known.get(lateKey("agreement", trace, prediction.question)) : null;
  }

  /**
   * What comes of a prediction like QEMU: null if it is not told, and undefined if it is still to come. Beside one by
   * looks it would say the same twice, unless the trace ends first.
   */
  forecastOf(trace, prediction) {
    if (!mayBeForecast(prediction)) {
      return null;
    }
    const forecast = answerOver(trace, this.known.get(lateKey("forecast", trace, prediction.question)));
    return prediction.plan.isClark || !forecast || forecast.end === "record" ? forecast : null;
  }

  /** What keeps the limit of a prediction: null if there is no answer, and undefined if it is still to come. */
  leastOf(trace, prediction) {
    const remedies = this.known.get(lateKey("remedies", trace, prediction.question));
    return remediesOver(trace, prediction.cost, this.agreementOf(trace, prediction), remedies);
  }

  /** The answer to a question: null if there is none, and undefined if it is still to come. */
  answerTo(trace, question) {
    return answerOver(trace, this.known.get(lateKey("answer", trace, question)));
  }

  /** The ways out of a prediction that ends after the trace: each is found, or to be asked for. */
  waysOf(trace, prediction) {
    const least = this.leastOf(trace, prediction);
    if (!least || least.ends) {
      return {};
    }
    const { link, start } = waysOf(prediction, trace.sizes, trace.record?.start ?? 0, least);
    const first = (ways) => firstWay(ways, (question) => this.answerTo(trace, question));
    return { link: first(link), start: first(start) };
  }

  /** The amounts of few digits that may keep the limit of a prediction. */
  offersOf(trace, prediction) {
    const least = this.leastOf(trace, prediction);
    return least ? fewDigitsOffers(prediction, trace.sizes, least) : [];
  }

  /**
   * The same as `leastOf`, with those amounts of few digits that keep the limit, by their names, and the ways out of a
   * prediction that ends after the trace.
   */
  remediesOf(trace, prediction) {
    const offers = this.offersOf(trace, prediction);
    const answers = offers.map(({ question }) => this.answerTo(trace, question));
    const ways = Object.values(this.waysOf(trace, prediction));
    if (answers.includes(undefined) || ways.some(({ ask }) => ask)) {
      return undefined;
    }
    const kept = offers.filter((_, place) => answers[place] !== null && isGood(answers[place]));
    const least = this.leastOf(trace, prediction);
    const byName = Object.fromEntries(kept.map((some) => [some.name, some]));
    return least && { ...least, offers: byName, ways: ways.map(({ found }) => found).filter(Boolean) };
  }

  /** Asks until all that is wanted is known. */
  async askAll() {
    this.isAsking = true;
    try {
      for (let next = this.next(); next; next = this.next()) {
        this.keep(next.key, await this.ask(next));
        this.told(next.of ?? next.kind);
      }
    } finally {
      this.isAsking = false;
    }
  }

  next() {
    const isOpen = ({ key }) => !this.known.has(key);
    const next = this.wanted.find(isOpen);
    if (next === undefined && this.curves === null) {
      this.curves = this.curvesOf();
      this.told("curve");
    }
    return next ?? this.curves.find(isOpen);
  }

  /** The answer, or null if the worker gives none, as if it cannot read the trace. */
  async ask({ kind, trace, question, key }) {
    const { value } = await foundBy(async () => {
      await this.read(trace);
      return this.open === trace ? this.client.ask(kind, { question }) : undefined;
    });
    if (value === undefined) {
      this.failed.add(key);
    }
    return value ?? null;
  }

  /** Has what got no answer asked again: with a new plan and not at once, for a worker may end each time. */
  askAgain() {
    this.failed.forEach((key) => this.known.delete(key));
    this.failed.clear();
    this.unread = null;
  }

  /** Has the worker read a trace, once. */
  async read(trace) {
    if (this.open !== trace && this.unread !== trace) {
      this.unread = trace;
      await this.client.open(trace.blob, () => {});
      this.open = trace;
    }
  }

  /** Keeps an answer, and forgets the oldest of many. */
  keep(key, value) {
    this.known.set(key, value);
    if (this.known.size > MOST_KNOWN) {
      const [oldest] = this.known.keys();
      this.known.delete(oldest);
    }
  }
}
