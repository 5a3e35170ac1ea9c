// The section on links: what the migration would cost over slower and faster ones, as curves.

import { CURVE_HEIGHT, curvesParts, CURVES, curveTop } from "./curves.js";
import { area, byId, label, LETTER } from "./elements.js";
import { saveButtons } from "./exports.js";
import { Inspector } from "./inspector.js";
import { linkCosts, LINK_PLACES, linkPlace, linkPoints, linkRows } from "../model/links.js";
import { AXIS_HEIGHT, axisOf, pictureOf, widthOf } from "./plot.js";
import { counted } from "../model/numbers.js";
import { fewDigits, inFittingUnit, quantityWords, roundedUnit, unitName } from "../model/quantities.js";
import { costWords } from "./starts-chart.js";
import { RATE_UNITS } from "../model/units.js";

/** The curves that are drawn: downtime and total time. */
const OF_LINKS = CURVES.slice(0, 2);

/** How many times each label is the one before. */
const LABEL_RATIOS = [1 / 8, 1 / 4, 1 / 2, 1, 2, 4, 8];

/** The labels of an axis of links, and their title. Where they would touch, only every third one has words. */
function linkLabels(axis, { amount, unit }, bottom) {
  const fitting = roundedUnit(amount, unit, RATE_UNITS);
  const places = LABEL_RATIOS.map((ratio) => axis.place(linkPlace(amount * ratio, amount)));
  const words = LABEL_RATIOS.map((ratio) => counted(fewDigits((amount * ratio) / Number(RATE_UNITS[fitting]))));
  const last = places.length - 1;
  const widest = Math.max(...words.map(({ length }) => length)) * LETTER;
  // The last label ends at its mark, so it reaches further to the one before it.
  const step = 1.5 * widest > places[last] - places[last - 1] ? 3 : 1;
  const marks = places.flatMap((x, at) => {
    const mark = area("line", x, bottom + 1, 1, 5);
    const [side, from] = at === last ? ["end", axis.width - 2] : ["middle", x];
    return at % step === 0 ? [mark, label(side, from, bottom + 19, words[at])] : [mark];
  });
  return [...marks, label("middle title", axis.width / 2, bottom + 40, `link, ${unitName(fitting, RATE_UNITS)}`)];
}

export class LinksView {
  /** `choose` takes another link. */
  constructor(choose) {
    this.choose = choose;
    this.plot = byId("links-plot");
    this.inspector = new Inspector(this.plot, byId("links-readout"), "Links", byId("links-take"));
    this.points = null;
    this.costs = [];
    byId("links-take").after(saveButtons("links", "the links", {
      picture: () => this.plot.querySelector("svg"), table: () => this.costs.length > 0 && linkRows(this.costs),
    }));
  }

  /** Forgets the curves of another trace. If there are to be others, they are still seen until then, grey. */
  forget(isAwaited) {
    [this.prediction, this.points, this.costs, this.drawnOf] = [null, null, [], null];
    this.inspector.hold(null);
    if (!isAwaited) {
      this.plot.replaceChildren();
    }
  }

  /**
   * Learns the prediction that is shown over a trace of some sizes, if there is one: the questions of its curves are to
   * be asked.
   */
  follow(prediction, sizes) {
    if (sizes !== this.sizes) {
      this.forget(prediction !== null);
    }
    if (prediction && prediction !== this.prediction) {
      this.prediction = prediction;
      this.points = null;
    }
    this.sizes = sizes;
    this.isStale = !prediction;
    byId("links").classList.toggle("stale", this.isStale);
  }

  /** The questions of the curves. To make them takes a while. */
  questions() {
    this.points ??= this.prediction ? linkPoints(this.prediction, this.sizes) : [];
    return this.points.map(({ question }) => question).filter(Boolean);
  }

  /** Draws the curves once all answers are there; until then the last ones stay, grey. */
  draw(answerTo) {
    const answers = this.points?.map(({ question }) => (question ? answerTo(question) : null));
    const isMissing = !answers || answers.includes(undefined);
    const isFailed = !isMissing && answers.some((answer, at) => answer === null && this.points[at].question);
    // Of settings without a plan nothing is asked.
    const isAwaited = isMissing && !this.isStale;
    byId("links").setAttribute("aria-busy", String(isAwaited));
    byId("links").classList.toggle("old", isAwaited || isFailed);
    if (isFailed && !this.drawnOf) {
      this.plot.replaceChildren();
    }
    if (isMissing || isFailed || !this.prediction) {
      return;
    }
    const key = JSON.stringify([widthOf(this.plot), this.points.map(({ link }) => link)]);
    if (this.drawnOf === this.prediction && this.drawnKey === key) {
      return;
    }
    [this.drawnOf, this.drawnKey] = [this.prediction, key];
    const { state: { link }, limits } = this.prediction;
    this.costs = linkCosts(this.points, answers, link.amount);
    const axis = axisOf(widthOf(this.plot), 0, LINK_PLACES);
    const here = { start: linkPlace(link.amount, link.amount) };
    const { parts, bottom } = curvesParts(axis, { costs: this.costs, limits, marks: [["stop", here]], noun: "link" },
      OF_LINKS);
    parts.push(...linkLabels(axis, link, bottom));
    this.plot.replaceChildren(pictureOf(axis.width, bottom + AXIS_HEIGHT, parts));
    this.inspector.hold(this.look(axis));
  }

  /** How the links of the picture are looked at. */
  look(axis) {
    const { costs } = this;
    const fittingOf = ({ link: { amount, unit } }) => inFittingUnit(amount, unit, RATE_UNITS);
    const words = (at) => quantityWords(fittingOf(costs[at]), RATE_UNITS);
    const distance = (at, place) => Math.abs(axis.place(costs[at].start) - place);
    return {
      count: costs.length,
      panels: OF_LINKS.map((_, place) => ({ top: curveTop(place), height: CURVE_HEIGHT })),
      find: (place) => costs.reduce((best, _, at) => (distance(at, place) < distance(best, place) ? at : best), 0),
      words: (at) => `Link ${words(at)}: ${costWords(costs[at].cost)}`,
      span: (at) => [axis.place(costs[at].start) - 1, axis.place(costs[at].start) + 1],
      choose: (at) => this.choose(costs[at].link),
      offer: (at) => `Take ${words(at)}`,
      none: "No link near this one makes a plan.",
    };
  }
}
