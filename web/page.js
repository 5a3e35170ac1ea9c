// The page: it holds the state, has each change planned by the worker, and has the sections drawn.

import { ControlRefusal, takeRules } from "./model/asking.js";
import { CommandsView } from "./views/commands-view.js";
import { Controls } from "./views/controls.js";
import { derivedWords } from "./model/derived.js";
import { announce, byId, keepFocus, oncePerFrame } from "./views/elements.js";
import { fittedSettings, withLimitsOf, withRecord } from "./model/fitting.js";
import { foundBy } from "./model/found.js";
import { KeptPlans } from "./model/kept-plans.js";
import { nearestSettings } from "./model/nearest.js";
import { momentText, unbroken } from "./model/numbers.js";
import { LateAnswers } from "./engine/late-answers.js";
import { LimitsView } from "./views/limits-view.js";
import { LinksView } from "./views/links-view.js";
import { keptPredictions, PlanView } from "./views/plan-view.js";
import { serve } from "./engine/planner-worker.js";
import { MapView } from "./views/map-view.js";
import { listenToPrinting } from "./views/paper.js";
import { Past } from "./views/past.js";
import { watchWidths } from "./views/plot.js";
import { hasWideMemory, Planner } from "./engine/planner.js";
import { predictionOf } from "./model/predictions.js";
import { StartsView } from "./views/starts-view.js";
import { fragmentOf, MOST_KEPT, presetOf, stateIn, withoutPreset } from "./model/state.js";
import { suggestionsOf } from "./model/suggestions.js";
import { TimePlots } from "./views/time-plots.js";
import { listenToDrops, TraceDesk } from "./views/trace-desk.js";
import { embeddedBytes } from "./engine/trace-source.js";
import { amountOf, microsOf } from "./model/units.js";
import { WindowsView } from "./views/windows-view.js";

/** How long the page waits for a change to be the last one until it announces it, in milliseconds. */
const SETTLED = 400;

/** The example that is shown if the address asks for nothing. */
const FIRST_EXAMPLE = "sqlite";

class Page {
  /** `ready` is kept once the module makes settings: no trace is taken before. */
  constructor(ready) {
    this.ready = ready;
    this.state = stateIn(location.hash);
    this.isGiven = location.hash.length > 1;
    // Whether the settings over the open trace came with an address, and the fingerprint of the trace that it names.
    this.isAddressed = false;
    this.addressed = this.state.print;
    // How many addresses were followed, how many of their traces are still to come, and whose settings are shown.
    [this.followed, this.openings, this.taken] = [0, 0, null];
    this.fitted = new Set();
    this.chosen = new Set();
    this.keptPlans = new KeptPlans((trace, settings) => foundBy(() => predictionOf(trace, settings)));
    this.past = new Past(() => this.settle());
    this.revision = 0;
    this.isUntold = false;
    this.isPlanning = false;
    this.planSoon = oncePerFrame(() => this.plan());
    this.controls = new Controls(byId("controls"), (settings, names) => this.change(settings, names));
    this.desk = new TraceDesk((trace, wish) => this.take(trace, wish));
    this.times = new TimePlots(() => this.draw());
    this.windows = new WindowsView((tick) => this.startAt(tick), this.times);
    this.plans = new PlanView((name) => this.controls.focus(name), () => this.fitAnew(), this.planSoon, this.times);
    this.map = new MapView(this.times);
    this.starts = new StartsView((tick) => this.startAt(tick), () => this.draw(), announce, this.times);
    this.limits = new LimitsView((settings, name) => this.controls.take(settings, [name]));
    this.links = new LinksView((link) => this.controls.set("link", link));
    this.commands = new CommandsView();
    this.late = new LateAnswers((kind) => this.drawLate(kind));
    this.controls.show(this.state.settings);
  }

  listen() {
    byId("file").addEventListener("change", ({ target }) => {
      const files = [...target.files];
      target.value = "";
      this.takeFiles(files);
    });
    for (const button of document.querySelectorAll("[data-example]")) {
      button.addEventListener("click", () => this.takeExample(button.dataset.example));
    }
    byId("keep").addEventListener("click", () => this.keep());
    byId("undo-start").addEventListener("click", () => this.undoStart());
    byId("comparison").addEventListener("click", ({ target }) => this.pressed(target));
    listenToDrops((files) => this.takeFiles(files));
    addEventListener("popstate", () => this.follow());
    listenToPrinting(() => this.draw());
    watchWidths([byId("windows-plot"), byId("starts-plot"), byId("links-plot"), byId("map-plot")], this.planSoon);
  }

  async takeExample(example) {
    await this.ready;
    await this.desk.takeExample(example, { followed: this.followed });
  }

  async takeFiles(files) {
    await this.ready;
    await this.desk.takeFiles(files, { isGiven: this.isGiven && this.desk.trace === null, followed: this.followed });
  }

  async open() {
    this.listen();
    await this.ready;
    const example = this.state.example ?? (this.isGiven ? null : FIRST_EXAMPLE);
    if (example) {
      await this.desk.takeExample(example, { isGiven: this.isGiven, followed: this.followed });
    } else {
      const { print } = this.state;
      const whose = print ? `the trace whose SHA-256 begins with ${print}` : "a trace";
      this.desk.want(`This address has settings for ${whose}. Choose it, or an example.`);
    }
  }

  /** Takes a trace that is open now, with settings for it; unless an address of another was gone to meanwhile. */
  take(trace, { isGiven: isOfAddress = false, isRecordOnly = false, followed = this.followed }) {
    const isLeft = followed !== this.followed;
    if (isLeft && this.opensAddressed()) {
      return;
    }
    // The address may be of this trace, and not of the one that was opened before.
    const isNamed = this.state.print === trace.print && this.taken?.print !== trace.print;
    const isGiven = isOfAddress || isLeft || isNamed;
    this.taken = trace;
    const { example } = trace.source;
    this.isAddressed = isRecordOnly ? this.isAddressed : isGiven;
    this.fitted = isGiven ? this.fitted : new Set();
    this.state.settings = this.settingsBeside(this.settingsFor(trace), trace, isRecordOnly);
    this.keptPlans.open(trace, isRecordOnly || isNamed ? null : this.shown);
    const kept = isGiven || isRecordOnly ? this.state.kept : this.keptPlans.settings();
    const wanted = isGiven ? this.state.print : null;
    this.state = { ...this.state, kept, example, print: wanted ?? trace.print };
    this.keptPlans.forget();
    this.starts.take(trace);
    this.plans.forget();
    this.times.forget(trace.sizes.last);
    document.body.classList.add("loaded");
    byId("moved").hidden = true;
    this.controls.unread = null;
    this.controls.show(this.state.settings);
    this.controls.fit(trace.sizes, trace.record?.start ?? 0);
    this.planAnew();
    this.settle();
  }

  /**
   * The settings for a trace that is open now. An address of this very trace has all of them; of another, or of none,
   * the record comes before the address, but the limits stay. An example has its own. Else they are fitted to the trace
   * and its record.
   */
  settingsFor(trace) {
    const { source: { example }, record, sizes } = trace;
    if (this.isAddressed) {
      return this.addressedSettings(trace);
    }
    if (example) {
      return presetOf(example);
    }
    const found = fittedSettings(this.settingsToFit(), this.chosen, sizes, record);
    this.fitted = new Set(found.fitted);
    return found.settings;
  }

  addressedSettings({ print, record }) {
    const { settings, example } = this.state;
    return example || !record || this.addressed === print ? settings : withRecord(settings, record);
  }

  /** Settings for another trace, but with the limits of before if a plan is kept to compare, and they make a plan. */
  settingsBeside(settings, { sizes }, isRecordOnly) {
    const { settings: before, kept } = this.state;
    if (isRecordOnly || this.isAddressed || kept.length + this.keptPlans.others.length === 0) {
      return settings;
    }
    const same = withLimitsOf(before, settings, sizes);
    this.fitted = same === null ? this.fitted : new Set();
    return same ?? settings;
  }

  /** The settings that are fitted to another trace. Those of an example go with it. */
  settingsToFit() {
    const { settings, example } = this.state;
    return example ? withoutPreset(settings, example, this.chosen) : settings;
  }

  /** Takes settings that the user has changed, with the names of those that were chosen. */
  change(settings, names) {
    names.forEach((name) => this.chosen.add(name));
    this.fitted = new Set([...this.fitted].filter((name) => !names.includes(name)));
    byId("moved").hidden = true;
    this.state = { ...this.state, settings, print: this.desk.trace?.print ?? this.state.print };
    this.changed();
  }

  /** Has what is asked now planned soon: what was drawn before is of something else. */
  planAnew() {
    this.revision += 1;
    this.planSoon();
  }

  changed() {
    this.planAnew();
    clearTimeout(this.settling);
    this.settling = setTimeout(() => this.settle(), SETTLED);
  }

  /** Starts the migration at a tick, as a picture or an answer says, with a way back. */
  startAt(tick) {
    const start = Math.min(tick, this.desk.trace.sizes.last);
    const before = this.state.settings;
    if (start === before.start) {
      return;
    }
    this.startBefore = before;
    this.moved = document.activeElement;
    this.controls.set("start", start);
    const at = (ticks) => unbroken(momentText(microsOf({ tick: amountOf(before.tick) }, ticks)));
    byId("moved-words").textContent = `The start is moved from ${at(before.start)} to ${at(start)}.`;
    byId("moved").hidden = false;
  }

  undoStart() {
    const { start, base } = this.startBefore;
    keepFocus(() => { byId("moved").hidden = true; }, () => this.moved);
    this.controls.take({ ...this.state.settings, start, base }, []);
  }

  fitAnew() {
    const { sizes, record } = this.desk.trace;
    this.chosen.clear();
    const { settings, fitted } = fittedSettings(this.state.settings, this.chosen, sizes, record);
    this.fitted = new Set(fitted);
    this.controls.take(settings, []);
  }

  keep() {
    const { settings, kept } = this.state;
    this.keptPlans.makeRoom(kept);
    this.keepOnly([...kept, structuredClone(settings)].slice(-MOST_KEPT));
  }

  keepOnly(kept) {
    this.state = { ...this.state, kept };
    this.changed();
  }

  /** A button of the comparison: it takes a kept plan's settings, or drops the plan. */
  pressed({ dataset }) {
    const { kept, settings } = this.state;
    if (dataset.drops !== undefined) {
      this.keepOnly(this.keptPlans.without(Number(dataset.drops), kept));
    } else if (dataset.exchanges !== undefined) {
      const place = Number(dataset.exchanges) - this.keptPlans.others.length;
      const other = { ...kept[place], window: settings.window, ticks: settings.ticks };
      this.state = { ...this.state, kept: kept.with(place, structuredClone(settings)) };
      this.controls.take(other, [...this.fitted].filter((name) => other[name].amount !== settings[name].amount));
    }
  }

  /** Follows an address: the user went back or forward, or changed it. */
  follow() {
    this.state = stateIn(location.hash);
    clearTimeout(this.settling);
    this.isGiven = true;
    this.isAddressed = true;
    this.addressed = this.state.print;
    const { fitted = [], chosen = this.chosen } = this.past.follow();
    [this.fitted, this.chosen] = [new Set(fitted), new Set(chosen)];
    this.keptPlans.forget();
    byId("moved").hidden = true;
    this.followed += 1;
    if (!this.opensAddressed()) {
      this.showAddressed();
    }
  }

  /** Shows the settings of the address over the trace that is open. */
  showAddressed() {
    if (this.desk.trace) {
      this.state.settings = this.addressedSettings(this.desk.trace);
    }
    this.controls.unread = null;
    this.controls.show(this.state.settings);
    this.planAnew();
    this.tellAddress();
    this.announce();
  }

  /** Opens the trace of the address, if another one is open and the page has it, and says whether it does. */
  opensAddressed() {
    const { desk, followed, state: { example, print } } = this;
    const wish = { isGiven: true, followed };
    if (example && example !== desk.trace?.source.example) {
      this.openAddressed(desk.takeExample(example, wish));
      return true;
    }
    if (!example && print && print !== desk.trace?.print && desk.sources.has(print)) {
      this.openAddressed(desk.reopen(print, wish));
      return true;
    }
    return false;
  }

  /**
   * Waits for the trace of an address. If it is refused, one that was opened before it may still have to be taken, and
   * else the settings are shown over that which is open still.
   */
  async openAddressed(opening) {
    this.openings += 1;
    try {
      await opening;
    } finally {
      this.openings -= 1;
    }
    if (this.openings === 0 && this.desk.trace !== this.taken) {
      this.take(this.desk.trace, { isGiven: true });
    } else if (this.openings === 0 && this.otherTrace() !== "") {
      this.showAddressed();
    }
  }

  predicted(trace) {
    if (this.controls.unread) {
      throw this.controls.unread;
    }
    return predictionOf(trace, this.state.settings);
  }

  /** Plans and draws; if something changes meanwhile, once more. */
  async plan() {
    this.isAgain = true;
    if (this.isPlanning) {
      return;
    }
    this.isPlanning = true;
    try {
      while (this.isAgain && this.taken && this.taken === this.desk.trace) {
        this.isAgain = false;
        await this.planOnce(this.taken);
      }
    } finally {
      this.isPlanning = false;
    }
  }

  async planOnce(trace) {
    const begun = performance.now();
    const { revision, state: { settings } } = this;
    const found = await foundBy(async () => this.predicted(trace));
    const planned = performance.now();
    const kept = await this.keptPlans.all(trace, this.state);
    await foundBy(() => this.windows.count(trace, settings));
    if (trace !== this.desk.trace) {
      return;
    }
    this.shown = { trace, settings, found, kept, revision };
    this.late.askAgain();
    this.draw();
    this.announceDrawn();
    await this.windows.fillApart();
    performance.clearMeasures("plan");
    performance.clearMeasures("replan");
    performance.measure("plan", { start: begun, end: planned });
    performance.measure("replan", { start: begun, end: performance.now() });
  }

  /** Draws what was planned last. */
  draw() {
    if (!this.shown) {
      return;
    }
    const { trace, settings, found, kept } = this.shown;
    const nearest = found.refusal instanceof ControlRefusal ? this.nearest(found.refusal, settings, trace) : null;
    this.desk.tell(settings, this.otherTrace());
    this.windows.draw(settings, found.value);
    this.askLate();
    this.plans.draw(settings, found, kept);
    byId("keep").disabled = !found.value;
    byId("keep").textContent = kept.length < MOST_KEPT ? "Keep to compare" : "Keep in place of the first";
    this.drawLimits();
    this.drawLinks();
    if (this.windows.axis) {
      const { length } = this.windows.counted;
      this.map.follow(trace, this.windows.axis, { settings, prediction: found.value, length });
    } else {
      this.map.stop(trace);
    }
    this.starts.follow(found.value, this.controls.begin);
    this.starts.draw(this.windows.axis);
    this.commands.draw(found.value, trace.sizes, this.controls.begin);
    this.controls.derive(derivedWords(settings, found.value, trace.sizes));
    this.controls.suggest(suggestionsOf(trace, settings, this.fitted));
    this.controls.refuse(found.refusal, nearest);
  }

  /** The predictions whose verdicts are shown: that of now, or else the last one, and the kept ones. */
  predictionsShown({ found, kept }) {
    return [found.value ?? this.plans.last, ...keptPredictions(kept.filter(({ name }) => !name))].filter(Boolean);
  }

  /** Asks for what takes long, and tells the predictions what is known of it. */
  askLate() {
    const { trace, found } = this.shown;
    const shown = { plans: this.predictionsShown(this.shown), starts: this.starts.chosen() };
    this.links.follow(found.value ?? null, trace.sizes);
    this.late.follow(trace, found.value ?? null, shown, () => this.links.questions());
    this.late.tell(trace, shown);
  }

  /** Draws an answer of some kind that has come. If another trace is open meanwhile, its plan will draw it. */
  drawLate(kind) {
    if (this.shown?.trace !== this.desk.trace) {
      return;
    }
    const { settings, found, kept } = this.shown;
    if (kind === "curve") {
      this.drawLinks();
      return;
    }
    this.askLate();
    if (kind === "forecast") {
      this.plans.drawForecast();
      return;
    }
    if (kind !== "errors") {
      this.drawLimits();
    }
    if (kind === "errors" || kind === "agreement") {
      this.starts.tell();
      this.plans.drawLate(settings, found, kept);
      this.announceDrawn();
    }
  }

  drawLinks() {
    this.links.draw((question) => this.late.answerTo(this.shown.trace, question));
  }

  drawLimits() {
    const { trace, found } = this.shown;
    const prediction = found.value ?? null;
    this.limits.show(trace, prediction, prediction && this.late.remediesOf(trace, prediction));
  }

  nearest(refusal, settings, { sizes }) {
    return refusal === this.controls.unread ? settings : nearestSettings(settings, refusal, sizes);
  }

  /** What is said if the address is of another trace than the open one. */
  otherTrace() {
    const { print, example } = this.state;
    return print && !example && print !== this.desk.trace.print
      ? `This address has the settings of another trace, whose SHA-256 begins with ${print}. That of the open one `
        + `begins with ${this.desk.trace.print}.` : "";
  }

  /** Tells the last of several changes: as an address to go back to, and to a screen reader. */
  settle() {
    clearTimeout(this.settling);
    const fragment = `#${fragmentOf(this.state)}`;
    this.past.add(fragment, { fitted: [...this.fitted], chosen: [...this.chosen] });
    this.tellAddress();
    this.announce();
  }

  /** Announces the plan of what is asked now once it is drawn, and it is known how sure its verdict is. */
  announce() {
    this.isUntold = true;
    this.announceDrawn();
  }

  announceDrawn() {
    if (this.isUntold && this.shown?.revision === this.revision && this.shown.trace === this.desk.trace) {
      const words = this.plans.wordsOf(this.shown.found);
      this.isUntold = words === null;
      if (words !== null) {
        announce(words);
      }
    }
  }

  tellAddress() {
    this.commands.tellAddress(`#${fragmentOf(this.state)}`);
  }
}

/** Opens the page, or says why it cannot. */
async function open() {
  if (!hasWideMemory() || typeof DecompressionStream === "undefined") {
    byId("trace-state").textContent = "This browser cannot run the planner: it lacks WebAssembly memory of 64-bit "
      + "addresses. Chromium and Firefox have it from version 134 on.";
    document.querySelectorAll("#trace button, #trace input").forEach((control) => { control.disabled = true; });
    return;
  }
  const ready = embeddedBytes("planner-module").then((bytes) => Planner.withoutTrace(bytes)).then(takeRules);
  await new Page(ready).open();
}

if (typeof document === "undefined") {
  serve();
} else {
  open();
}
