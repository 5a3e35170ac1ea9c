// The controls: for each setting a number with its unit, and a slider. All of them read and change one settings object.
// What is refused is said at its control, with a button for the nearest value that plans.

import { ControlRefusal } from "../model/asking.js";
import { GROUPS } from "../model/control-list.js";
import { decimalText, momentText } from "../model/numbers.js";
import { byId, html, isCommand, keepFocus, mark, put, renew, tellIn } from "./elements.js";
import {
  amountAt, countAt, placeOf, PLACES, quantityNear, quantityWords, shownCount, unitName,
} from "../model/quantities.js";
import { typedNumber, typedQuantity, typedTicks } from "../model/typing.js";
import { amountOf, microsOf } from "../model/units.js";

/** Digits of the weight of a page that its field shows. */
const WEIGHT_DIGITS = 7;

/** By how much a key steps a number. */
const STEPS = new Map([["ArrowUp", 1], ["ArrowDown", -1]]);

/** What may follow the number of a control without a unit. */
const NOUNS = ["%", "tick", "ticks", "page", "pages", "round", "rounds"];

/** A number that a field says, whole or a decimal, or null. */
function numberIn(field, isWhole) {
  const number = typedNumber(field.value, NOUNS) ?? "";
  return (isWhole ? /^\d{1,15}$/ : /^\d{1,10}(\.\d{1,9})?$/).test(number) ? Number(number) : null;
}

/** What a field takes, in words. */
function kindOfNumber({ units, isPercent, isSample, isTick }) {
  if (isPercent) {
    return "a number from 0 to 100";
  }
  if (isTick) {
    return "a time that can be taken, such as 12, 0.5 s or 1000 ticks";
  }
  return units || isSample ? "a number that can be taken, such as 12 or 0.5" : "a whole number that can be taken";
}

function weightOf(sample) {
  return sample === null ? 1 : Number((sample.whole / sample.part).toPrecision(WEIGHT_DIGITS));
}

/** The controls of the page. `change` is called with the settings after each change. */
export class Controls {
  constructor(form, change) {
    this.change = change;
    this.settings = null;
    this.sizes = null;
    this.begin = 0;
    this.unread = null;
    this.parts = {};
    const group = ({ title, controls }) => html("fieldset", {}, html("legend", {}, title),
      ...controls.map((control) => this.built(control)));
    const summary = html("summary", {}, "More settings");
    this.more = html("details", { id: "more-settings" }, summary, ...GROUPS.more.map(group));
    form.append(group(GROUPS.main), this.more);
    form.addEventListener("submit", (event) => event.preventDefault());
    form.addEventListener("click", ({ target }) => this.chooseSuggested(target.dataset));
  }

  built(control) {
    const part = { control };
    this.parts[control.name] = part;
    const id = `control-${control.name}`;
    if (control.isSwitch) {
      part.field = html("input", { type: "checkbox", id });
      part.field.addEventListener("change", () => this.flip(control.name, part.field.checked));
      part.whole = html("div", { class: "control switch" }, part.field, html("label", { for: id }, control.label));
      return part.whole;
    }
    part.field = html("input", {
      type: "text", id, inputmode: "decimal", autocomplete: "off", spellcheck: "false",
      "aria-describedby": control.isPlain ? `${id}-fault` : `${id}-derived ${id}-fault`,
    });
    part.slider = html("input", { type: "range", "aria-label": `${control.label}, slider`, min: "0" });
    part.derived = control.isPlain ? null : html("p", { class: "derived", id: `${id}-derived` });
    part.suggestion = html("p", { class: "suggestion", hidden: true });
    part.fault = html("div", { class: "fault", id: `${id}-fault` });
    part.field.addEventListener("input", () => this.typed(part));
    part.field.addEventListener("change", () => this.unread || this.show(this.settings));
    part.field.addEventListener("keydown", (event) => this.stepped(part, event));
    part.slider.addEventListener("input", () => this.slid(part));
    part.unit = control.units ? this.unitChoice(part) : html("span", { class: "unit" }, control.unit ?? "");
    const fields = html("div", { class: "fields" }, part.field, part.unit);
    part.whole = html("div", { class: "control", "data-control": control.name },
      html("div", { class: "head" }, html("label", { for: id }, control.label), fields), part.slider,
      ...(part.derived ? [part.derived] : []), part.suggestion, part.fault);
    return part.whole;
  }

  unitChoice(part) {
    const { name, units, label } = part.control;
    const choice = html("select", { "aria-label": `${label}, unit` }, ...Object.keys(units).map((unit) =>
      html("option", { value: unit }, unitName(unit, units))));
    choice.addEventListener("change", () => this.set(name, { ...this.settings[name], unit: choice.value }));
    return choice;
  }

  /** What a field says, as a value of the settings, or null. */
  valueIn({ control, field }) {
    const { name, units, isPercent, isSample, isTick } = control;
    if (units) {
      return typedQuantity(field.value, this.settings[name].unit, units);
    }
    if (isTick) {
      return typedTicks(field.value, amountOf(this.settings.tick), this.settings.ticks);
    }
    const number = numberIn(field, !isPercent && !isSample);
    if (number === null || (isPercent && (number > 100 || !/^\d+(\.\d{1,6})?$/.test(String(number))))) {
      return null;
    }
    return isSample ? this.sampleFor(number) : number;
  }

  /** The sample in which a page stands for so many of the guest's. */
  sampleFor(weight) {
    const part = Math.max(this.settings.sample?.part ?? 0, this.sizes?.pages ?? 1);
    return { part, whole: Math.round(part * weight) };
  }

  typed(part) {
    const { name } = part.control;
    const value = this.valueIn(part);
    if (value === null) {
      const said = part.field.value.trim() === "" ? "There is no number."
        : `\u201c${part.field.value}\u201d is not ${kindOfNumber(part.control)}.`;
      this.unread = new ControlRefusal(name, said);
      this.change(this.settings, []);
    } else {
      this.unread = null;
      this.set(name, value, part.field);
    }
  }

  /** Arrow keys step a number, as they do in the browser's own fields. What is typed as ticks stays ticks. */
  stepped(part, event) {
    const step = STEPS.get(event.key);
    const number = numberIn(part.field, false);
    if (step && number !== null && !isCommand(event)) {
      event.preventDefault();
      const noun = /ticks?\s*$/.test(part.field.value) ? " ticks" : "";
      part.field.value = `${Number(Math.max(0, number + step).toFixed(9))}${noun}`;
      this.typed(part);
    }
  }

  slid(part) {
    const { name, units, low, high, isLog, isSample, hasZero } = part.control;
    const place = Number(part.slider.value);
    this.unread = null;
    if (units) {
      const { unit } = this.settings[name];
      const isZero = hasZero && place === 0;
      this.set(name, isZero ? { amount: 0, unit } : quantityNear(amountAt(place, low, high), unit, units), part.slider);
    } else if (isSample) {
      this.set(name, this.sampleFor(countAt(place, low, high)), part.slider);
    } else {
      this.set(name, isLog ? countAt(place, low, high) : place, part.slider);
    }
  }

  /** Changes a setting. The copy of a warm start stays as long before the start as it was, if it would be after it. */
  set(name, value, source = null) {
    const settings = { ...this.settings, [name]: value };
    const { base, start } = this.settings;
    if (name === "start" && base !== null && base > value) {
      settings.base = Math.max(0, value - Math.max(0, start - base));
    }
    this.take(settings, [name], source);
  }

  take(settings, names, source = null) {
    this.unread = null;
    this.show(settings, source);
    this.change(settings, names);
  }

  flip(name, isOn) {
    if (name === "warm") {
      this.take({ ...this.settings, ...(isOn ? this.warmPlace() : { base: null }) }, ["base"]);
    } else {
      this.set(name, isOn);
    }
  }

  /** A copy half-way to the start; a start at the very begin moves to a quarter of the trace, after its copy. */
  warmPlace() {
    const { start } = this.settings;
    const last = this.sizes?.last ?? start;
    return start > this.begin ? { start, base: this.begin + Math.floor((start - this.begin) / 2) }
      : { start: this.begin + Math.ceil((last - this.begin) / 4), base: this.begin };
  }

  /** Learns the trace: its sizes, and the tick at which its recording begins. */
  fit(sizes, begin) {
    this.sizes = sizes;
    this.begin = Math.min(begin, sizes.last);
    this.parts.start.control.high = Math.max(1, sizes.last);
    this.parts.window.control.high = Math.max(2, sizes.last + 1);
    this.show(this.settings);
  }

  /**
   * Shows settings. The field or slider that the user changes stays as it is: one step of a slider may come to the same
   * round number, and has to lead on.
   */
  show(settings, source = null) {
    this.settings = settings;
    this.parts.base.control.high = Math.max(1, settings.start);
    ["skip", "ticks", "clark"].forEach((name) => { this.parts[name].field.checked = settings[name]; });
    this.parts.warm.field.checked = settings.base !== null;
    this.parts.base.whole.hidden = settings.base === null;
    for (const part of Object.values(this.parts)) {
      if (part.control.isOfRounds) {
        part.whole.hidden = !settings.clark;
      }
      if (part.slider) {
        this.showPart(part, settings[part.control.name] ?? 0, source);
      }
    }
  }

  showPart(part, value, source) {
    const { units, low, high, isLog, isSample, isTick } = part.control;
    const number = isSample ? weightOf(value || null) : value;
    if (part.field !== source) {
      put(part.field, "value", units ? shownCount(value, units) : isTick ? this.countOfTicks(value) : number);
    }
    if (isTick) {
      part.field.dataset.ticks = value;
      tellIn(part.unit, this.settings.ticks ? "ticks" : "s");
    }
    if (units) {
      put(part.unit, "value", value.unit);
    }
    const amount = units ? value.amount : number;
    put(part.slider, "max", units || isLog ? PLACES : high);
    put(part.slider, "min", units || isLog ? 0 : low);
    if (part.slider !== source) {
      put(part.slider, "value", units || isLog ? placeOf(amount, low, high) : amount);
    }
    mark(part.slider, "aria-valuetext", this.wordsOf(part, value));
  }

  /** Ticks as the field of a control shows them: in seconds, or as they are. */
  countOfTicks(ticks) {
    return this.settings.ticks ? String(ticks) : decimalText(microsOf(this.scale(), ticks), 1_000_000n, 6);
  }

  scale() {
    return { tick: amountOf(this.settings.tick) };
  }

  /** Says below controls what they come to. */
  derive(words) {
    for (const [name, part] of Object.entries(this.parts)) {
      if (part.derived) {
        tellIn(part.derived, words[name] ?? "");
      }
    }
  }

  /**
   * Says at controls, by their names, what is known of their values: the name of a file that says it, words, and
   * choices of a value, each with the settings that it takes.
   */
  suggest(suggestions) {
    // What a record says otherwise is seen; the user may fold it then.
    const isOther = [...suggestions].some(([name, { name: file }]) => file && !this.suggestions?.get(name)?.name);
    this.more.open ||= isOther;
    this.suggestions = suggestions;
    for (const part of Object.values(this.parts).filter(({ suggestion }) => suggestion)) {
      const found = suggestions.get(part.control.name);
      part.suggestion.hidden = !found;
      keepFocus(() => renew(part.suggestion, ...(found ? this.suggestedParts(part, found) : [])),
        () => part.suggestion.querySelector("button") ?? part.field);
    }
  }

  suggestedParts(part, { name, words, choices }) {
    const buttons = choices.map(({ value }, place) => {
      const said = this.wordsOf(part, value);
      return html("button", {
        type: "button", class: "small", "data-suggested": part.control.name, "data-place": place,
        "aria-label": `${part.control.label}: take ${said}`,
      }, said);
    });
    return [...(name ? [html("bdi", {}, name)] : []), words, ...buttons];
  }

  chooseSuggested({ suggested, place }) {
    const choice = this.suggestions?.get(suggested)?.choices[place];
    if (choice) {
      this.take(choice.settings, [suggested]);
    }
  }

  /** Says at a control why it is refused, with a button that takes other settings; without a refusal says nothing. */
  refuse(refusal, nearest) {
    const refused = this.parts[refusal?.control];
    for (const part of Object.values(this.parts).filter(({ fault }) => fault)) {
      mark(part.field, "aria-invalid", String(part === refused));
      if (part === refused || part.fault.childElementCount > 0) {
        const parts = part === refused ? [this.faultPart(part, refusal, nearest)] : [];
        keepFocus(() => part.fault.replaceChildren(...parts), () => part.fault.querySelector("button") ?? part.field);
      }
    }
    if (refused && this.more.contains(refused.whole)) {
      this.more.open = true;
    }
    if (refused?.whole.contains(document.activeElement)) {
      refused.fault.scrollIntoView({ block: "nearest" });
    }
  }

  faultPart(part, refusal, nearest) {
    if (!nearest) {
      return html("p", {}, refusal.message);
    }
    const { name, label } = part.control;
    const words = this.wordsOf(part, nearest[name]);
    const button = html("button", { type: "button", class: "small", "aria-label": `${label}: take ${words}` },
      `Take ${words}`);
    button.addEventListener("click", () => {
      this.take(nearest, [name]);
      part.field.focus();
    });
    return html("p", {}, refusal.message, " ", button);
  }

  /** A value of a control in words. */
  wordsOf({ control }, value) {
    const { units, unit, isSample, isTick } = control;
    if (units) {
      return quantityWords(value, units);
    }
    const number = isSample ? weightOf(value || null) : value;
    const noun = number === 1 ? unit?.replace(/s$/, "") : unit;
    if (isTick) {
      return `${momentText(microsOf(this.scale(), value))}${this.settings.ticks ? `, tick ${value}` : ""}`;
    }
    return noun ? `${number} ${noun}` : String(number);
  }

  /** Leads to the control that is refused. */
  focus(name) {
    const { field } = this.parts[name];
    this.more.open ||= this.more.contains(field);
    byId(field.id).focus();
    field.scrollIntoView({ block: "center" });
  }
}
