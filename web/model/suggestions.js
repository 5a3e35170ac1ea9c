// What is suggested at controls: what a record says otherwise, and other links than one that was fitted to the trace.

import { linkChoices, recordedSettings } from "./fitting.js";
import { differencesFrom } from "./record.js";

/** What is said of a limit that nobody chose, and of a second one. */
const OF_FITTED = "Fitted to this trace. ";
const FITTED_TOO = "Fitted, too.";

/** What the record says otherwise than the settings, with a choice that takes it, by the names of controls. */
function recordSuggestions({ record, source }, settings) {
  const recorded = recordedSettings(record);
  return differencesFrom(record, settings).map((name) => [name, {
    name: source.record.name, words: " says otherwise. ",
    choices: [{ value: recorded[name], settings: { ...settings, [name]: recorded[name] } }],
  }]);
}

/** That limits were fitted to the trace, and the links of today's networks. */
function fittedSuggestions({ sizes }, settings, fitted) {
  const links = fitted.has("link") ? linkChoices(settings, fitted, sizes) : [];
  const choices = { link: links.map((some) => ({ value: some.link, settings: some })), downtime: [] };
  const words = { link: OF_FITTED, downtime: fitted.has("link") ? FITTED_TOO : OF_FITTED };
  return [...fitted].map((name) => [name, { name: null, words: words[name], choices: choices[name] }]);
}

/** What is suggested at controls over a trace, by their names. */
export function suggestionsOf(trace, settings, fitted) {
  return new Map([
    ...fittedSuggestions(trace, settings, fitted), ...(trace.record ? recordSuggestions(trace, settings) : []),
  ]);
}
