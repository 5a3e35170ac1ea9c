// The section of the trace: it opens files, traces with their records, and says what is open and what was not taken. A
// file that is refused leaves what is open as it is.

import { byId, html, keepFocus, renew } from "./elements.js";
import { bytesText, counted, countOf, lengthText, unbroken } from "../model/numbers.js";
import { refusalPart } from "./outcome.js";
import { foundBy } from "../model/found.js";
import { PlannerClient } from "../engine/planner-client.js";
import { READ_FAULT, Refusal } from "../engine/planner.js";
import { answerOver } from "../model/predictions.js";
import { differencesFrom, MOST_RECORD_BYTES, recordBeside, recordIn, RecordRefusal } from "../model/record.js";
import { exampleSource } from "../engine/trace-source.js";
import { microsOf, scaleOf } from "../model/units.js";

/** The size of pages that is not told, in bytes. */
const PLAIN_PAGE = 4096;

/** How many digits of a trace's SHA-256 the address has. */
const PRINT_DIGITS = 12;

function isRecord(file) {
  return file.name.toLowerCase().endsWith(".json");
}

/** The name of a file, which may be written in another direction than what is round it. */
function named(name) {
  return html("bdi", {}, name);
}

/** Says which files were not opened. */
function unopenedNotes(files) {
  const names = files.flatMap(({ name }, place) => [...(place === 0 ? [] : [", "]), named(name)]);
  return files.length === 0 ? [] : [html("p", {}, "Not opened: ", ...names, ". The page has one trace at a time.")];
}

/** A trace that is open in the planner's worker. `blob` has all of it that plans need. */
class OpenTrace {
  constructor(client, source, { sizes, digest }) {
    this.client = client;
    this.blob = client.blob;
    this.source = source;
    this.sizes = sizes;
    this.digest = digest;
    this.print = digest.slice(0, PRINT_DIGITS);
    this.record = null;
  }

  /** Has the planner asked. What it answers once it has another trace open may be of that: it is no answer. */
  async ask(name, asked, told) {
    const found = await this.client.ask(name, asked, told);
    if (this.client.blob !== this.blob) {
      throw new Refusal(READ_FAULT);
    }
    return found;
  }

  /** The answer to a question about the trace, with the rounds of its plan. */
  async predict(question) {
    return answerOver(this, await this.ask("predict", { question }));
  }

  /** How often pages are written over time, counted into a grid. */
  map(grid) {
    return this.ask("map", grid);
  }

  /** What the rounds of a plan do with which pages, counted into a grid. */
  rounds(grid, plan) {
    return this.ask("rounds", { grid, plan });
  }

  windows(settings) {
    return this.ask("windows", { settings });
  }

  /** The answers to a question from each of some starts, and which are chosen; null if they were cancelled. */
  async starts(question, ticks, told) {
    const questions = ticks.map((start) => ({ ...question, start }));
    const found = await this.ask("answers", { questions }, told);
    return found && { ...found, answers: found.answers.map((answer) => answerOver(this, answer)) };
  }

  cancelStarts() {
    return this.client.ask("cancel", {});
  }
}

/** Has files that are dropped anywhere taken. The trace's line shows that they may be. Words are for fields. */
export function listenToDrops(take) {
  const listen = (kind, isOver, act) => addEventListener(kind, (event) => {
    if (event.dataTransfer.types.includes("Files")) {
      event.preventDefault();
      byId("trace").classList.toggle("over", isOver);
      act(event.dataTransfer);
    }
  });
  listen("dragover", true, () => {});
  listen("dragleave", false, () => {});
  listen("drop", false, ({ files }) => take([...files]));
}

/** `taken` is called with each trace that was opened, and with one whose record came later. */
export class TraceDesk {
  constructor(taken) {
    this.taken = taken;
    this.client = new PlannerClient("planner", (share) => this.reread(share));
    this.trace = null;
    this.loading = 0;
    this.turn = Promise.resolve();
    this.early = null;
    this.said = null;
    this.sources = new Map();
    this.wanted = "Choose a trace, or an example.";
    this.isSeen = true;
    this.watchSight();
  }

  /** Says what is waited for while no trace is open. */
  want(words) {
    this.wanted = words;
    byId("trace-state").textContent = words;
  }

  /** Takes files: the first that is a trace, and the record beside it. The others are named. */
  async takeFiles(files, wish) {
    const records = await Promise.all(files.filter(isRecord).map((file) => this.textOf(file)));
    const sources = files.filter((file) => !isRecord(file)).map((file) => ({
      name: file.name, blob: file, example: null, record: recordBeside(file, records) ?? this.early,
    }));
    if (sources.length > 0) {
      await this.openFirst(sources, wish, records);
    } else if (records.length > 0) {
      // It may be of a trace that is still being read.
      await this.turn;
      const ending = this.takeRecord(records, []);
      performance.measure(ending, { start: 0, end: performance.now() });
    }
  }

  async textOf(file) {
    const text = file.size > MOST_RECORD_BYTES ? null : await file.text().catch(() => undefined);
    return { name: file.name, text };
  }

  async takeExample(example, wish) {
    await this.openFirst([exampleSource(example)], wish);
  }

  /** Opens a trace again that was open before on this page. */
  async reopen(print, wish) {
    await this.openFirst([this.sources.get(print)], wish);
  }

  /**
   * Opens the first of some sources that is a trace, once those of the calls before are open or refused; a source may
   * still be to come. `wish` goes to `taken`. Beside the sources came records, of which one is read.
   */
  openFirst(sources, wish, records = []) {
    this.loading += 1;
    const { loading } = this;
    const opened = this.turn.then(async () => {
      const ending = await this.openInTurn(sources, wish, records);
      if (loading === this.loading) {
        this.busy(null);
      }
      performance.measure(ending, { start: 0, end: performance.now() });
    });
    this.turn = opened.catch(() => {});
    return opened;
  }

  async openInTurn(coming, wish, records) {
    const [notes, sources] = [[], await Promise.all(coming)];
    for (const [place, source] of sources.entries()) {
      const refusal = await this.refusalOf(source);
      if (refusal === null) {
        const others = [...sources.slice(place + 1), ...records.filter((record) => record !== source.record)];
        this.note([...notes, ...this.recordNotes(this.recordOf(source)), ...unopenedNotes(others)]);
        this.taken(this.trace, wish);
        return "opened";
      }
      notes.push(refusalPart(refusal, named(source.name), "is refused:"));
    }
    const open = this.trace ? [html("p", {}, named(this.trace.source.name), " is still open.")] : [];
    // A record may be of the trace that is open, or of one that is still to come.
    return this.takeRecord(records, [...notes, ...open]);
  }

  /** Opens a source, and returns why it is no trace, or null. One that is refused leaves what is open as it is. */
  async refusalOf(source) {
    this.busy("Reading ", named(source.name), " \u2026");
    const { value, refusal = null } = await foundBy(() => this.client.open(source.blob, (share) => {
      this.busy("Reading ", named(source.name), `: ${Math.floor(100 * share)} %`);
    }));
    if (refusal === null) {
      this.trace = new OpenTrace(this.client, source, value);
      this.said = null;
      this.early = source.example ? this.early : null;
    }
    return refusal;
  }

  /** Says how much of the open trace another worker has read, and with null that it has ended. */
  reread(share) {
    if (share === null) {
      this.busy(null);
    } else {
      this.busy("The planner was started again, and reads ", named(this.trace.source.name),
        `: ${Math.floor(100 * share)} %`);
    }
  }

  /** The record of a source that is open now: that which came with it, or else was read when it was dropped before. */
  recordOf(source) {
    const before = this.sources.get(this.trace.print);
    const record = source.record ?? (source.example || before?.example ? null : before?.record);
    // Until it is read, there is none.
    source.record = null;
    this.sources.set(this.trace.print, source);
    return record;
  }

  /** Takes one of some records, if there is one, and says what comes of it after notes. Returns how that ended. */
  takeRecord(records, notes) {
    const last = this.trace?.record;
    const record = recordBeside(this.trace?.source, records);
    const others = records.filter((some) => some !== record);
    this.note([...notes, ...this.recordNotes(record), ...unopenedNotes(others)]);
    if (this.trace?.record === last) {
      return "refused";
    }
    this.taken(this.trace, { isRecordOnly: true });
    return "opened";
  }

  /** Reads a record for the open trace, or keeps it for the first to come. Returns what there is to say of it. */
  recordNotes(record) {
    if (!record) {
      return [];
    }
    if (!this.trace) {
      this.early = record;
      return [html("p", {}, named(record.name), " is read once its trace is here.")];
    }
    try {
      this.trace.record = recordIn(record.text, this.trace);
      this.trace.source.record = record;
      const { doubt, still } = this.trace.record;
      return [doubt, still].filter(Boolean)
        .map((sentence) => html("p", { class: "note" }, named(record.name), `: ${sentence}`));
    } catch (error) {
      if (!(error instanceof RecordRefusal)) {
        throw error;
      }
      return [html("p", { class: "refusal" }, html("strong", {}, named(record.name), " is not used:"),
        ` ${error.message}`)];
    }
  }

  /** Says what is being done, or with null what is open. */
  busy(...parts) {
    const isBusy = parts[0] !== null;
    byId("trace").setAttribute("aria-busy", String(isBusy));
    if (isBusy) {
      byId("trace-state").replaceChildren(...parts);
    } else if (!this.trace) {
      byId("trace-state").textContent = this.wanted;
    } else if (this.said) {
      this.tell(...this.said);
    }
  }

  /** Says whether the settings are as the record says. */
  recordParts(settings) {
    const isUsed = differencesFrom(this.trace.record, settings).every((name) => name === "start");
    return [isUsed ? ", as " : ", not as ", named(this.trace.source.record.name), " says"];
  }

  /** Says something beside what is open; where the section is out of sight, a copy says it where the user looks. */
  note(parts) {
    byId("trace-notes").replaceChildren(...parts);
    byId("notice-words").replaceChildren(...parts.map((part) => part.cloneNode(true)));
    byId("notice").hidden = parts.length === 0 || this.isSeen;
  }

  /** Learns whether the section is in sight: then what it says needs no copy. */
  watchSight() {
    new IntersectionObserver((entries) => {
      // Of several that are told at once, as while the page is busy, the last is of now.
      this.isSeen = entries.at(-1).isIntersecting;
      byId("notice").hidden ||= this.isSeen;
    }).observe(byId("trace"));
    byId("close-notice").addEventListener("click", () => {
      keepFocus(() => { byId("notice").hidden = true; }, () => byId("file"));
    });
  }

  /** Says what is open, in the units of the settings; `problem` is said beside it. */
  tell(settings, problem) {
    this.said = [settings, problem];
    if (byId("trace").getAttribute("aria-busy") === "true") {
      return;
    }
    const { sizes, source } = this.trace;
    const { pages, pageBytes, writes, last } = sizes;
    const scale = scaleOf(settings, sizes);
    const size = pageBytes === PLAIN_PAGE ? "" : ` of ${unbroken(`${pageBytes} bytes`)}`;
    const whole = scale.isSample ? ` sampled of ${counted(scale.guest)}` : "";
    const bytes = unbroken(bytesText(scale.guest * scale.page));
    const record = this.trace.record ? this.recordParts(settings) : [];
    renew(byId("trace-state"), named(source.name), `: ${countOf(pages, "page")}${size}${whole} (${bytes}); `
      + `${countOf(writes, "write")} in ${lengthText(microsOf(scale, last))}`, ...record,
      source.example ? "; an example" : "");
    byId("trace-other").textContent = problem;
    byId("trace-other").hidden = problem === "";
  }
}
