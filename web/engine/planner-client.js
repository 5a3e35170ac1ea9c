// The page's side of the planner's worker: it asks, and has what is asked answered. A worker that ends, or that says
// nothing for long, is started again, reads the trace again, and is asked again. So is one that has read a long trace:
// the next one reads only a light trace, and the memory of the first goes with it. A worker holds a lock, so that its
// end is heard of at once, however it ends.

import { Refusal } from "./planner.js";
import { embeddedBytes } from "./trace-source.js";

/** For how long a worker that was asked may be silent, in milliseconds; and how often it may end without an answer. */
const LONGEST_SILENCE = 30_000;
const MOST_ENDS = 2;

/** The worker gave no answer. */
export class NoAnswer extends Error {}

/** It ended, again and again. */
export class WorkerEnded extends NoAnswer {}

/** It met what it does not expect, which is a defect. */
export class WorkerFailed extends NoAnswer {}

export class PlannerClient {
  /** `rereading` is told the share of the trace that another worker has read, and null at the end. */
  constructor(name, rereading) {
    this.name = name;
    this.rereading = rereading;
    this.worker = null;
    this.waiting = new Map();
    this.count = 0;
    this.blob = null;
    this.ends = 0;
  }

  /** A new worker with the module and the open trace. `told` is called with the share that it has read, then null. */
  async start(told) {
    this.bytes ??= await embeddedBytes("planner-module");
    const program = new Blob([document.getElementById("program").textContent], { type: "text/javascript" });
    const address = URL.createObjectURL(program);
    const worker = new Worker(address, { name: this.name });
    URL.revokeObjectURL(address);
    worker.onmessage = ({ data }) => worker === this.worker && this.hear(data);
    worker.onerror = () => worker === this.worker && this.restart();
    this.worker = worker;
    const lock = `planner ${performance.timeOrigin} ${Math.random()}`;
    const wait = (isHeld) => isHeld && navigator.locks.request(lock, () => {
      if (worker === this.worker) {
        this.restart();
      }
    });
    this.post({ ...this.entryOf("module", { bytes: this.bytes, lock }), resolve: wait });
    if (this.blob) {
      const end = () => told(null);
      this.post({ ...this.entryOf("open", { blob: this.blob }), told, resolve: end, reject: end });
    }
  }

  /** Asks the worker, and has its answer. `told` is called with the share that is done. */
  async ask(name, asked, told = () => {}) {
    if (!this.worker) {
      this.starting ??= this.start(this.rereading);
      await this.starting;
    }
    return new Promise((resolve, reject) => {
      const entry = { ...this.entryOf(name, asked), isOwn: false, resolve, reject, told };
      this.post(entry);
    });
  }

  entryOf(name, asked) {
    this.count += 1;
    return { number: this.count, name, asked, isOwn: true, resolve: () => {}, reject: () => {}, told: () => {} };
  }

  post(entry) {
    this.waiting.set(entry.number, entry);
    const { number, name, asked } = entry;
    this.worker.postMessage({ number, name, asked });
    this.listen();
  }

  /** Counts the silence anew while something is waited for. */
  listen() {
    clearTimeout(this.silence);
    if (this.waiting.size > 0) {
      this.silence = setTimeout(() => this.restart(), LONGEST_SILENCE);
    }
  }

  hear({ number, value, refused, failed, share }) {
    const entry = this.waiting.get(number);
    if (share !== undefined) {
      entry?.told(share);
    } else if (entry) {
      this.waiting.delete(number);
      this.settle(entry, value, refused, failed);
    }
    this.listen();
  }

  settle(entry, value, refused, failed) {
    this.ends = entry.isOwn ? this.ends : 0;
    if (refused) {
      entry.reject(new Refusal(refused.number, refused.record));
    } else if (failed) {
      entry.reject(new WorkerFailed(failed));
    } else {
      entry.resolve(value);
    }
  }

  /** Opens a trace. One that is refused leaves the open one as it is. */
  async open(blob, told) {
    const { light, ...found } = await this.ask("open", { blob }, told);
    this.blob = light ?? blob;
    if (light) {
      await this.replace(() => {});
    }
    return found;
  }

  /** Ends the worker, and returns what was asked of it by others. */
  end() {
    const entries = [...this.waiting.values()].filter(({ isOwn }) => !isOwn);
    this.worker?.terminate();
    this.waiting.clear();
    return entries;
  }

  /** Ends the worker and starts another, which is asked what the first was, once it has the trace. */
  async replace(told) {
    const entries = this.end();
    await this.start(told);
    entries.forEach((entry) => this.post(entry));
  }

  /** Has another worker in place of one that ended by itself, unless that has happened too often. */
  async restart() {
    this.ends += 1;
    if (this.ends <= MOST_ENDS) {
      await this.replace(this.rereading);
      return;
    }
    const entries = this.end();
    this.worker = null;
    this.starting = null;
    this.rereading(null);
    entries.forEach((entry) => entry.reject(new WorkerEnded("the worker ended")));
  }
}
