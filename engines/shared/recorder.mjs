/**
 * Runs exported functions on threads over one shared memory, round by round, in any engine for JavaScript. How a thread is
 * started is the engine's part.
 */

import { nativeAccesses, rewrite } from './rewrite.mjs';
import { again, endOf, writerOf } from './modes.mjs';
import { documentOf, eventsAlone } from './document.mjs';
import { UserError } from './errors.mjs';
import { argumentsOf, unsignedStart } from './starts.mjs';
import { CONTROL_WORDS, MOST_ITEMS, Scheduler } from './turns.mjs';

export const MODES = ['locked', 'buffered', 'free'];
export const WRONG = ['plain-atomics', 'torn-store', 'stale-load'];

export const DEFAULTS = { mode: 'locked', events: 128, turn: 4, wrong: null };

/** What is started: the module's starts with unsigned arguments, by its exports. Refuses starts that it does not have. */
export const startsOf = (bytes, starts) => {
  const { parameters } = rewrite(bytes, 'hooked');
  return starts.map((start) => unsignedStart(start, parameters));
};

/**
 * Refuses options that do not go together.
 *
 * @param {{ mode: string, wrong?: string | null }} options
 * @param {unknown[]} starts
 */
export function refuseOptions({ mode, wrong }, starts) {
  if (!MODES.includes(mode)) throw new UserError(`mode ${mode}: the modes are ${MODES.join(', ')}`);
  if (wrong && !WRONG.includes(wrong)) throw new UserError(`--wrong ${wrong}: expected ${WRONG.join(', ')}`);
  if (wrong && mode === 'locked') throw new UserError('--wrong needs --mode buffered or --mode free');
  if (!starts.length) throw new UserError('no start is given, so that no thread would run');
}

/** A module whose accesses are hooked, with its memory. */
class Hooked {
  constructor(moduleBytes) {
    const made = rewrite(moduleBytes, 'hooked');
    this.importedAs = made.memory;
    this.memory = new WebAssembly.Memory({ initial: made.memory.initial, maximum: made.memory.maximum, shared: true });
    this.bytes = new Uint8Array(this.memory.buffer);
    this.module = new WebAssembly.Module(made.bytes);
    // An instance puts the data segments into the memory, which was zeros: that is the initial memory of each round.
    this.instance(again({ values: [], limit: 0, size: 0, events: [] }).hooks);
    this.initial = this.bytes.slice();
  }

  instance(hooks) {
    const imports = { recorder: { ...hooks } };
    (imports[this.importedAs.module] ??= {})[this.importedAs.name] = this.memory;
    return new WebAssembly.Instance(this.module, imports);
  }
}

/** The initial memory of a module. */
export const initialOf = (moduleBytes) => new Hooked(moduleBytes).initial;

export class Recorder {
  /**
   * `mode` is `locked`, `buffered` or `free`; `events` the most events of a round; `turn` the most accesses of a turn (locked,
   * buffered); `wrong` how the engine is wrong on purpose. `startThread(data)` starts a thread and answers `ask` and `close`.
   */
  constructor(moduleBytes, starts, options, startThread) {
    this.options = { ...DEFAULTS, ...options };
    refuseOptions(this.options, starts);
    const { mode, wrong } = this.options;
    const style = mode === 'free' ? 'noted' : 'hooked';
    const made = rewrite(moduleBytes, style, { wrong: mode === 'free' ? wrong : null });
    this.starts = starts.map((start) => unsignedStart(start, made.parameters));
    this.args = this.starts.map((start) => argumentsOf(start, made.parameters.get(start.name)));
    this.hooked = new Hooked(moduleBytes);
    this.initial = this.hooked.initial;
    const integers = (count) => new Int32Array(new SharedArrayBuffer(4 * count));
    this.control = integers(CONTROL_WORDS);
    this.shadow = integers(this.initial.length);
    this.schedule = integers(MOST_ITEMS);
    this.scheduler = new Scheduler({ ...this.options, threads: starts.length, control: this.control, schedule: this.schedule });
    this.threads = this.startThreads(made, startThread);
  }

  startThreads(made, startThread) {
    const { mode, turn, wrong } = this.options;
    const module = new WebAssembly.Module(made.bytes);
    const native = new WebAssembly.Module(nativeAccesses(made.memory));
    const { memory } = this.hooked;
    const shared = { threads: this.starts.length, mode, turn, wrong, module, native, memory, importedAs: made.memory };
    const buffers = { control: this.control.buffer, shadow: this.shadow.buffer, schedule: this.schedule.buffer };
    return this.starts.map((start, thread) => startThread({ ...shared, ...buffers, thread, start: start.name }));
  }

  /** Sets the most events of a round. */
  setEvents(events) {
    this.options.events = events;
  }

  /**
   * Runs all threads once, by the turns that the seed gives or by those of a schedule. Answers `ends`, which the engine gave,
   * `document`, the log with its witness or (`isOpen`) the events of a free round alone, and `turns`, the schedule made.
   */
  async round(seed, items = null) {
    this.hooked.bytes.set(this.initial);
    this.shadow.fill(0);
    this.scheduler.begin(seed, items, this.options.events);
    const limit = Math.max(1, Math.floor(this.options.events / this.starts.length));
    const answers = await Promise.all(this.threads.map(({ ask }, thread) => ask({ args: this.args[thread], limit })));
    if (this.options.mode === 'free') return this.openRound(answers, limit);
    return { ends: answers.map(({ end }) => end), document: this.document(answers), isOpen: false, turns: this.scheduler.made() };
  }

  /**
   * A free round. It is run again at once, for its events, since that uses the memory. A thread that was cut after the last read of
   * its share may have had nothing left to do but to end: then the second run ends.
   */
  openRound(answers, limit) {
    const runs = answers.map(({ values }, thread) => this.runAgain(values, limit, thread));
    const ends = answers.map(({ end, values }, thread) => (values.length === limit ? runs[thread].end : end));
    return { ends, document: eventsAlone(this.started(runs.map(({ events }) => events)), ends), isOpen: true, turns: [] };
  }

  document(answers) {
    const { threads, order } = ordered(answers);
    return documentOf(this.started(threads), order);
  }

  started(threads) {
    return threads.map((events, thread) => ({ start: this.starts[thread], events }));
  }

  /** The events and the end of a free round's thread that is run again on the values that it read, of which there are at most `limit`. */
  runAgain(values, limit, thread) {
    const events = [];
    const { bytes } = this.hooked;
    const { hooks } = again({ values, limit, size: bytes.length, events });
    const before = bytes.slice();
    const run = /** @type {Function} */ (this.hooked.instance(hooks).exports[this.starts[thread].name]);
    bytes.set(before);
    const end = endOf(() => run(...this.args[thread]));
    return { events, end };
  }

  async close() {
    await Promise.all(this.threads.map(({ close }) => close()));
  }
}

/** The threads' events with their writers, and the order, as the locked and the buffered mode noted them. */
function ordered(answers) {
  const places = answers.flatMap(({ events }, t) => events.map(({ place }, i) => ({ place, key: [t, i] })));
  const order = places.sort((a, b) => a.place - b.place).map(({ key }) => key);
  const threads = answers.map(({ events }) => events.map(({ event, writers }) => ({ event, writers: writers.map(writerOf) })));
  return { threads, order };
}
