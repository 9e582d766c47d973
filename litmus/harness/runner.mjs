// @ts-check
/**
 * Runs tests in batches on the workers of an engine, and counts outcomes. It blocks while a batch runs, so it needs a thread that may
 * block: node's main thread, or a worker of a browser.
 */

import { Histogram } from './histogram.mjs';
import { MEETING, MEETING_STRIDE, WORD } from './layout.mjs';
import { loopedModule } from './looped.mjs';
import { COMMAND } from './thread.mjs';

/** How long a batch may take, in milliseconds. */
const BATCH_MILLISECONDS = 20_000;
/** After how many milliseconds a run lets the engine look at signals, and tells how far it is. */
const PAUSE_MILLISECONDS = 200;
const MOST_PAGES = 65_536;

/**
 * @typedef {{ send: (task: object) => void, receive: () => Promise<string>, close: () => void }} Worker
 * @typedef {import('./looped.mjs').Test} Test
 * @typedef {{ isStopped?: () => boolean, tell?: (done: number) => void }} Hooks
 * @typedef {{ iterations: number, seconds: number } & Hooks & Record<string, any>} Options
 */

/** Workers that stay for all tests, with one memory that grows. */
export class Pool {
  /**
   * @param {() => Worker} spawn
   */
  constructor(spawn) {
    this.spawn = spawn;
    /** @type {Worker[]} */
    this.workers = [];
    /** @type {WebAssembly.Memory | null} */
    this.memory = null;
  }

  /**
   * @param {number} count
   */
  grow(count) {
    while (this.workers.length < count) this.workers.push(this.spawn());
    return this.workers.slice(0, count);
  }

  /**
   * @param {number} pages
   */
  memoryOf(pages) {
    if (!this.memory || this.memory.buffer.byteLength < pages * 65_536) {
      this.memory = new WebAssembly.Memory({ initial: pages, maximum: MOST_PAGES, shared: true });
    }
    return this.memory;
  }

  /** Ends all workers, also those that wait for one that failed; the next test starts others. */
  close() {
    this.workers.splice(0).forEach((worker) => worker.close());
    this.memory = null;
  }
}

/** One run of a test. */
class Run {
  /**
   * @param {Pool} pool
   * @param {Test} test
   * @param {Options} options
   */
  constructor(pool, test, options) {
    const made = loopedModule(test, /** @type {any} */ (options));
    this.pool = pool;
    this.test = test;
    this.options = options;
    this.layout = made.layout;
    this.memory = pool.memoryOf(made.layout.pages);
    this.module = new WebAssembly.Module(made.bytes);
    const { exports } = new WebAssembly.Instance(this.module, { litmus: { memory: this.memory } });
    this.clear = /** @type {(address: number, size: number) => void} */ (exports.clear);
    this.bytes = new Uint8Array(this.memory.buffer);
    this.control = new Int32Array(this.memory.buffer, 0, MEETING / 4 + 32 * test.threads.length);
    this.histogram = new Histogram(this.columnsOf(made.finals), made.layout.batch, this.memory.buffer);
    this.initial = this.initialOf(made.segments);
  }

  /**
   * @param {{ at: number, width: number }[]} finals
   */
  columnsOf(finals) {
    const { columns, stride } = this.layout;
    return [
      ...columns.flat().map(({ at, size }) => ({ at, step: size, size })),
      ...finals.map(({ at, width }) => ({ at, step: stride, size: width })),
    ];
  }

  /**
   * The bytes of an instance that do not begin as zeros, by their place.
   *
   * @param {{ address: number, bytes: number[] }[]} segments
   */
  initialOf(segments) {
    return segments.flatMap(({ address, bytes }) => bytes.flatMap((byte, k) => {
      const at = address + k;
      const location = this.layout.locations.find(({ first, size }) => at >= first && at < first + size);
      return location && byte ? [{ at: location.base + at - location.first, byte }] : [];
    }));
  }

  reset() {
    const { bytes, layout: { begin, end, batch, stride }, control } = this;
    this.clear(begin, end - begin);
    for (const { at, byte } of this.initial) for (let i = 0; i < batch; i++) bytes[at + i * stride] = byte;
    this.test.threads.forEach((_, t) => Atomics.store(control, (MEETING + MEETING_STRIDE * t) >> 2, 0));
    Atomics.store(control, WORD.done, 0);
  }

  next() {
    Atomics.add(this.control, WORD.batch, 1);
    Atomics.notify(this.control, WORD.batch);
  }

  /** Runs one batch on all threads, and waits for them. */
  batch() {
    const { control, test: { threads } } = this;
    this.reset();
    this.next();
    const end = performance.now() + BATCH_MILLISECONDS;
    for (let done; (done = Atomics.load(control, WORD.done)) < threads.length && !Atomics.load(control, WORD.failed);) {
      if (performance.now() > end) throw new Error(`a batch did not end in ${BATCH_MILLISECONDS / 1000} seconds: does each start end?`);
      Atomics.wait(control, WORD.done, done, 1000);
    }
    if (Atomics.load(control, WORD.failed)) throw new Error('a thread failed');
    this.histogram.take();
  }

  async begin() {
    const { control, module, memory, layout: { batch }, pool } = this;
    Atomics.store(control, WORD.command, COMMAND.run);
    Atomics.store(control, WORD.failed, 0);
    this.workers = pool.grow(this.test.threads.length);
    const ready = this.workers.map((worker) => worker.receive());
    this.workers.forEach((worker, thread) => worker.send({ module, memory, thread, batch }));
    for (const word of await Promise.all(ready)) if (word !== 'ready') throw new Error(word.replace('failed: ', ''));
  }

  async end() {
    const words = (this.workers ?? []).map((worker) => worker.receive());
    Atomics.store(this.control, WORD.command, COMMAND.end);
    this.next();
    for (const word of await Promise.all(words)) if (word !== 'ended') throw new Error(word);
  }

  /** Runs batches until one of the limits. Answers iterations and milliseconds. */
  async all() {
    const { iterations, seconds, isStopped = () => false, tell = () => {} } = this.options;
    const start = performance.now();
    let done = 0, told = start;
    while (done < iterations && performance.now() - start < 1000 * seconds) {
      this.batch();
      done += this.layout.batch;
      if (performance.now() - told < PAUSE_MILLISECONDS) continue;
      tell(done);
      await new Promise((resolve) => { setTimeout(resolve, 0); });
      told = performance.now();
      if (isStopped()) break;
    }
    return { iterations: done, milliseconds: performance.now() - start };
  }
}

/**
 * The word of a worker that failed, if there is one: it says more than that a thread failed.
 *
 * @param {Run} run
 */
async function reasonOf(run, /** @type {unknown} */ error) {
  const late = new Promise((resolve) => { setTimeout(() => resolve(null), 500); });
  const words = (run.workers ?? []).map((worker) => worker.receive().then((word) => (word.startsWith('failed: ') ? word.slice(8) : late)));
  const word = await Promise.race([...words, late]);
  return new Error(typeof word === 'string' ? word : /** @type {Error} */ (error).message);
}

/**
 * Runs a test until `iterations` or `seconds` are reached. Answers how many iterations were made in how many milliseconds, and each
 * tuple of values with its count.
 *
 * @param {Pool} pool
 * @param {Test} test
 * @param {Options} options
 */
export async function runTest(pool, test, options) {
  const run = new Run(pool, test, options);
  try {
    await run.begin();
    const { iterations, milliseconds } = await run.all();
    await run.end();
    return { iterations, milliseconds, tuples: run.histogram.tuples(), others: run.histogram.others };
  } catch (error) {
    const reason = await reasonOf(run, error);
    pool.close();
    throw reason;
  }
}
