/**
 * A search for a witness of events whose values are known: a run of the machine of machine.mjs that gives each read its
 * value. It iterates over the choices that the machine leaves, and tries first what another thread waits for.
 */

import { Machine } from './machine.mjs';

/** The most choices of one search, and how long one slice of it keeps everything else waiting, in milliseconds. */
const STEPS = 2_000_000;
const SLICE = 50;

/** Lets everything else go on: node has `setImmediate`, and a browser only `setTimeout`. */
const pause = () => new Promise((resolve) => { (globalThis.setImmediate ?? setTimeout)(resolve); });

/** Numbers in [0, 1) that look random, the same ones for the same seed; for the seed 0 always 0. */
function jitterFrom(seed) {
  let state = seed * 0x9e3779b1;
  return () => {
    if (!seed) return 0;
    state = Math.imul(state ^ (state >>> 15), 0x2c1b3c6d) + 0x9e3779b9;
    return ((state ^ (state >>> 12)) >>> 0) / 2 ** 32;
  };
}

/** What all searches of a round may use together. */
class Budget {
  constructor({ steps = STEPS, seconds = 20 } = {}) {
    this.steps = steps;
    this.seconds = seconds;
    this.milliseconds = 1000 * seconds;
  }

  /** The limit that was reached, as a phrase; null if none was. */
  get reached() {
    if (this.milliseconds <= 0) return `${this.seconds} seconds`;
    return null;
  }
}

/** One search. `run` answers `found`, `none` or the limit at which it gave up. */
class Search {
  constructor(threads, initial, { weak = false, seed = 0, budget }) {
    this.machine = new Machine(threads, initial, { weak });
    this.jitter = jitterFrom(seed);
    this.weight = seed ? 8 : 0;
    this.budget = budget;
    this.steps = 0;
    this.seen = new Set();
    this.frames = [];
    this.machine.settle();
    this.open();
  }

  /** Opens the choices of a state, if it is new and can lead on. */
  open() {
    const { machine, frames, seen } = this;
    if (machine.isDead()) return;
    const state = machine.state();
    if (seen.has(state)) return;
    seen.add(state);
    const costs = new Map(machine.moves().map((move) => [move, machine.cost(move) + this.weight * this.jitter()]));
    const moves = [...costs.keys()].sort((a, b) => costs.get(a) - costs.get(b));
    frames.push({ mark: machine.journal.length, moves, at: 0 });
  }

  /** Goes on until an answer or the end of a slice of time; then it answers null. */
  slice() {
    const { machine, frames, budget } = this;
    const start = performance.now();
    while (!machine.isFinished) {
      const frame = frames.at(-1);
      if (!frame) return 'none';
      machine.undoTo(frame.mark);
      if (frame.at === frame.moves.length) { frames.pop(); continue; }
      if (this.steps === budget.steps) return `${budget.steps} steps`;
      if (++this.steps % 64 === 0 && performance.now() - start > SLICE) break;
      machine.make(frame.moves[frame.at++]);
      if (!machine.isFinished) this.open();
    }
    budget.milliseconds -= performance.now() - start;
    return machine.isFinished ? 'found' : budget.reached;
  }

  async run() {
    for (;;) {
      const answer = this.slice();
      if (answer) return answer;
      await pause();
    }
  }

  /** The events in the order in which they were accessed. */
  accessOrder() {
    return this.machine.trail.filter(([, , isPublication]) => !isPublication).map(([thread, number]) => [thread, number]);
  }

  /** The same with each store as late as its thread allows: where it was published, or right before the thread's next event. */
  publicationOrder() {
    const order = [];
    const held = new Map();
    const release = (thread) => {
      if (held.has(thread)) order.push([thread, held.get(thread)]);
      held.delete(thread);
    };
    for (const [thread, number, isPublication] of this.machine.trail) {
      if (isPublication) {
        if (held.get(thread) === number) release(thread);
        continue;
      }
      release(thread);
      const { isAtomic, written } = this.machine.threads[thread][number];
      if (written && !isAtomic) held.set(thread, number);
      else order.push([thread, number]);
    }
    [...held.keys()].forEach(release);
    return order;
  }
}

/** How many further searches, each with other choices, look for a witness that no rule refuses. */
const OTHER_SEARCHES = 6;

/**
 * Yields different witnesses of a round's events, each with `writers` and `order`, until the caller is content: those of a
 * machine on which atomic accesses are made at once, and if it gives none, those of a machine on which atomic loads and
 * stores are made as plain ones, which is what a wrong engine does.
 *
 * With `isStrict` only the first machine is tried. At its end it answers `{ gaveUp }`: null if the searches were exhaustive, else
 * the limit at which the first machine's search ended, or the second one's if nothing was found. `steps` is the most choices of a
 * search; `seconds` how long all searches of the round take together.
 */
export async function* witnessesOf(threads, initial, limits = {}) {
  const budget = new Budget(limits);
  const yielded = new Set();
  let gaveUp = null;
  for (const weak of limits.isStrict ? [false] : [false, true]) {
    for (let seed = 0; seed <= OTHER_SEARCHES; seed++) {
      const search = new Search(threads, initial, { weak, seed, budget });
      const answer = await search.run();
      if (answer !== 'found') {
        // If the first search found a witness, it does not matter that one with other choices gave up.
        if (answer !== 'none' && seed === 0) gaveUp ??= answer;
        break;
      }
      for (const order of [search.accessOrder(), search.publicationOrder()]) {
        const witness = { writers: search.machine.writers, order };
        const text = JSON.stringify(witness);
        if (!yielded.has(text)) yield witness;
        yielded.add(text);
      }
    }
    if (yielded.size) break;
  }
  return { gaveUp };
}
