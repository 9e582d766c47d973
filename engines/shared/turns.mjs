/**
 * Takes turns among the threads of a recording, so that one of them runs at a time, in an order that a seed gives.
 *
 * A turn is an item of a schedule: thread T makes its next access (2 T), or the oldest waiting store of T is published
 * (2 T + 1). The thread that has the turn hands it on when it comes to its next access, so what happens between two accesses
 * is part of the turn. Items are chosen by the seed and noted, or read from a schedule that is given. When a given schedule
 * is used up, each thread is cut before its next access.
 */

/** The thread stops before its next access, or right after its last read. */
export class Cut extends Error {}

/** The words of the control buffer. `ended` and `waiting` have a word for each thread; `nap` stays 0, and nobody notifies it. */
export const CONTROL = {
  ready: 0, left: 1, place: 2, turn: 3, random: 4, turnLeft: 5, current: 6, made: 7, at: 8, given: 9, nap: 10, ended: 16, waiting: 32,
};
export const CONTROL_WORDS = 48;

/** The most items of a schedule: an access, and at most two publications, for each event; and an end for each thread. */
export const MOST_ITEMS = 3 * 16_384 + 16;

const OVER = -2;
const SPINS = 2_000;

/** The next number that looks random (xorshift), from the state in the control buffer. */
export function nextRandom(control) {
  let state = control[CONTROL.random];
  state ^= state << 13;
  state ^= state >>> 17;
  state ^= state << 5;
  control[CONTROL.random] = state;
  return state >>> 0;
}

/** Chooses the next item, for the one thread that has the turn. */
export class Scheduler {
  constructor({ threads, turn, control, schedule }) {
    this.threads = threads;
    this.turn = turn;
    this.control = control;
    this.schedule = schedule;
  }

  random(below) {
    return nextRandom(this.control) % below;
  }

  /** The threads of which a word of the control buffer is not 0, or is 0. */
  those(word, isSet) {
    return Array.from({ length: this.threads }, (_, t) => t).filter((t) => (this.control[word + t] !== 0) === isSet);
  }

  choose() {
    const { control } = this;
    const living = this.those(CONTROL.ended, false);
    const pending = this.those(CONTROL.waiting, true);
    if (pending.length && (!living.length || this.random(4) === 0)) return 2 * pending[this.random(pending.length)] + 1;
    if (!living.length) return OVER;
    if (control[CONTROL.turnLeft]-- <= 0 || control[CONTROL.ended + control[CONTROL.current]]) {
      control[CONTROL.current] = living[this.random(living.length)];
      control[CONTROL.turnLeft] = this.random(this.turn);
    }
    return 2 * control[CONTROL.current];
  }

  isPossible(item) {
    const thread = item >> 1;
    return item & 1 ? this.control[CONTROL.waiting + thread] > 0 : !this.control[CONTROL.ended + thread];
  }

  /** The next item of the given schedule that can be made. */
  given() {
    const { control, schedule } = this;
    while (control[CONTROL.at] < control[CONTROL.given]) {
      const item = schedule[control[CONTROL.at]++];
      if (this.isPossible(item)) return item;
    }
    return OVER;
  }

  next() {
    const { control, schedule } = this;
    const item = control[CONTROL.given] < 0 ? this.choose() : this.given();
    if (item !== OVER) schedule[control[CONTROL.made]++] = item;
    return item;
  }

  /** Sets up a round, before a thread runs: by a seed, or by a schedule, a list of items. */
  begin(seed, items, events) {
    const { control, schedule } = this;
    control.fill(0);
    control[CONTROL.left] = events;
    control[CONTROL.random] = Math.imul(seed, 0x9e3779b1) | 1;
    for (let k = 0; k < 8; k++) nextRandom(control);
    control[CONTROL.given] = items ? items.length : -1;
    if (items) schedule.set(items);
    control[CONTROL.turn] = this.next();
  }

  /** The items that were made. */
  made() {
    return [...this.schedule.subarray(0, this.control[CONTROL.made])];
  }
}

/** The turns of one thread. `publish` publishes its oldest waiting store. */
export class Turns {
  constructor(env, publish = () => {}) {
    this.scheduler = new Scheduler(env);
    /** @type {Int32Array} */
    this.control = env.control;
    this.thread = env.thread;
    this.publish = publish;
    this.hasTurn = false;
  }

  /**
   * Waits for an item of this thread's; answers null if the schedule is over.
   *
   * @returns {wmlab.Turn | null}
   */
  wait() {
    const { control, thread } = this;
    for (let spins = 0; ; spins++) {
      const item = Atomics.load(control, CONTROL.turn);
      if (item === OVER) return null;
      if (item >> 1 === thread) {
        this.hasTurn = true;
        return item;
      }
      if (spins > SPINS) Atomics.wait(control, CONTROL.turn, item);
    }
  }

  handOn() {
    this.hasTurn = false;
    Atomics.store(this.control, CONTROL.turn, this.scheduler.next());
    Atomics.notify(this.control, CONTROL.turn);
  }

  publishOne() {
    this.control[CONTROL.waiting + this.thread]--;
    this.publish();
  }

  /** Waits for a turn for an access, and publishes at the others. Answers whether there is one. */
  take() {
    if (this.hasTurn) this.handOn();
    for (;;) {
      const item = this.wait();
      if (item === null) return false;
      if (!(item & 1)) return true;
      this.publishOne();
      this.handOn();
    }
  }

  /** Makes an access at the thread's next turn. */
  make(access) {
    if (!this.take()) throw new Cut('the schedule is over');
    return access();
  }

  /** Notes that stores wait, or (negative) wait no more. */
  addWaiting(count) {
    this.control[CONTROL.waiting + this.thread] += count;
  }

  /** Ends the thread, at a turn of its own; what waits is published at further turns. */
  end() {
    const { control, thread } = this;
    if (!this.hasTurn && !this.take()) return;
    control[CONTROL.ended + thread] = 1;
    while (control[CONTROL.waiting + thread] > 0) {
      this.handOn();
      if (this.wait() === null) return;
      this.publishOne();
    }
    this.handOn();
  }

  /** Cuts the thread before an access if no event is left, and else counts the event. */
  cutAtLimit() {
    if (this.control[CONTROL.left] === 0) throw new Cut('no event is left');
  }

  takeEvent() {
    this.control[CONTROL.left]--;
  }

  /** The place of an access in the order. */
  place() {
    return this.control[CONTROL.place]++;
  }
}
