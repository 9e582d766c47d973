/**
 * A machine with one memory and a store buffer for each thread, over events whose values are known, with undo for a search.
 *
 * Plain stores wait in the buffer of their thread and leave it in order. An atomic write waits until the buffer is empty. An atomic
 * load does not: on x86 it is an ordinary load, which may be made while earlier plain stores wait.
 * A plain access may tear if it has 8 bytes or is not aligned: it is made in parts, in any order. The parts are the halves of
 * aligned 8 bytes, and else the single bytes. Everything else is made at once.
 *
 * Some moves are made as soon as they can be, since a run in which they come later is also a run with them now: a store that
 * enters its buffer, a part of a read that finds its value, and the publication of bytes that no other thread writes any more,
 * if no other thread still has to read what is there. What is left to choose is which thread publishes a store next (`moves`).
 */

const bytesOf = (value, width) => Uint8Array.from({ length: width }, (_, k) => Number((value >> BigInt(8 * k)) & 255n));

/** The parts of an access in which it is made, each as [first, end) within its range. */
export function partsOf(address, width, isAtomic) {
  if (isAtomic || (width <= 4 && address % width === 0)) return [[0, width]];
  const size = address % width === 0 ? 4 : 1;
  return Array.from({ length: width / size }, (_, k) => [k * size, (k + 1) * size]);
}

/** An event in the form of the machine. With `weak` an atomic load or store is made as a plain one. */
function prepared([kind, order, address, width, ...values], weak) {
  const isAtomic = order === 'sc' && !(weak && kind !== 'x');
  const read = kind === 'w' ? null : bytesOf(values[0], width);
  const written = kind === 'r' ? null : bytesOf(values.at(-1), width);
  const parts = partsOf(address, width, order === 'sc');
  return { isAtomic, address, width, read, written, parts, all: (1 << parts.length) - 1 };
}

/** The number of the first item of an ascending list that is at least `least`. */
function firstFrom(list, least) {
  let low = 0, high = list.length;
  while (low < high) {
    const middle = (low + high) >> 1;
    if (list[middle] < least) low = middle + 1;
    else high = middle;
  }
  return low;
}

const valueKey = (at, byte) => at * 256 + byte;

/** What is known of the events before the machine runs: which thread accesses a byte, where, and who writes which value. */
class Overview {
  constructor(threads) {
    this.accesses = threads.map(() => new Map()); // thread: byte address to event numbers, ascending
    this.lastValue = threads.map(() => new Map()); // thread: byte address and value to its last event that writes it
    this.lastWrite = threads.map(() => new Map()); // thread: byte address to its last event that writes it
    this.users = new Map(); // byte address to the thread that alone accesses it, or -1
    threads.forEach((events, thread) => events.forEach((event, number) => this.add(thread, number, event)));
  }

  add(thread, number, { address, width, written }) {
    for (let k = 0; k < width; k++) {
      const at = address + k;
      const numbers = this.accesses[thread].get(at);
      if (numbers) numbers.push(number);
      else this.accesses[thread].set(at, [number]);
      if (written) {
        this.lastValue[thread].set(valueKey(at, written[k]), number);
        this.lastWrite[thread].set(at, number);
      }
      this.users.set(at, (this.users.get(at) ?? thread) === thread ? thread : -1);
    }
  }

  isPrivate({ address, width }) {
    for (let k = 0; k < width; k++) if (this.users.get(address + k) < 0) return false;
    return true;
  }

  /** The first event of a thread from number `least` on that accesses a byte; undefined if there is none. */
  nextAccess(thread, at, least) {
    const numbers = this.accesses[thread].get(at);
    return numbers?.[firstFrom(numbers, least)];
  }
}

/** Three hashes of 32 bits, together as good as exact: two states of 2,000,000 share them with a chance below 1e-16. */
class Hash {
  words = [0, 0, 0];

  /** Puts a number in, or takes it out again. */
  toggle(number) {
    for (let k = 0; k < 3; k++) {
      let mixed = Math.imul(number ^ (number >>> 15) ^ (0x9e3779b9 * (k + 1)), 0x85ebca6b + 2 * k);
      mixed = Math.imul(mixed ^ (mixed >>> 13), 0xc2b2ae35 + 4 * k);
      this.words[k] ^= mixed ^ (mixed >>> 16);
    }
  }

  copy() {
    const hash = new Hash();
    hash.words = [...this.words];
    return hash;
  }

  text() {
    return String.fromCharCode(...this.words.flatMap((word) => [word & 0xffff, word >>> 16]));
  }
}

export class Machine {
  /** `threads` has the events of each thread in the form of a log, without writers. */
  constructor(threads, initial, { weak = false } = {}) {
    this.threads = threads.map((events) => events.map((event) => prepared(event, weak)));
    this.overview = new Overview(this.threads);
    this.bytes = initial.slice();
    this.writerAt = new Map(); // byte address to the event that wrote it, if that is not the initial memory
    this.hash = new Hash();
    const zeros = () => threads.map(() => 0);
    this.next = zeros(); // the number of each thread's next event
    this.taken = zeros(); // the parts of it that were read
    this.stores = this.threads.map((events) => events.flatMap((event, i) => (event.written && !event.isAtomic ? [i] : [])));
    this.pushed = zeros(); // how many of a thread's waiting stores entered the buffer ..
    this.left = zeros(); // .. and left it
    this.published = zeros(); // the parts of the oldest waiting store that left
    this.newest = threads.map(() => new Map()); // byte address to the stores that entered, by their places in `stores`
    this.writers = this.threads.map((events) => events.map(({ read, width }) => (read ? Array(width) : [])));
    this.trail = []; // accesses and publications in their order, each as [thread, event, isPublication]
    this.journal = []; // how each change is taken back
  }

  get isFinished() {
    return this.next.every((next, thread) => next === this.threads[thread].length);
  }

  waits(thread) {
    return this.left[thread] < this.pushed[thread];
  }

  oldest(thread) {
    return this.threads[thread][this.stores[thread][this.left[thread]]];
  }

  /** What decides how the run can go on, as a key. */
  state() {
    const hash = this.hash.copy();
    this.next.forEach((next, t) => {
      hash.toggle(1 + t + 16 * next + 2 ** 24);
      hash.toggle(1 + t + 16 * this.left[t] + 2 ** 25);
      hash.toggle(1 + t + 16 * this.taken[t] + 2 ** 26);
      hash.toggle(1 + t + 16 * this.published[t] + 2 ** 27);
    });
    return hash.text();
  }

  /** The place in `stores` of the waiting store that a thread sees at a byte, or -1. */
  waitingAt(thread, at) {
    const place = this.newest[thread].get(at)?.at(-1) ?? -1;
    if (place < this.left[thread]) return -1;
    if (place > this.left[thread]) return place;
    const { address, parts } = this.oldest(thread);
    const part = parts.findIndex(([from, end]) => at >= address + from && at < address + end);
    return this.published[thread] & (1 << part) ? -1 : place;
  }

  /** The byte that a thread sees, and who wrote it. */
  look(thread, at) {
    const place = this.waitingAt(thread, at);
    if (place < 0) return [this.bytes[at], this.writerAt.get(at) ?? []];
    const number = this.stores[thread][place];
    const store = this.threads[thread][number];
    return [store.written[at - store.address], [thread, number]];
  }

  /** Reads a part of a thread's next event if its value is there. */
  readPart(thread, event, [from, end]) {
    for (let k = from; k < end; k++) if (this.look(thread, event.address + k)[0] !== event.read[k]) return false;
    const writers = this.writers[thread][this.next[thread]];
    for (let k = from; k < end; k++) writers[k] = this.look(thread, event.address + k)[1];
    return true;
  }

  /** Reads what can be read of a thread's next event. Answers whether it was read whole. */
  read(thread, event) {
    event.parts.forEach((part, k) => {
      const before = this.taken[thread];
      if (before & (1 << k) || !this.readPart(thread, event, part)) return;
      this.taken[thread] |= 1 << k;
      this.journal.push(() => { this.taken[thread] = before; });
    });
    return this.taken[thread] === event.all;
  }

  /** Lets a store enter the buffer. */
  push(thread, { address, width }) {
    const place = this.pushed[thread]++;
    const newest = this.newest[thread];
    for (let k = 0; k < width; k++) {
      if (newest.has(address + k)) newest.get(address + k).push(place);
      else newest.set(address + k, [place]);
    }
    this.journal.push(() => {
      this.pushed[thread]--;
      for (let k = 0; k < width; k++) newest.get(address + k).pop();
    });
  }

  /** Goes on to a thread's next event. */
  step(thread) {
    const taken = this.taken[thread];
    this.trail.push([thread, this.next[thread], false]);
    this.next[thread]++;
    this.taken[thread] = 0;
    this.journal.push(() => {
      this.trail.pop();
      this.next[thread]--;
      this.taken[thread] = taken;
    });
  }

  write(at, byte, writer) {
    const { bytes, writerAt, hash } = this;
    const before = bytes[at], old = writerAt.get(at);
    const set = (from, to) => {
      hash.toggle(valueKey(at, from) + 2 ** 30);
      hash.toggle(valueKey(at, to) + 2 ** 30);
      bytes[at] = to;
    };
    set(before, byte);
    writerAt.set(at, writer);
    this.journal.push(() => {
      set(byte, before);
      if (old) writerAt.set(at, old);
      else writerAt.delete(at);
    });
  }

  /** Publishes parts of a thread's oldest waiting store. */
  publish(thread, mask) {
    const number = this.stores[thread][this.left[thread]];
    const { address, written, parts, all } = this.threads[thread][number];
    parts.forEach(([from, end], part) => {
      if (!(mask & (1 << part))) return;
      for (let k = from; k < end; k++) this.write(address + k, written[k], [thread, number]);
    });
    const before = this.published[thread];
    const isWhole = (before | mask) === all;
    this.published[thread] = isWhole ? 0 : before | mask;
    if (isWhole) {
      this.left[thread]++;
      this.trail.push([thread, number, true]);
    }
    this.journal.push(() => {
      this.published[thread] = before;
      if (!isWhole) return;
      this.left[thread]--;
      this.trail.pop();
    });
  }

  /** Makes all moves of a thread that can be made at once. */
  settleThread(thread) {
    for (;;) {
      while (this.waits(thread) && this.overview.isPrivate(this.oldest(thread))) {
        this.publish(thread, this.oldest(thread).all & ~this.published[thread]);
      }
      const event = this.threads[thread][this.next[thread]];
      if (!event || (event.isAtomic && event.written)) return;
      if (event.read && !this.read(thread, event)) return;
      if (event.written) this.push(thread, event);
      this.step(thread);
    }
  }

  settle() {
    for (let move = null; ; this.apply(move)) {
      this.threads.forEach((_, thread) => this.settleThread(thread));
      move = this.candidates().find((candidate) => this.isFree(candidate));
      if (!move) return;
    }
  }

  /** The moves to choose from: those after which each thread may still find what it reads. */
  moves() {
    return this.candidates().filter((move) => !this.isFatal(move));
  }

  /** What can be published, each as a thread and the part of its oldest store, or the part -1 for an atomic write. */
  candidates() {
    return this.threads.flatMap((events, thread) => {
      if (this.waits(thread)) {
        const free = this.oldest(thread).parts.map((_, part) => part).filter((part) => !(this.published[thread] & (1 << part)));
        return free.map((part) => ({ thread, part }));
      }
      const event = events[this.next[thread]];
      if (!event?.isAtomic || !event.written) return [];
      return event.read && !this.isThere(thread, event) ? [] : [{ thread, part: -1 }];
    });
  }

  isThere(thread, { address, read }) {
    return read.every((byte, k) => this.bytes[address + k] === byte);
  }

  /** Makes a move, and all that can then be made at once. */
  make(move) {
    this.apply(move);
    this.settle();
  }

  apply({ thread, part }) {
    if (part >= 0) this.publish(thread, 1 << part);
    else this.writeAtOnce(thread);
  }

  writeAtOnce(thread) {
    const number = this.next[thread];
    const event = this.threads[thread][number];
    if (event.read) this.read(thread, event);
    event.written.forEach((byte, k) => this.write(event.address + k, byte, [thread, number]));
    this.step(thread);
  }

  undoTo(mark) {
    while (this.journal.length > mark) this.journal.pop()();
  }

  /** The event that a move publishes. */
  eventOf({ thread, part }) {
    return part < 0 ? this.next[thread] : this.stores[thread][this.left[thread]];
  }

  /** Whether something holds for a byte that a move publishes, and another thread: `test(other, address, byte)`. */
  someByte(move, test) {
    const { address, written, parts } = this.threads[move.thread][this.eventOf(move)];
    const [from, end] = parts[Math.max(move.part, 0)];
    for (let k = from; k < end; k++) {
      for (let other = 0; other < this.threads.length; other++) {
        if (other !== move.thread && test(other, address + k, written[k])) return true;
      }
    }
    return false;
  }

  /** The number of the first access of a byte that a thread has not yet made; undefined if there is none. */
  nextAccess(thread, at) {
    const next = this.next[thread];
    const number = this.overview.nextAccess(thread, at, next);
    if (number !== next || !this.taken[thread]) return number;
    const { address, parts } = this.threads[thread][next];
    const part = parts.findIndex(([from, end]) => at >= address + from && at < address + end);
    return this.taken[thread] & (1 << part) ? this.overview.nextAccess(thread, at, next + 1) : number;
  }

  /** The byte that a thread reads next at an address; -1 if it writes there first, or accesses it no more. */
  wantedAt(thread, at) {
    const number = this.nextAccess(thread, at);
    const event = number === undefined ? null : this.threads[thread][number];
    return event?.read ? event.read[at - event.address] : -1;
  }

  /** Whether a write of this number was not made or not published. */
  isAhead(thread, number) {
    if (number === undefined) return false;
    if (number >= this.next[thread]) return true;
    return this.waits(thread) && !this.threads[thread][number].isAtomic && number >= this.stores[thread][this.left[thread]];
  }

  /** Whether no other run is lost if a move is made now. */
  isFree(move) {
    return !this.someByte(move, (other, at, byte) => {
      if (this.isAhead(other, this.overview.lastWrite[other].get(at))) return true;
      return byte !== this.bytes[at] && this.wantedAt(other, at) === this.bytes[at];
    });
  }

  /** Whether a move takes away a byte that another thread still has to read, and that nobody writes any more. */
  isFatal(move) {
    return this.someByte(move, (other, at, byte) => {
      const here = this.bytes[at];
      if (byte === here || this.wantedAt(other, at) !== here || this.waitingAt(other, at) >= 0) return false;
      return !this.threads.some((_, writer) => {
        if (writer === other) return false;
        const number = this.overview.lastValue[writer].get(valueKey(at, here));
        return writer === move.thread ? number > this.eventOf(move) : this.isAhead(writer, number);
      });
    });
  }

  /** How good a move looks: less for bytes that another thread reads next, more for bytes that it still reads as they are. */
  cost(move) {
    let cost = 0;
    this.someByte(move, (other, at, byte) => {
      const wanted = this.wantedAt(other, at);
      if (wanted === byte) cost -= this.nextAccess(other, at) === this.next[other] ? 4 : 1;
      else if (wanted === this.bytes[at]) cost += 8;
      return false;
    });
    return cost;
  }

  /** Whether a thread waits for a byte that nobody can write any more. */
  isDead() {
    return this.threads.some((events, thread) => {
      const event = events[this.next[thread]];
      return event?.read && event.parts.some(([from, end], part) => {
        if (this.taken[thread] & (1 << part)) return false;
        for (let k = from; k < end; k++) if (!this.canCome(thread, event.address + k, event.read[k])) return true;
        return false;
      });
    });
  }

  canCome(thread, at, byte) {
    if (this.look(thread, at)[0] === byte || this.bytes[at] === byte) return true;
    return this.threads.some((_, other) => (
      other !== thread && this.isAhead(other, this.overview.lastValue[other].get(valueKey(at, byte)))));
  }
}
