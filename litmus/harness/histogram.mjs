// @ts-check
/** Counts how often each tuple of values occurred. A tuple has a value for each result of each thread, and then the final values. */

/** Up to this many columns of one word each are counted in a table, 4 bits a column; larger values are counted with the rest. */
const MOST_TABLE_COLUMNS = 5;
/** Beyond this many different tuples the others are counted together. */
export const MOST_TUPLES = 4096;

/** @typedef {{ at: number, step: number, size: number }} Column a value of `size` bytes at `at + i * step` */
/** @typedef {{ items: Uint8Array | Uint16Array | Uint32Array, at: number, step: number, shift: number, column: number }} Word */

/**
 * The parts of a column's value: aligned words of at most 4 bytes, or else its bytes.
 *
 * @param {ArrayBufferLike} buffer
 * @returns {Word[]}
 */
function wordsOf(/** @type {Column} */ { at, step, size }, /** @type {number} */ column, buffer) {
  const width = at % Math.min(size, 4) || step % Math.min(size, 4) ? 1 : Math.min(size, 4);
  const items = width === 1 ? new Uint8Array(buffer) : width === 2 ? new Uint16Array(buffer) : new Uint32Array(buffer);
  return Array.from({ length: size / width }, (_, k) => (
    { items, at: at / width + k, step: step / width, shift: 8 * width * k, column }));
}

/** A table of tuples, each of some words, with open addressing. */
class Tuples {
  /**
   * @param {Word[]} words
   */
  constructor(words) {
    this.words = words;
    this.slots = new Int32Array(4 * MOST_TUPLES).fill(-1);
    this.kept = new Uint32Array(MOST_TUPLES * words.length);
    this.counts = new Float64Array(MOST_TUPLES);
    this.count = 0;
    this.others = 0;
    this.now = new Uint32Array(words.length);
  }

  /**
   * @param {number} i
   */
  take(i) {
    const { words, now, slots } = this;
    let hash = 0;
    for (let w = 0; w < words.length; w++) {
      const { items, at, step } = words[w];
      now[w] = items[at + i * step];
      hash = Math.imul(hash ^ now[w], 0x9e3779b1);
      hash ^= hash >>> 15;
    }
    for (let slot = (hash >>> 0) % slots.length; ; slot = (slot + 1) % slots.length) {
      const number = slots[slot];
      if (number < 0) return this.add(slot);
      if (this.isNow(number)) return this.counts[number]++;
    }
  }

  /**
   * @param {number} number
   */
  isNow(number) {
    const { kept, now } = this;
    for (let w = 0, at = number * now.length; w < now.length; w++, at++) if (kept[at] !== now[w]) return false;
    return true;
  }

  /**
   * @param {number} slot
   */
  add(slot) {
    if (this.count === MOST_TUPLES) return this.others++;
    this.slots[slot] = this.count;
    this.kept.set(this.now, this.count * this.now.length);
    return this.counts[this.count++]++;
  }

  /**
   * @returns {[bigint[], number][]}
   */
  all(/** @type {number} */ columns) {
    return Array.from({ length: this.count }, (_, number) => {
      const values = /** @type {bigint[]} */ (Array(columns).fill(0n));
      this.words.forEach(({ column, shift }, w) => {
        values[column] |= BigInt(this.kept[number * this.words.length + w]) << BigInt(shift);
      });
      return /** @type {[bigint[], number]} */ ([values, this.counts[number]]);
    });
  }
}

export class Histogram {
  /**
   * @param {Column[]} columns
   * @param {number} batch
   * @param {ArrayBufferLike} buffer
   */
  constructor(columns, batch, buffer) {
    this.columns = columns;
    this.batch = batch;
    this.words = columns.flatMap((column, k) => wordsOf(column, k, buffer));
    this.rest = new Tuples(this.words);
    this.isTable = columns.length > 0 && columns.length <= MOST_TABLE_COLUMNS && this.words.length === columns.length;
    this.table = new Float64Array(this.isTable ? 16 ** columns.length : 0);
  }

  /** How many instances had a tuple that is counted with others. */
  get others() {
    return this.rest.others;
  }

  /** Counts a batch. */
  take() {
    if (!this.isTable) for (let i = 0; i < this.batch; i++) this.rest.take(i);
    else if (this.columns.length === 2) this.takePairs();
    else this.takeWords();
  }

  takePairs() {
    const { batch, table, words: [{ items: ones, at: a, step: p }, { items: others, at: b, step: q }] } = this;
    for (let i = 0; i < batch; i++) {
      const one = ones[a + i * p], other = others[b + i * q];
      if ((one | other) >>> 4) this.rest.take(i);
      else table[(one << 4) | other]++;
    }
  }

  takeWords() {
    const { batch, table, words } = this;
    for (let i = 0; i < batch; i++) {
      let key = 0, all = 0;
      for (let w = 0; w < words.length; w++) {
        const { items, at, step } = words[w];
        const value = items[at + i * step];
        key = (key << 4) | value;
        all |= value;
      }
      if (all >>> 4) this.rest.take(i);
      else table[key]++;
    }
  }

  /**
   * Each tuple with its count, as `[values, count]`; values are decimal, without a sign.
   *
   * @returns {[string[], number][]}
   */
  tuples() {
    const { columns: { length } } = this;
    const found = this.rest.all(length).map(([values, count]) => /** @type {[string[], number]} */ ([values.map(String), count]));
    this.table.forEach((count, key) => {
      if (count) found.push([Array.from({ length }, (_, c) => String((key >> (4 * (length - 1 - c))) & 15)), count]);
    });
    return found;
  }
}
