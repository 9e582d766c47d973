/** What a lowered module has behind its own pages: stacks, blocks of thread-local variables, and the size of the memory. */

import { UserError } from '../shared/errors.mjs';

export const PAGE_BYTES = 65_536;

/** Bytes behind the program's pages, taken one after the other before it is known where they begin. */
export class FurtherPages {
  taken = 0;

  /** Takes bytes, and answers where they are behind the program's pages. */
  take(count, alignment = 16) {
    const place = Math.ceil(this.taken / alignment) * alignment;
    this.taken = place + count;
    return place;
  }

  get pages() {
    return Math.ceil(this.taken / PAGE_BYTES);
  }
}

/**
 * The exported functions as they are in the lowered module: with `copies` each one comes as NAME.0 to NAME.(copies - 1).
 * Copies with one number have what is theirs in common, since one thread has one number: `number` counts from 0.
 */
export function entriesOf(functions, copies) {
  const entries = functions.flatMap(({ name, index }, place) => (
    copies ? Array.from({ length: copies }, (_, number) => ({ name: `${name}.${number}`, index, number }))
      : [{ name, index, number: place }]));
  const names = new Set(entries.map(({ name }) => name));
  if (names.size < entries.length) {
    throw new UserError('two exports would have one name; rename one that ends with a dot and a number');
  }
  return entries;
}
