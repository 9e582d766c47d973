/**
 * Memory that grows. `wmlab` has memories of one size, so all pages that the module may have are there at once, and the size
 * is a number in a further page, an atomic word: `memory.size` loads it, `memory.grow` adds to it by compare-exchanges.
 */

import { block, body, branchIf, condition, constant, get, prefixed, set } from './assembly.mjs';
import { CODE } from './instructions.mjs';
import { TYPE } from './module.mjs';

export const WORD_BYTES = 4;
const ACCESS = [2, 0];
const FAILED = -1;

export const GROW = { params: [TYPE.i32], results: [TYPE.i32] };

/** The number of pages, loaded from its word. */
export const sizeFromWord = (word) => [...constant(word), ...prefixed(CODE.i32AtomicLoad), ...ACCESS];

/** `memory.grow` by a number of pages, up to `most` of them in all. */
export function growBody({ word, most }) {
  const [pages, old] = [0, 1];
  const grown = [...get(old), ...get(pages), CODE.i32Add];
  return body(1,
    block(CODE.loop,
      sizeFromWord(word), set(old),
      get(pages), constant(most), get(old), [CODE.i32Sub, CODE.i32GtU], condition(constant(FAILED), [CODE.return]),
      constant(word), get(old), grown, prefixed(CODE.i32AtomicCmpxchg), ACCESS,
      get(old), [CODE.i32Ne], branchIf(0)),
    get(old));
}

/** `memory.grow` of a memory that has this many pages for good: its size for 0 further pages, and else a failure. */
export const failedGrowth = (pages) => [
  ...constant(0), CODE.i32Ne, ...constant(FAILED - pages), CODE.i32Mul, ...constant(pages), CODE.i32Add];
