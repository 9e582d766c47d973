// @ts-check
/**
 * Where everything of a looped module is in its memory:
 *
 *   0          the control words of the runner, and for each thread the word of its place in the meeting, each in a line of its own
 *   COLUMNS    for each result of each thread a column of `batch` values
 *   LOCATIONS  for each location an array: instance i begins at base + i * stride
 */

/** The control words, as numbers of 32-bit words. They are in cache lines of their own. */
export const WORD = { batch: 0, done: 32, command: 64, failed: 96 };
/** Where the threads' places in the meeting are, in bytes. */
export const MEETING = 1024;
export const MEETING_STRIDE = 128;
const BEGIN = 4096;
const PAGE = 65_536;
/** Addresses of one block of this size belong to one location. */
const BLOCK = 16;
/** The most bytes of all locations of a batch. A batch has fewer instances if they need more. */
export const MOST_BYTES = 64 * 2 ** 20;

/** `isNarrow`: each result is less than 256, so that a byte holds it. */
export const DEFAULTS = { batch: 4096, stride: 64, chunk: 256, wrong: /** @type {string | null} */ (null), isNarrow: false };

/**
 * @typedef {{ address: number, width: number }} Range
 * @typedef {{ first: number, size: number, base: number }} Location an array of instances; `first` is its address in the test
 * @typedef {{ at: number, size: number, isWide: boolean }} Column
 */

const up = (/** @type {number} */ value, /** @type {number} */ to) => Math.ceil(value / to) * to;

/**
 * The locations of ranges: those that share a block, or that a range connects, are one.
 *
 * @param {Range[]} ranges
 */
export function locationsOf(ranges) {
  const sorted = [...ranges].sort((one, other) => one.address - other.address);
  /** @type {{ first: number, end: number }[]} */
  const found = [];
  for (const { address, width } of sorted) {
    const last = found.at(-1);
    if (last && Math.floor((last.end - 1) / BLOCK) >= Math.floor(address / BLOCK)) last.end = Math.max(last.end, address + width);
    else found.push({ first: address - (address % BLOCK), end: address + width });
  }
  return found.map(({ first, end }) => ({ first, size: end - first }));
}

/**
 * The layout of a test. `ranges` are the accesses if the address of each is known, and otherwise the whole memory; `results`
 * has the types of the results of each thread.
 *
 * @param {{ ranges: Range[], results: string[][], widest: number }} test
 * @param {{ batch: number, stride: number, isNarrow: boolean }} options
 */
export function layoutOf({ ranges, results, widest }, options) {
  const found = locationsOf(ranges);
  const longest = Math.max(...found.map(({ size }) => size), 1);
  const stride = up(Math.max(options.stride, longest), widest);
  const fitting = Math.floor(MOST_BYTES / (stride * Math.max(found.length, 1)));
  const batch = Math.max(1, Math.min(options.batch, fitting));
  let at = BEGIN;
  const columns = results.map((types) => types.map((type) => {
    const isWide = type === 'i64';
    const size = options.isNarrow ? 1 : isWide ? 8 : 4;
    const column = { at, size, isWide };
    at = up(at + size * batch, 4096) + 192; // not all columns begin in the same set of the cache
    return column;
  }));
  at = up(at, 4096);
  const begin = at;
  const locations = found.map(({ first, size }, k) => {
    const location = { first, size, base: at };
    at = up(at + batch * stride + BLOCK, 4096) + 320 * (k + 1);
    return location;
  });
  return { batch, stride, columns, locations, begin, end: at, pages: Math.ceil(at / PAGE) };
}

/**
 * The location that has an address.
 *
 * @param {{ locations: Location[] }} layout
 * @param {number} address
 */
export function locationAt({ locations }, address) {
  const found = locations.find(({ first, size }) => address >= first && address < first + size);
  if (!found) throw new Error(`no location has the address ${address}`);
  return found;
}
