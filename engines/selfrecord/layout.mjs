/**
 * The layout of what a module that records itself keeps in its memory, after the program's own pages. All numbers are
 * unsigned and little-endian; those without a width have 4 bytes.
 *
 * - The control page: the header, and from byte 64 on a row of 128 bytes for each thread.
 * - The shadow: for each byte of the program's pages the event that wrote it last, as its number + 1, or 0.
 * - The events, each with 64 bytes, in the order in which they were made.
 */

export const PAGE_BYTES = 65_536;
export const MAGIC = 0x4c52_4d57; // "WMRL"
export const VERSION = 1;
export const MOST_THREADS = 16;
export const MOST_ARGUMENTS = 14;

/** Offsets in the header. `events` counts those that are complete; `lock` is 1 while a thread writes one. */
export const HEADER = { lock: 0, threads: 4, events: 8, magic: 16, version: 20, pages: 24, capacity: 28 };

/** Offsets in the row of a thread: the number of its start + 1, whether it is done, its result, its arguments (8 bytes each). */
export const THREAD = { first: 64, bytes: 128, start: 0, isDone: 4, result: 8, arguments: 16 };

/**
 * Offsets in an event: its thread, its kind (a byte of `KIND`, then 1 if atomic, then the width), the address, the value read and
 * the value written (8 bytes each), and for each byte read what its shadow was.
 */
export const EVENT = { bytes: 64, thread: 0, kind: 4, address: 8, read: 16, written: 24, writers: 32 };
export const KIND = { read: 0, write: 1, update: 2 };

/** The addresses of the parts, for a program of some pages, and the pages of all. */
export function layoutOf(pages, capacity) {
  const base = pages * PAGE_BYTES;
  const shadow = base + PAGE_BYTES;
  const events = shadow + 4 * base;
  const allPages = Math.ceil((events + capacity * EVENT.bytes) / PAGE_BYTES);
  return { base, shadow, events, allPages, capacity, pages };
}
