/** Reads what a module recorded of itself from the bytes of its memory. */

import { UserError } from '../shared/errors.mjs';
import { documentOf } from '../shared/document.mjs';
import { cut } from '../shared/accesses.mjs';
import { TYPE, readModule } from '../lowering/module.mjs';
import { EVENT, HEADER, KIND, MAGIC, MOST_THREADS, PAGE_BYTES, THREAD, VERSION, layoutOf } from './layout.mjs';
import { startsOf } from './rewrite.mjs';

/** The memory after the program's pages, whose header has to be that of the module's recording. */
function openRecording(module, memory) {
  const base = (module.memories[0]?.minimum ?? 0) * PAGE_BYTES;
  if (memory.length < base + PAGE_BYTES) {
    const least = `more than ${base + PAGE_BYTES}, all of the memory of a module that records itself`;
    throw new UserError(`the memory has ${memory.length} bytes; expected ${least}`);
  }
  const view = new DataView(memory.buffer, memory.byteOffset, memory.length);
  const word = (offset) => view.getUint32(base + offset, true);
  if (word(HEADER.magic) !== MAGIC) {
    throw new UserError(`no recording begins at byte ${base}: no thread was started, or the memory is not that of this module`);
  }
  if (word(HEADER.version) !== VERSION) {
    throw new UserError(`the recording has version ${word(HEADER.version)}; expected ${VERSION}`);
  }
  const layout = layoutOf(base / PAGE_BYTES, word(HEADER.capacity));
  const counts = { threads: word(HEADER.threads), events: word(HEADER.events) };
  if (counts.threads > MOST_THREADS || counts.events > layout.capacity || memory.length < layout.allPages * PAGE_BYTES) {
    throw new UserError(`the recording states ${counts.threads} threads and ${counts.events} events, more than the memory has room for`);
  }
  return { view, layout, counts };
}

/** The threads: their starts with arguments, and the ends of those that were done, else null. */
function readThreads({ view, layout, counts }, starts) {
  const unsigned = (type, place) => cut(view.getBigUint64(place, true), type === TYPE.i64 ? 8 : 4);
  return Array.from({ length: counts.threads }, (_, number) => {
    const row = layout.base + THREAD.first + number * THREAD.bytes;
    const start = starts[view.getUint32(row + THREAD.start, true) - 1];
    if (!start) throw new UserError(`thread ${number} has a start that the module does not export`);
    const args = start.params.map((type, k) => unsigned(type, row + THREAD.arguments + 8 * k));
    const results = start.results.map((type) => unsigned(type, row + THREAD.result));
    const isDone = view.getUint32(row + THREAD.isDone, true) === 1;
    /** @type {{ event: wmlab.LogEvent, writers: wmlab.Key[] }[]} */
    const events = [];
    return { start: { name: start.name, args }, end: isDone ? ['done', results] : null, events };
  });
}

/** One event, with the shadows of the bytes that it read. */
function readEvent({ view, layout }, number) {
  const place = layout.events + number * EVENT.bytes;
  const word = view.getUint32(place + EVENT.kind, true);
  const [kind, isAtomic, width] = [word & 0xff, (word >>> 8) & 0xff, word >>> 16];
  const value = (offset) => cut(view.getBigUint64(place + offset, true), width);
  const order = isAtomic ? 'sc' : 'un';
  const address = view.getUint32(place + EVENT.address, true);
  const [read, written] = [value(EVENT.read), value(EVENT.written)];
  const event = {
    [KIND.read]: ['r', order, address, width, read],
    [KIND.write]: ['w', order, address, width, written],
    [KIND.update]: ['x', order, address, width, read, written],
  }[kind];
  const shadows = event[0] === 'w' ? [] : Array.from({ length: width }, (_, k) => view.getUint32(place + EVENT.writers + 4 * k, true));
  return { thread: view.getUint32(place + EVENT.thread, true), event, shadows };
}

/**
 * What a module recorded: `document`, a log whose steps and ends `wmlab complete` fills in, and the ends of the threads, null
 * for those that were not done when the memory was copied. The module is the one before it was made to record itself.
 */
export function readRecording(moduleBytes, memory) {
  const module = readModule(moduleBytes);
  const recording = openRecording(module, memory);
  const threads = readThreads(recording, startsOf(module));
  const order = [];
  for (let number = 0; number < recording.counts.events; number++) {
    const { thread, event, shadows } = readEvent(recording, number);
    if (thread >= threads.length) throw new UserError(`event ${number} is of thread ${thread}, of ${threads.length}`);
    // A shadow is the number of an event of all threads + 1.
    const writers = shadows.map((shadow) => (shadow === 0 ? [] : order[shadow - 1]));
    order.push([thread, threads[thread].events.push({ event, writers }) - 1]);
  }
  return { document: documentOf(threads, order), ends: threads.map(({ end }) => end), isFull: order.length === recording.layout.capacity };
}
