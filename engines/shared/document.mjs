/** The log document, version 2: JSON of arrays, strings and integers of any size. */

/** JSON of a value in which numbers may be BigInts. */
export function json(value) {
  if (Array.isArray(value)) return `[${value.map(json).join(',')}]`;
  return typeof value === 'string' ? JSON.stringify(value) : String(value);
}

/** A value of JSON, with each integer as a BigInt, since 64 bits do not fit a JavaScript number. */
export function parse(text) {
  const tagged = text.replace(/"(?:[^"\\]|\\.)*"|-?\d+/g, (token) => (token[0] === '"' ? token : `{"n":"${token}"}`));
  return JSON.parse(tagged, (_, value) => (typeof value?.n === 'string' ? BigInt(value.n) : value));
}

/** Why a thread was cut: it entered more loops and functions than it may. It may have had nothing left to do but to end. */
export const TIRED = 'tired';

/**
 * Whether a thread was cut for that reason.
 *
 * @param {wmlab.End} end
 */
export const isTired = ([kind, why]) => kind === 'cut' && why === TIRED;

/** An end as a log has it: without why a thread was cut. */
export const endInLog = (end) => (end[0] === 'cut' ? ['cut'] : end);

/**
 * The document of a round. `wmlab complete` fills in steps and ends, so that they stay open here: 0 steps, and cut.
 * Each thread has its start, and its events with the writers of the bytes that each reads.
 */
export function documentOf(threads, order) {
  const events = (thread) => thread.events.map(({ event, writers }) => (event[0] === 'w' ? event : [...event, writers]));
  const rows = threads.map((thread) => [thread.start.name, thread.start.args, ['cut'], 0, events(thread)]);
  return json(['wasm-litmus-log', 2, rows, order]);
}

/**
 * The events of a round for which no witness is known, in the form of a log that wmlab refuses: the writers of each read are
 * `[]`, and so is the order. The ends are those that the engine gave; steps are open, 0.
 */
export function eventsAlone(threads, ends) {
  const events = (thread) => thread.events.map((event) => (event[0] === 'w' ? event : [...event, []]));
  const rows = threads.map((thread, t) => [thread.start.name, thread.start.args, endInLog(ends[t]), 0, events(thread)]);
  return json(['wasm-litmus-log', 2, rows, []]);
}

/** Whether a document has events and no order, so that it is no candidate: only `witness` takes it. */
export const isWithoutWitness = (document) => /"[rwx]"/.test(document) && /,\[\]\]\s*$/.test(document);

/** The document, or the same events with writers and an order that are not meant: `complete` wants some, and `witness` ignores them. */
export function withSomeWitness(document) {
  if (!isWithoutWitness(document)) return document;
  const value = parse(document);
  const events = value[2].flatMap(([, , , , each], thread) => each.map((event, number) => ({ event, name: [thread, number] })));
  for (const { event } of events) if (event[0] !== 'w') event[event.length - 1] = Array(Number(event[3])).fill([]);
  value[3] = events.map(({ name }) => name);
  return json(value);
}

/** The ends of a document's threads, as texts. */
export const endsOf = (text) => parse(text)[2].map((thread) => json(thread[2]));
