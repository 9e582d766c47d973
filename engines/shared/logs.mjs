/** The logs of events whose writers and order are not known: one for each witness that a search finds. */

import { documentOf, parse } from './document.mjs';
import { witnessesOf } from './witness.mjs';

/** An event of a document without its writers, with its address and width as numbers. */
const withoutWriters = (event) => {
  const [kind, order, address, width, ...values] = event;
  return [kind, order, Number(address), Number(width), ...values.slice(0, kind === 'x' ? 2 : 1)];
};

/** The threads of a document of version 2, each with its start, and its events without writers. */
const threadsOf = (document) => parse(document)[2].map(([name, args, , , events]) => (
  { start: { name, args }, events: events.map(withoutWriters) }));

/**
 * Yields a document for each witness of a document's events that a search finds. At its end it answers the document given.
 */
export async function* logsOf(document, initial, limits = {}) {
  const threads = threadsOf(document);
  const witnesses = witnessesOf(threads.map(({ events }) => events), initial, limits);
  for (;;) {
    const { value, done } = await witnesses.next();
    if (done) return document;
    const written = threads.map(({ start, events }, t) => (
      { start, events: events.map((event, i) => ({ event, writers: value.writers[t][i] })) }));
    yield documentOf(written, value.order);
  }
}

/** The logs of a round: that of its own witness, or those of the search. */
export async function* logsOfRound({ document, isOpen }, initial, limits) {
  if (isOpen) return yield* logsOf(document, initial, limits);
  yield document;
  return null;
}
