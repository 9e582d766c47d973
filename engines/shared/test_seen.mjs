/**
 * Outcomes that node gave on x86, of tests that litmus/run ran: each has to have a witness that the rules allow, by the search on a
 * machine, and by `wmlab witness`. The first `DENIED` lines of testing/seen.jsonl have an atomic load that is made while an earlier
 * plain store waits: a machine that empties its buffer at such a load explains none of them.
 */

import { readFileSync } from 'node:fs';
import { documentOf, eventsAlone } from './document.mjs';
import { witnessesOf } from './witness.mjs';
import { ask } from './wmlab.mjs';

const FILE = new URL('../testing/seen.jsonl', import.meta.url);
const DENIED = 40;
const MOST_WITNESSES = 200;
/** The rules are asked, a process each, of the first lines and of one in this many others. */
const ONE_OF = 4;

/** The log of events with a witness. */
const rowsOf = (threads, { writers, order }) => documentOf(threads.map((events, t) => ({
  start: { name: `t${t}`, args: [] }, events: events.map((event, i) => ({ event, writers: writers[t][i] })),
})), order);

const withBigInts = (threads) => threads.map((events) => events.map(([kind, order, address, width, ...values]) => (
  [kind, order, address, width, ...values.map(BigInt)])));

/** Whether one of the witnesses of events is allowed; null if there is no witness. */
async function isAllowed(threads, isStrict, rules) {
  const witnesses = witnessesOf(threads, new Uint8Array(65_536), { isStrict, seconds: 60 });
  for (let count = 0; count < MOST_WITNESSES; count++) {
    const { value, done } = await witnesses.next();
    if (done) return count ? false : null;
    if ((await rules(rowsOf(threads, value))).startsWith('allowed')) return true;
  }
  return false;
}

/** Whether the rules permit events, whatever their writers and their order. */
async function isPermitted(threads, wmlab) {
  const rows = threads.map((events, t) => ({ start: { name: `t${t}`, args: [] }, events }));
  const { text, status } = await ask(wmlab, ['witness', '-'], eventsAlone(rows, rows.map(() => ['cut'])));
  return status === 0 && text.startsWith('["wasm-litmus-log",2,');
}

export async function testSeen({ note, wmlab }) {
  const lines = readFileSync(FILE, 'utf8').trim().split('\n').map((line) => JSON.parse(line));
  const rules = async (document) => (await ask(wmlab, ['rules', '-'], document)).text;
  /** @type {[string, any[][], boolean][]} */
  const parts = [
    ['with an atomic load over a waiting store, by reorder', lines.slice(0, DENIED), true],
    ['with an atomic load over a waiting store, in the mode free', lines.slice(0, DENIED), false],
    ['of other tests, by reorder', lines.slice(DENIED), true],
  ];
  for (const [what, rows, isStrict] of parts) {
    const wrong = [];
    for (const [name, threads] of rows) if (!await isAllowed(withBigInts(threads), isStrict, rules)) wrong.push(name);
    note(!wrong.length && rows.length >= DENIED, `${rows.length} outcomes ${what}: seen in node, explained and allowed`, wrong.join(' '));
  }
  const asked = lines.filter((_, number) => number < DENIED || number % ONE_OF === 0);
  const wrong = [];
  for (const [name, threads] of asked) if (!await isPermitted(withBigInts(threads), wmlab)) wrong.push(name);
  note(!wrong.length && asked.length >= 2 * DENIED, `${asked.length} of these outcomes are permitted by \`wmlab witness\``, wrong.join(' '));
}
