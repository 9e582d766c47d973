/** Tests of the search for a witness, over events made by hand. The rules of wmlab judge what is found. */

import { eventsAlone, documentOf, json } from './document.mjs';
import { partsOf } from './machine.mjs';
import { hasRun } from './test_all_runs.mjs';
import { witnessesOf } from './witness.mjs';
import { ask } from './wmlab.mjs';

const load = (address, value, order = 'un', width = 4) => ['r', order, address, width, BigInt(value)];
const store = (address, value, order = 'un', width = 4) => ['w', order, address, width, BigInt(value)];
const zeros = () => new Uint8Array(65_536);

/** All witnesses, at most 40, and what is answered at the end. */
async function search(threads, limits) {
  const list = [];
  const witnesses = witnessesOf(threads, zeros(), limits);
  for (;;) {
    const { value, done } = await witnesses.next();
    if (done) return { list, end: value };
    list.push(value);
    if (list.length === 40) return { list, end: null };
  }
}

/** The first witness, or null. The time is no limit here, whatever else the machine does. */
async function first(threads, limits, memory = zeros()) {
  const { value, done } = await witnessesOf(threads, memory, { seconds: 600, ...limits }).next();
  return done ? null : value;
}

function rulesOn(wmlab, threads, { writers, order }) {
  const rows = threads.map((events, t) => ({
    start: { name: `t${t}`, args: [] },
    events: events.map((event, i) => ({ event, writers: writers[t][i] })),
  }));
  return ask(wmlab, ['rules', '-'], documentOf(rows, order)).then(({ text }) => text);
}

/** One thread stores two values of 8 bytes again and again, and the other reads each, and halves of both. */
function tornWords(count, address) {
  const [one, two] = [0x1111_1111_2222_2222n, 0x3333_3333_4444_4444n];
  const torn = (one & 0xffff_ffffn) | (two & ~0xffff_ffffn);
  const numbers = Array.from({ length: count }, (_, k) => k);
  return [
    numbers.map((k) => store(address, k % 2 ? one : two, 'un', 8)),
    numbers.map((k) => load(address, [one, two, torn][k % 3], 'un', 8)),
  ];
}

/** Three threads store 1 and 2 in turns, and a fourth loads both in turns, and at last a 3. */
function contended(count) {
  const numbers = Array.from({ length: count }, (_, k) => 1 + (k % 2));
  const writer = numbers.map((value) => store(0, value));
  return [writer, writer, writer, [...numbers.map((value) => load(0, value)), load(0, 3)]];
}

/** Loads of 0 beside stores of few values: every value is written again and again. */
function longRun(count) {
  const numbers = Array.from({ length: count / 2 }, (_, k) => k);
  return [numbers.map((k) => (k % 2 ? store(0, k % 4) : load(4, 0))), numbers.map(() => load(0, 0))];
}

/** What no store buffers give: each thread loads what the other one stores after its own load. */
const LOAD_BUFFERING = [[load(0, 1), store(4, 1)], [load(4, 1), store(0, 1)]];

/** Store buffering by atomic stores and plain loads, and a store that is seen late. */
const LATE = [
  [store(0, 1, 'sc'), load(4, 0), store(8, 1, 'sc')],
  [store(4, 1, 'sc'), load(0, 0)],
  [load(8, 0, 'sc'), load(8, 1, 'sc')],
];

/** Numbers below `n` that look random, the same ones for the same seed. */
function randomFrom(seed) {
  let state = seed;
  return (n) => {
    state = (Math.imul(state, 1_664_525) + 1_013_904_223) >>> 0;
    return Math.floor((state / 2 ** 32) * n);
  };
}

/** A run of a machine with store buffers and torn accesses over some places, with random moves; values are 0, 1 or 257. */
class RandomRun {
  constructor(seed, threads, length, { places = 16, widths = [1, 2, 4, 8] } = {}) {
    this.places = places;
    this.widths = widths;
    this.random = randomFrom(seed);
    this.memory = new Uint8Array(24);
    /** @type {{ address: number, bytes: number[], parts: number[][] }[][]} */
    this.buffers = Array.from({ length: threads }, () => []);
    /** @type {wmlab.LogEvent[][]} */
    this.threads = this.buffers.map(() => []);
    while (this.threads.some((events) => events.length < length)) {
      const thread = this.random(threads);
      if (this.random(3) === 0 || this.threads[thread].length === length) this.publishPart(thread);
      else this.access(thread);
    }
  }

  publishPart(thread) {
    const store = this.buffers[thread][0];
    if (!store) return;
    const [[from, end]] = store.parts.splice(this.random(store.parts.length), 1);
    for (let k = from; k < end; k++) this.memory[store.address + k] = store.bytes[k];
    if (!store.parts.length) this.buffers[thread].shift();
  }

  look(thread, at) {
    const isAt = ({ address, parts }) => parts.some(([from, end]) => at >= address + from && at < address + end);
    const store = this.buffers[thread].findLast(isAt);
    return store ? store.bytes[at - store.address] : this.memory[at];
  }

  access(thread) {
    const { random, places, widths } = this;
    const width = widths[random(widths.length)], isAtomic = random(5) === 0;
    const address = isAtomic ? width * random(places / width) : random(places);
    if (isAtomic) while (this.buffers[thread].length) this.publishPart(thread);
    const parts = partsOf(address, width, isAtomic), order = isAtomic ? 'sc' : 'un';
    const written = BigInt([0, 1, width > 1 ? 257 : 1][random(3)]);
    const bytes = Array.from({ length: width }, (_, k) => Number((written >> BigInt(8 * k)) & 255n));
    if (random(2)) {
      this.threads[thread].push(['w', order, address, width, written]);
      this.buffers[thread].push({ address, bytes, parts });
      if (isAtomic) this.publishPart(thread);
      return;
    }
    const read = Array(width).fill(0);
    for (const [from, end] of parts) {
      if (!isAtomic) this.publishPart(random(this.threads.length));
      for (let k = from; k < end; k++) read[k] = this.look(thread, address + k);
    }
    this.threads[thread].push(['r', order, address, width, read.reduceRight((value, byte) => value * 256n + BigInt(byte), 0n)]);
  }
}

/** Runs of such machines, each of which has to be explained, by a witness that the rules allow. */
async function testRandomRuns({ note, wmlab }) {
  const runs = Array.from({ length: 100 }, (_, k) => new RandomRun(k + 1, 2 + (k % 2), 6).threads);
  let explained = 0, allowed = 0;
  for (const threads of runs) {
    const witness = await first(threads);
    if (witness) explained++;
    if (witness && explained <= 20 && (await rulesOn(wmlab, threads, witness)).startsWith('allowed')) allowed++;
  }
  note(
    explained === 100 && allowed === 20,
    `random runs with torn accesses: ${explained} of 100 explained, ${allowed} of 20 allowed`,
  );
}

/** An event over two places whose value is chosen by chance. */
function chosenEvent(random) {
  const width = random(4) ? 1 : 2, isAtomic = random(4) === 0;
  const address = width === 2 && isAtomic ? 0 : random(2);
  const value = () => BigInt([0, 1, width > 1 ? 257 : 1][random(3)]);
  if (isAtomic && random(3) === 0) return ['x', 'sc', address, width, value(), value()];
  return [random(2) ? 'w' : 'r', isAtomic ? 'sc' : 'un', address, width, value()];
}

const chosenEvents = (random) => Array.from({ length: 2 + random(2) }, () => Array.from({ length: 2 + random(3) }, () => chosenEvent(random)));

/** Store buffering by atomic accesses, which only the weak machine gives, with other events at its ends and between. */
function weakEvents(random) {
  const threads = [0, 1].map((place) => [store(place, 1, 'sc', 1), load(1 - place, 0, random(2) ? 'sc' : 'un', 1)]);
  for (let left = random(3); left > 0; left--) threads[random(2)].splice(random(3), 0, chosenEvent(random));
  return threads;
}

/** A few events of a run, of which one read may have another value. */
function changedRun(random, seed) {
  const { threads } = new RandomRun(seed, 2 + random(2), 3, { places: 2 + 2 * random(2), widths: [1, 1, 2] });
  const reads = threads.flat().filter(([kind]) => kind === 'r');
  if (reads.length && random(2)) reads[random(reads.length)][4] ^= 1n;
  return threads;
}

/** Whether a witness has each event once, each thread's in their order, and for each byte read an event that writes its value. */
function isWitness(threads, { writers, order }) {
  const byteOf = ([, , address, , ...values], at, value) => Number((values.at(value) >> BigInt(8 * (at - address))) & 255n);
  const writes = ([thread, number], at, byte) => {
    const event = threads[thread]?.[number];
    const isThere = event && event[0] !== 'r' && at >= event[2] && at < event[2] + event[3];
    return isThere && byteOf(event, at, -1) === byte;
  };
  const isSeen = (event, from, k) => {
    const at = event[2] + k, byte = byteOf(event, at, 0);
    return from.length ? writes(from, at, byte) : byte === 0;
  };
  const hasWriters = threads.every((events, t) => events.every((event, i) => (
    event[0] === 'w' ? !writers[t][i].length : writers[t][i].length === event[3] && writers[t][i].every((from, k) => isSeen(event, from, k)))));
  const hasOrder = threads.every((events, t) => (
    order.filter(([thread]) => thread === t).map(([, number]) => number).join() === [...events.keys()].join()));
  return hasWriters && hasOrder && order.length === threads.flat().length;
}

/** A witness is found exactly if one of all runs gives the events, on the machine that is right or on the weak one. */
async function testAllRuns({ note }) {
  const memory = new Uint8Array(8);
  const counts = { right: 0, weak: 0, none: 0 };
  const wrong = [];
  for (let seed = 1; seed <= 600; seed++) {
    const random = randomFrom(seed);
    const threads = [chosenEvents, weakEvents, changedRun][seed % 3](random, seed);
    const isRight = hasRun(threads, memory.length), isWeak = isRight || hasRun(threads, memory.length, { isWeak: true });
    const [one, other] = [await first(threads, { isStrict: true }, memory), await first(threads, {}, memory)];
    counts[isRight ? 'right' : isWeak ? 'weak' : 'none']++;
    const holds = (one !== null) === isRight && (other !== null) === isWeak && (!other || isWitness(threads, other));
    if (!holds) wrong.push(json(threads));
  }
  const { right, weak, none } = counts;
  const isMixed = right > 200 && weak > 50 && none > 200;
  note(!wrong.length && isMixed, `a witness is found if a run exists, and else not: ${right} runs, ${weak} weak, ${none} none`, wrong.join(' '));
}

export async function testWitness({ note, wmlab }) {
  const weak = [[store(0, 1), load(4, 0)], [store(4, 1), load(0, 0)]];
  const weakest = await first(weak);
  note(
    weakest !== null && (await rulesOn(wmlab, weak, weakest)).startsWith('allowed'),
    'a witness of weak store buffering is found and allowed',
  );

  const none = await search(LOAD_BUFFERING);
  note(none.list.length === 0 && none.end?.gaveUp === null, 'it is certain that store buffers do not give load buffering');
  const limited = await search([[store(0, 1)], [store(0, 2)], [1, 2, 1].map((value) => load(0, value))], { steps: 0 });
  note(limited.list.length === 0 && limited.end?.gaveUp === '0 steps', 'a search that ends at its limit of steps gives up');
  const late = await search(contended(60), { seconds: 0.01 });
  note(late.list.length === 0 && / seconds$/.test(late.end?.gaveUp ?? ''), 'a search that ends at its limit of time gives up');

  note((await first(longRun(16_384)))?.order.length === 16_384, '16,384 events are explained');
  for (const address of [60, 64, 67]) {
    const torn = tornWords(120, address);
    const witness = await first(torn);
    note(
      witness && (await rulesOn(wmlab, torn, witness)).startsWith('allowed'),
      `torn accesses of 8 bytes at ${address} are explained and allowed`,
    );
  }
  const delayed = [
    [[store(0, 1)], [load(8, 1), load(0, 0)], [store(8, 1)]],
    [[store(0, 1)], [store(0, 2)], [load(0, 2), load(0, 1)]],
  ];
  for (const threads of delayed) note(await first(threads), 'a store that another thread still needs unpublished waits');
  const inParts = [
    ['a thread loads what is over the half of its store that was published', [
      [store(1, 257, 'un', 2), load(1, 2, 'un', 1), load(5, 0, 'un', 1)], [store(1, 2, 'sc', 1), store(5, 1, 'sc', 1), load(2, 0, 'un', 1)]]],
    ['a byte that was read may change before the rest of its load', [[store(1, 1, 'un', 1), store(2, 1, 'un', 1)], [load(1, 256, 'un', 2)]]],
  ];
  for (const [what, threads] of inParts) note(await first(threads, { isStrict: true }), what);
  const whole = [[store(0, 0x11112222)], [load(0, 0x2222)]];
  note(!(await first(whole)), 'an aligned access of 4 bytes does not tear');
  note(JSON.stringify([partsOf(64, 8), partsOf(62, 4), partsOf(64, 4), partsOf(64, 8, true)])
    === '[[[0,4],[4,8]],[[0,1],[1,2],[2,3],[3,4]],[[0,4]],[[0,8]]]', 'the parts of accesses');

  await testRandomRuns({ note, wmlab });
  await testAllRuns({ note });
  const { list } = await search(LATE);
  const lines = await Promise.all(list.map((witness) => rulesOn(wmlab, LATE, witness)));
  note(
    /^broken V/.test(lines[0]) && lines.some((line) => line.startsWith('allowed')),
    `after a witness that a rule refuses comes one that is allowed (${lines.length} witnesses)`,
  );

  const rows = LOAD_BUFFERING.map((events, t) => ({ start: { name: `t${t}`, args: [] }, events }));
  const kept = eventsAlone(rows, [['done', [1n]], ['done', [1n]]]);
  note(kept === '["wasm-litmus-log",2,[["t0",[],["done",[1]],0,[["r","un",0,4,1,[]],["w","un",4,4,1]]],'
    + '["t1",[],["done",[1]],0,[["r","un",4,4,1,[]],["w","un",0,4,1]]]],[]]', 'events without a witness are kept');
  note(/^refused shape /.test((await ask(wmlab, ['rules', '-'], kept)).text), 'wmlab refuses them as a log');
}
