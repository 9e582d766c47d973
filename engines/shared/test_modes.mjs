/** Tests of the modes: the log of one thread is the same in each, schedules give the logs that are written here, and traps have names. */

import { readFileSync } from 'node:fs';
import { fileURLToPath } from 'node:url';
import { moduleOf } from '../lowering/test_modules.mjs';
import { startThread } from '../node/threads.mjs';
import { programsOf } from '../testing/programs.mjs';
import { s32, u32 } from './binary.mjs';
import { json, parse } from './document.mjs';
import { endOf, free } from './modes.mjs';
import { MODES, Recorder } from './recorder.mjs';
import { rewrite } from './rewrite.mjs';
import { parseStart } from './starts.mjs';
import { threadOf } from './thread.mjs';
import { CONTROL, CONTROL_WORDS, MOST_ITEMS, Scheduler } from './turns.mjs';

const EXAMPLES = fileURLToPath(new URL('../../examples', import.meta.url));

/** A thread in this process, which is enough for a recorder of one. */
function ownThread(data) {
  const round = threadOf(data);
  return { ask: async (question) => round(question), close() {} };
}

/**
 * One round of one thread: its document, its end, and its events without their writers.
 *
 * @param {Uint8Array} bytes
 * @param {wmlab.Start} start
 * @param {string} mode
 * @param {{ events?: number, wrong?: string | null }} more
 */
export async function runAlone(bytes, start, mode, { events = 600, wrong = null } = {}) {
  const { document, ends } = await new Recorder(bytes, [start], { mode, events, wrong }, ownThread).round(1);
  const values = parse(document)[2][0][4].map((event) => json(event[0] === 'w' ? event : event.slice(0, -1)));
  return { document, end: json(ends[0]), events: values };
}

/** Whether a thread had the same end and events in two modes; if one was cut, the other one may have gone on. */
function isSameRun(one, other) {
  const isCut = [one, other].some(({ end }) => end.startsWith('["cut"'));
  const count = isCut ? Math.min(one.events.length, other.events.length) : Infinity;
  return (isCut || one.end === other.end) && one.events.slice(0, count).join() === other.events.slice(0, count).join();
}

/** How the runs of a start differ by the mode; null if they do not. The modes locked and buffered have the same document. */
async function differenceOf(bytes, start, events) {
  const [locked, buffered, free] = await Promise.all(MODES.map((mode) => runAlone(bytes, start, mode, { events })));
  if (locked.document !== buffered.document || locked.end !== buffered.end) return `${locked.document} and ${buffered.document}`;
  return isSameRun(locked, free) ? null : `${locked.end} ${locked.events} and ${free.end} ${free.events}`;
}

/** Each start of each example, alone. */
async function testAlone({ note, wmlab }) {
  const differences = [];
  let count = 0;
  for (const { name, path, starts } of await programsOf(EXAMPLES, wmlab)) {
    for (const word of new Set(starts)) {
      const difference = await differenceOf(readFileSync(path), parseStart(word), 100);
      if (difference) differences.push(`${name} ${word}: ${difference}`);
      count++;
    }
  }
  note(!differences.length && count > 100, `a thread alone has the same log in each mode: ${count} starts`, differences.join('; '));
}

/** The shapes of atomic accesses, in the order of their opcodes. */
const SHAPES = [['i32', 4], ['i64', 8], ['i32', 1], ['i32', 2], ['i64', 1], ['i64', 2], ['i64', 4]];
const atomics = (base, kind, operands) => SHAPES.map(([type, width], k) => ({ code: [0xfe, base + k], kind, operands, type, width }));
const plain = (kind, rows) => rows.map(([code, type, width]) => ({ code: [code], kind, operands: kind === 'w' ? 1 : 0, type, width }));

/** All accesses of WebAssembly to integers. */
const ACCESSES = [
  ...plain('r', [[0x28, 'i32', 4], [0x29, 'i64', 8], [0x2c, 'i32', 1], [0x2d, 'i32', 1], [0x2e, 'i32', 2], [0x2f, 'i32', 2],
    [0x30, 'i64', 1], [0x31, 'i64', 1], [0x32, 'i64', 2], [0x33, 'i64', 2], [0x34, 'i64', 4], [0x35, 'i64', 4]]),
  ...plain('w', [[0x36, 'i32', 4], [0x37, 'i64', 8], [0x3a, 'i32', 1], [0x3b, 'i32', 2], [0x3c, 'i64', 1], [0x3d, 'i64', 2], [0x3e, 'i64', 4]]),
  ...atomics(0x10, 'r', 0), ...atomics(0x17, 'w', 1), ...[0x1e, 0x25, 0x2c, 0x33, 0x3a, 0x41].flatMap((base) => atomics(base, 'x', 1)),
  ...atomics(0x48, 'x', 2),
];
const [I32, I64] = [0x7f, 0x7e];

/** Each cell of 16 bytes begins with 8 bytes of which most are negative, and ends with zeros. */
const CELLS = Array.from({ length: 16 * ACCESSES.length }, (_, at) => (at % 16 < 8 ? 0x80 | ((37 * at) & 0x7f) : 0));

/** The code of an access at an address: a compare-exchange expects 0. The value read goes into the sum of the local 0. */
function accessCode({ code, kind, operands, type, width }, address, offset) {
  const constants = [0, -0x1234_5679].slice(2 - operands).flatMap((value) => [type === 'i64' ? 0x42 : 0x41, ...s32(value)]);
  const align = code.length > 1 ? Math.log2(width) : 0;
  const sum = [...(type === 'i32' ? [0xad] : []), 0x20, 0, 0x42, 31, 0x7e, 0x7c, 0x21, 0];
  return [0x41, ...s32(address), ...constants, ...code, align, ...u32(offset), ...(kind === 'w' ? [] : sum)];
}

/**
 * Where each access is made: in the middle of the bytes if it is plain, else at the negative bytes, and at the zeros. What a store
 * leaves is loaded.
 */
const LOAD = ACCESSES.find(({ code }) => code[0] === 0x29);
export const PLACES = ACCESSES.flatMap((access, cell) => (
  (access.code.length > 1 ? [0, 8] : [3, 8]).flatMap((offset) => (
    (access.kind === 'w' ? [access, LOAD] : [access]).map((each) => ({ access: each, address: 16 * cell, offset }))))));

/** All accesses of a list of places in one function, which answers the sum of what they read; its memory may be imported. */
export const allAccesses = (places, more = {}) => moduleOf({
  ...more,
  types: [[0x60, 0, 1, I64]],
  functions: [{
    code: [...places.flatMap(({ access, address, offset }) => accessCode(access, address, offset)), 0x20, 0], locals: [1, 1, I64], exported: 'a',
  }],
  data: [[0, 0x41, 0, 0x0b, ...u32(CELLS.length), ...CELLS]],
});

/** The start of the text of the event that is made at a place. A compare-exchange that finds another value is a read. */
function beginningOf({ access: { code, kind, operands, width }, address, offset }) {
  const seen = operands === 2 && offset === 0 ? 'r' : kind;
  return `["${seen}","${code.length > 1 ? 'sc' : 'un'}",${address + offset},${width},`;
}

/** Each access in each mode: its kind, order, address and width, and values with the sum that the engine gives. */
async function testAccesses({ note }) {
  const bytes = allAccesses(PLACES);
  const start = parseStart('a');
  const difference = await differenceOf(bytes, start);
  const { events, end } = await runAlone(bytes, start, 'locked');
  const wrong = PLACES.findIndex((place, k) => !events[k]?.startsWith(beginningOf(place)));
  const sum = BigInt.asUintN(64, /** @type {Function} */ (new WebAssembly.Instance(new WebAssembly.Module(bytes)).exports.a)());
  const holds = !difference && wrong < 0 && events.length === PLACES.length && end === `["done",[${sum}]]`;
  note(holds, `${PLACES.length} accesses of ${ACCESSES.length} kinds are the same in each mode, and those of the engine`, `${difference} ${wrong}`);
}

/** Two threads that store 4 and 2 bytes to one place and load 8, and one that makes atomic accesses after a plain store. */
const MEETING = moduleOf({
  types: [[0x60, 0, 1, I64], [0x60, 0, 1, I32]],
  functions: [
    { code: [0x41, 0, 0x41, ...s32(0x1122_3344), 0x36, 2, 0, 0x41, 0, 0x29, 3, 0], exported: 'four' },
    { code: [0x41, 0, 0x41, ...s32(0xbbaa), 0x3b, 1, 2, 0x41, 0, 0x29, 3, 0], exported: 'two' },
    { type: 1, code: [0x41, 0, 0x41, 1, 0x36, 2, 0, 0x41, 0, 0x41, 2, 0xfe, 0x17, 2, 4, 0x41, 0, 0x41, 5, 0xfe, 0x1e, 2, 4], exported: 'atomic' },
    { type: 1, code: [0x41, 0, 0x41, 1, 0x36, 2, 0, 0x41, 0, 0xfe, 0x10, 2, 0], exported: 'reading' },
  ],
});
const FOUR = '["w","un",0,4,287454020]', TWO = '["w","un",2,2,48042]';
const log = (rows, order) => (
  `["wasm-litmus-log",2,[${rows.map(([name, ...events]) => `["${name}",[],["cut"],0,[${events}]]`)}],${JSON.stringify(order)}]`);
const loads = (value, ...writers) => `["r","un",0,8,${value},${JSON.stringify(writers)}]`;
const [NO, A, B] = [[], [0, 0], [1, 0]];

/**
 * Schedules with the log that each gives, the items that can be made, and the ends: 2 T is an access of thread T, 2 T + 1 the
 * publication of its oldest store.
 */
const SCHEDULES = [
  ['each thread sees its own store that waits', { mode: 'buffered' }, [0, 2, 0, 2, 3, 1], [0, 2, 0, 2, 3, 1],
    log([['four', FOUR, loads(287454020, A, A, A, A, NO, NO, NO, NO)], ['two', TWO, loads(3148480512, NO, NO, B, B, NO, NO, NO, NO)]],
      [[0, 0], [1, 0], [0, 1], [1, 1]]), 'done:287454020 done:3148480512'],
  ['what cannot be published is passed over, and the newest store that was published is seen', { mode: 'buffered' },
    [1, 2, 3, 3, 0, 1, 2, 0], [2, 3, 0, 1, 2, 0],
    log([['four', FOUR, loads(287454020, A, A, A, A, NO, NO, NO, NO)], ['two', TWO, loads(287454020, A, A, A, A, NO, NO, NO, NO)]],
      [[1, 0], [0, 0], [1, 1], [0, 1]]), 'done:287454020 done:287454020'],
  ['a schedule that is over cuts both', { mode: 'buffered' }, [2, 0], [2, 0], log([['four', FOUR], ['two', TWO]], [[1, 0], [0, 0]]), 'cut cut'],
  ['no more events than there may be', { mode: 'buffered', events: 3 }, [2, 0, 2, 0, 3, 1], [2, 0, 2, 0, 3, 1],
    log([['four', FOUR], ['two', TWO, loads(3148480512, NO, NO, B, B, NO, NO, NO, NO)]], [[1, 0], [0, 0], [1, 1]]), 'cut done:3148480512'],
  ['each access at once', { mode: 'locked' }, [1, 0, 2, 0, 2], [0, 2, 0, 2],
    log([['four', FOUR, loads(3148493636, A, A, B, B, NO, NO, NO, NO)], ['two', TWO, loads(3148493636, A, A, B, B, NO, NO, NO, NO)]],
      [[0, 0], [1, 0], [0, 1], [1, 1]]), 'done:3148493636 done:3148493636'],
  ['no more events, each at once', { mode: 'locked', events: 1 }, [2, 0, 2], [2, 0, 2], log([['four'], ['two', TWO]], [[1, 0]]), 'cut cut'],
  ['stores in halves, of which the first one is published', { mode: 'buffered', wrong: 'torn-store' }, [0, 1, 2, 2, 0, 1, 3, 3], [0, 1, 2, 2, 0, 1, 3, 3],
    log([['four', FOUR, loads(287454020, A, A, A, A, NO, NO, NO, NO)], ['two', TWO, loads(3148493636, A, A, B, B, NO, NO, NO, NO)]],
      [[0, 0], [1, 0], [1, 1], [0, 1]]), 'done:287454020 done:3148493636'],
];
const ATOMIC = ['["w","un",0,4,1]', '["w","sc",4,4,2]', '["x","sc",4,4,2,7,[[0,1],[0,1],[0,1],[0,1]]]'];
/** @type {any[][]} */
const ATOMIC_ALONE = [
  ['an atomic access publishes all that waits', { mode: 'buffered' }, [0, 0, 1, 0], [0, 0, 0],
    log([['atomic', ...ATOMIC]], [[0, 0], [0, 1], [0, 2]]), 'done:2'],
  ['an atomic store that is made as a plain one waits, and an update does not', { mode: 'buffered', wrong: 'plain-atomics' }, [0, 0, 1, 0, 1],
    [0, 0, 1, 0], log([['atomic', ...ATOMIC]], [[0, 0], [0, 1], [0, 2]]), 'done:2'],
];

const READ = log([['reading', '["w","un",0,4,1]', '["r","sc",0,4,1,[[0,0],[0,0],[0,0],[0,0]]]']], [[0, 0], [0, 1]]);
/** @type {any[][]} */
const READING_ALONE = [
  ['an atomic load publishes all that waits', { mode: 'buffered' }, [0, 0, 1], [0, 0], READ, 'done:1'],
  ['an atomic load that is made as a plain one does not', { mode: 'buffered', wrong: 'plain-atomics' }, [0, 0, 1], [0, 0, 1], READ, 'done:1'],
];

async function testSchedules({ note }) {
  for (const [rows, starts] of [[SCHEDULES, ['four', 'two']], [ATOMIC_ALONE, ['atomic']], [READING_ALONE, ['reading']]]) {
    for (const [what, options, items, made, document, ended] of rows) {
      const recorder = new Recorder(MEETING, starts.map(parseStart), options, startThread);
      const round = await recorder.round(1, items);
      await recorder.close();
      const ends = round.ends.map((end) => end.flat().join(':')).join(' ');
      const holds = round.document === document && round.turns.join() === made.join() && ends === ended;
      note(holds, `${options.mode}: ${what}`, `${round.document} by ${round.turns}: ${ends}`);
    }
  }
}

/** What the engines report of a trap, and its name in a log: V8, SpiderMonkey and JavaScriptCore. */
const MESSAGES = {
  unreachable: ['unreachable', 'unreachable executed', "Unreachable code should not be executed (evaluating 'run(...args)')"],
  'divide-by-zero': ['divide by zero', 'remainder by zero', 'integer divide by zero', "Division by zero (evaluating 'run(...args)')"],
  overflow: ['divide result unrepresentable', 'integer overflow', "Integer overflow (evaluating 'run(...args)')"],
  'out-of-bounds': ['memory access out of bounds', 'index out of bounds', "Out of bounds memory access (evaluating 'run(...args)')"],
  unaligned: ['operation does not support unaligned accesses', 'unaligned memory access'],
};

function testEnds({ note }) {
  const thrown = (error) => endOf(() => { throw error; });
  const wrong = Object.entries(MESSAGES).flatMap(([trap, texts]) => (
    texts.filter((text) => json(thrown(new WebAssembly.RuntimeError(text))) !== `["trap","${trap}"]`)));
  note(!wrong.length, 'the traps of all engines have their names', wrong.join('; '));
  const isThrownOn = (error) => {
    try {
      thrown(error);
      return false;
    } catch (other) {
      return other === error;
    }
  };
  const others = [new WebAssembly.RuntimeError('table index is out of bounds'), new Error('unreachable')];
  note(others.every(isThrownOn), 'an error that is no trap of the profile is a fault');
  const ends = [undefined, 7, -1, -1n].map((value) => json(endOf(() => value))).join(' ');
  note(ends === '["done",[]] ["done",[7]] ["done",[4294967295]] ["done",[18446744073709551615]]', 'results are unsigned', ends);
}

/** A function that calls itself as often as its argument, and one that goes round a loop as often. */
export const COUNTING = moduleOf({
  types: [[0x60, 1, I32, 0]],
  functions: [
    { code: [0x20, 0, 0x04, 0x40, 0x20, 0, 0x41, 1, 0x6b, 0x10, 0, 0x0b], exported: 'calls' },
    { code: [0x03, 0x40, 0x20, 0, 0x41, 1, 0x6b, 0x22, 0, 0x0d, 0, 0x0b], exported: 'loops' },
  ],
});
/** 256 calls may be active, of which the start is one; and 20,000 heads of functions and loops are passed. */
const COUNTS = [
  ['calls:255', '["done",[]]'], ['calls:256', '["trap","exhausted"]'], ['loops:19998', '["done",[]]'], ['loops:19999', '["cut","tired"]'],
];

async function testCounts({ note }) {
  for (const mode of MODES) {
    const ends = await Promise.all(COUNTS.map(async ([word]) => (await runAlone(COUNTING, parseStart(word), mode)).end));
    note(ends.join() === COUNTS.map(([, end]) => end).join(), `${mode}: the most active calls, and the most turns of loops`, ends.join());
  }
}

/** Functions of an address, which make an access at the end of the memory or past it, or not at a multiple of the width. */
export const ADDRESSED = moduleOf({
  types: [[0x60, 1, I32, 1, I32], [0x60, 1, I32, 0]],
  functions: [
    { code: [0x20, 0, 0x28, 2, 4], exported: 'load' },
    { code: [0x20, 0, 0x42, 7, 0x37, 3, 0], type: 1, exported: 'store' },
    { code: [0x20, 0, 0xfe, 0x10, 2, 2], exported: 'atomic' },
    { code: [0x20, 0, 0x41, 1, 0xfe, 0x41, 2, 0], exported: 'exchange' },
    { code: [0x20, 0, 0x2d, 0, ...u32(0xffff_ffff)], exported: 'far' },
    { code: [0x3f, 0], exported: 'size' },
  ],
});
const DONE = '["done",[0]]', OUTSIDE = '["trap","out-of-bounds"]', UNALIGNED = '["trap","unaligned"]';
/** Starts with their ends, and the one that V8 gives in the mode free if it is another. */
export const ADDRESSES = [
  ['load:65528', DONE], ['load:65529', OUTSIDE], ['load:-4', OUTSIDE], ['load:-1', OUTSIDE], ['store:65528', '["done",[]]'],
  ['store:65529', OUTSIDE], ['store:-8', OUTSIDE], ['atomic:2', DONE], ['atomic:65530', DONE], ['atomic:65534', OUTSIDE], ['atomic:-2', OUTSIDE],
  ['atomic:1', UNALIGNED], ['atomic:0', UNALIGNED], ['exchange:65532', DONE], ['exchange:65534', UNALIGNED, OUTSIDE],
  ['exchange:65536', OUTSIDE], ['exchange:-2', UNALIGNED, OUTSIDE], ['far:0', OUTSIDE], ['far:1', OUTSIDE], ['size:0', '["done",[1]]'],
];

/** Whether accesses trap, and how: before an event is made. */
async function testTraps({ note }) {
  for (const mode of MODES) {
    const wrong = [];
    for (const [word, end, endOfEngine = end] of ADDRESSES) {
      const run = await runAlone(ADDRESSED, parseStart(word), mode);
      const count = end.startsWith('["done"') && word !== 'size:0' ? 1 : 0;
      if (run.end !== (mode === 'free' ? endOfEngine : end) || run.events.length !== count) wrong.push(`${word}: ${run.end} ${run.events}`);
    }
    note(!wrong.length, `${mode}: accesses at the end of the memory and past it`, wrong.join('; '));
  }
}

export const IMPORTED = { memory: null, imports: [[3, 101, 110, 118, 1, 109, 2, 3, 1, 2]] };

/** What does not change the log of a thread that is alone: whose memory it is, and an engine whose stores and atomics are wrong. */
async function testSame({ note }) {
  const start = parseStart('a');
  const own = await runAlone(allAccesses(PLACES), start, 'locked');
  for (const mode of MODES) {
    const imported = await runAlone(allAccesses(PLACES, IMPORTED), start, mode);
    note(isSameRun(own, imported) && imported.events.length === PLACES.length, `${mode}: an imported memory is recorded as an own one`);
  }
  for (const mode of ['buffered', 'free']) {
    const runs = await Promise.all(['plain-atomics', 'torn-store'].map((wrong) => runAlone(allAccesses(PLACES), start, mode, { wrong })));
    note(runs.every((run) => isSameRun(own, run)), `${mode}: alone a thread of an engine with wrong stores has the same log`);
  }
  const without = moduleOf({ functions: [{ code: [], exported: 'a' }], memory: null });
  const ends = await Promise.all(MODES.map(async (mode) => (await runAlone(without, start, mode)).end));
  note(ends.every((end) => end === '["done",[]]'), 'a module without a memory is recorded', ends.join());
}

/** The first items that a seed gives for three threads, of which the first one has two stores that wait. */
const ITEMS = {
  1: '222020002200042100424444011404',
  4: '222222222221124400000000000444',
};

function testSeeds({ note }) {
  for (const [turn, expected] of Object.entries(ITEMS)) {
    const control = new Int32Array(CONTROL_WORDS), schedule = new Int32Array(MOST_ITEMS);
    const scheduler = new Scheduler({ threads: 3, turn: Number(turn), control, schedule });
    scheduler.begin(7, null, 100);
    control[CONTROL.waiting] = 2;
    for (let left = 19; left > 0; left--) if (scheduler.next() === 1) control[CONTROL.waiting]--;
    control[CONTROL.ended + 1] = 1;
    for (let left = 10; left > 0; left--) scheduler.next();
    note(scheduler.made().join('') === expected, `turns of at most ${turn} accesses, as a seed gives them`, scheduler.made().join(''));
  }
}

/** A thread that loads once and then stores in turns without an end, and one that loads and stores. */
const STORING = moduleOf({
  functions: [
    { code: [0x41, 0, 0x28, 2, 0, 0x1a, 0x03, 0x40, 0x41, 8, 0x41, 7, 0x36, 2, 0, 0x0c, 0, 0x0b], exported: 'stores' },
    { code: [0x03, 0x40, 0x41, 0, 0x28, 2, 0, 0x1a, 0x41, 8, 0x41, 7, 0x36, 2, 0, 0x0c, 0, 0x0b], exported: 'both' },
  ],
});

/** Threads that load once, and then end, store, trap, or load past the end of the memory. */
const AFTER_A_READ = moduleOf({
  functions: Object.entries({ ends: [], stores: [0x41, 0, 0x41, 7, 0x36, 2, 0], traps: [0x00], leaves: [0x41, 0x7f, 0x28, 2, 0, 0x1a] })
    .map(([exported, more]) => ({ code: [0x41, 0, 0x28, 2, 0, 0x1a, ...more], exported })),
});
const UNREACHABLE = '["trap","unreachable"]';

/** A thread is cut right after the last read of its share. One that stores until it is cut has all of its stores in the log. */
async function testCuts({ note }) {
  const both = await runAlone(STORING, parseStart('both'), 'free', { events: 4 });
  note(both.events.length === 7 && both.end === '["cut"]', 'free: a thread is cut after its last read', both.events.join());
  const stores = await runAlone(STORING, parseStart('stores'), 'free', { events: 4 });
  const count = stores.events.length;
  const isWhole = count === 1 + 19_998 && stores.end === '["cut","tired"]';
  note(isWhole, `free: the stores after the last read of a thread that is cut are in the log: ${count} events`);
  const ends = await Promise.all(['ends', 'stores', 'traps', 'leaves'].map(async (name) => (
    (await runAlone(AFTER_A_READ, parseStart(name), 'free', { events: 1 })).end)));
  const expected = ['["done",[]]', '["cut"]', UNREACHABLE, OUTSIDE];
  note(ends.join() === expected.join(), 'free: a thread whose last read is the last of its share ends as it would', ends.join());
}

/** How often a thread in the mode free sleeps, while a function calls its hooks. */
function napsOf(call) {
  const { wait } = Atomics;
  let count = 0;
  Atomics.wait = /** @type {typeof wait} */ (() => { count++; return 'timed-out'; });
  try {
    const { hooks } = free({ limit: 1_000, values: [], wrong: null, native: {}, control: new Int32Array(CONTROL_WORDS) });
    call(hooks);
  } finally {
    Atomics.wait = wait;
  }
  return count;
}

/** A thread that reads the same values again sleeps at the head of its next loop, once for a read, and never right after a read. */
function testNaps({ note }) {
  const read = (hooks, values) => values.forEach((value) => hooks.note_i32(value));
  const same = Array(40).fill(7);
  const naps = [
    napsOf((hooks) => read(hooks, same)),
    napsOf((hooks) => { read(hooks, same); hooks.rest(); hooks.rest(); }),
    napsOf((hooks) => { read(hooks, same.slice(0, 33)); hooks.rest(); }),
    napsOf((hooks) => { read(hooks, [...same, 8]); hooks.rest(); }),
    napsOf((hooks) => same.forEach((value) => { read(hooks, [value]); hooks.rest(); })),
  ];
  note(naps.join() === '0,1,0,0,7', 'free: a thread that spins sleeps at the heads of its loops', naps.join());
  const calls = (bytes) => WebAssembly.Module.imports(new WebAssembly.Module(bytes)).filter(({ name }) => name === 'rest').length;
  const [noted, hooked] = ['noted', 'hooked'].map((style) => calls(rewrite(COUNTING, style).bytes));
  note(noted === 1 && hooked === 0, 'free: loops have a place to sleep, and in no other mode', `${noted} ${hooked}`);
}

export async function testModes(context) {
  testSeeds(context);
  testEnds(context);
  await testCounts(context);
  await testAccesses(context);
  await testSame(context);
  await testTraps(context);
  await testCuts(context);
  testNaps(context);
  await testSchedules(context);
  await testAlone(context);
}
