/** Runs programs on node before and after the lowering, and compares results and memories. */

import { mkdtempSync, readFileSync, readdirSync, rmSync, writeFileSync } from 'node:fs';
import { tmpdir } from 'node:os';
import { fileURLToPath } from 'node:url';
import { setFlagsFromString } from 'node:v8';
import { name, section } from '../shared/binary.mjs';
import { ask } from '../shared/wmlab.mjs';
import { lower } from './lower.mjs';
import { moduleOf } from './test_modules.mjs';

const FOLDER = fileURLToPath(new URL('./programs', import.meta.url));
const EMPTY_LOG = '["wasm-litmus-log",2,[],[]]';
const ALLOWED = 'allowed threads=0 events=0';

/** The traps of tables and of truncated floats, which lowered modules do not have. */
const TRAPS_THAT_ARE_UNREACHABLE = /^(table index is out of bounds|null function or function signature mismatch|float unrepresentable.*)$/;

/** Numbers that look random, the same ones for the same seed: 32 bits of a linear congruential generator. */
export function randomFrom(seed) {
  let state = seed;
  return () => {
    state = (Math.imul(state, 1_664_525) + 1_013_904_223) >>> 0;
    return (state ^ (state >>> 13)) >>> 0;
  };
}

/** The block of thread-local variables before the lowering, in a page that is not used, and after it; and its bytes. */
const OWN_BLOCK = { original: 65_536, lowered: 131_072, size: 128 };

/** How a program is lowered, and what is done first in an instance of the module as it was. */
const PROGRAMS = {
  'arithmetic.wasm': { options: { softFloats: true } },
  'thread-locals.wasm': { options: { tls: 'each' }, prepare: ({ exports }) => exports.__wasm_init_tls(OWN_BLOCK.original) },
};

/** These import a memory, and run on threads. */
const ON_THREADS = new Set(['threads.wasm']);

/** What a call answers, and the bytes that it leaves in the memory. */
function outcomeOf(module, exported, args, prepare) {
  const instance = new WebAssembly.Instance(module);
  prepare?.(instance);
  /** @type {Record<string, any>} */
  const exports = instance.exports;
  let end;
  try {
    end = String(exports[exported](...args));
  } catch (error) {
    if (!(error instanceof WebAssembly.RuntimeError)) throw error;
    end = TRAPS_THAT_ARE_UNREACHABLE.test(error.message) ? 'unreachable' : error.message;
  }
  return { end, memory: Buffer.from(new Uint8Array(exports.memory.buffer)) };
}

/** Whether a lowered module left the memory of the original: further pages of the program, which did not grow, are zeros. */
function isSameMemory(original, lowered, { most, hasBlock }) {
  const [before, after] = [original, lowered.subarray(0, original.length)];
  const [block, own] = hasBlock ? [before, lowered].map((memory, place) => {
    const start = place ? OWN_BLOCK.lowered : OWN_BLOCK.original;
    return Buffer.from(memory.subarray(start, start + OWN_BLOCK.size));
  }) : [Buffer.of(), Buffer.of()];
  if (hasBlock) before.fill(0, OWN_BLOCK.original, OWN_BLOCK.original + OWN_BLOCK.size);
  const rest = lowered.subarray(original.length, Math.max(most, original.length));
  return before.equals(after) && block.equals(own) && rest.equals(Buffer.alloc(rest.length));
}

/** The bytes that the program has at most, in front of the further pages. */
function mostBytes({ changes }) {
  const grown = changes.map((line) => /replaced by an atomic update \(up to (\d+) pages\)/.exec(line)).find((found) => found);
  return grown ? Number(grown[1]) * 65_536 : 0;
}

/**
 * Compares runs of one module; answers how many agree, their ends and the first difference.
 *
 * @param {Uint8Array} bytes
 * @param {number} runs
 * @param {() => number} random
 * @param {{ options?: object, prepare?: (instance: WebAssembly.Instance) => void }} how
 */
function compare(bytes, runs, random, { options, prepare } = {}) {
  const lowered = lower(bytes, options);
  const [before, after] = [bytes, lowered.bytes].map((form) => new WebAssembly.Module(form));
  const functions = WebAssembly.Module.exports(after).filter(({ kind }) => kind === 'function').map(({ name }) => name);
  const layout = { most: mostBytes(lowered), hasBlock: prepare !== undefined };
  const ends = new Set();
  let agreed = 0, difference = null;
  for (let number = 0; number < runs; number++) {
    const exported = functions[number % functions.length];
    // Half of the second arguments are small: they are counts and places.
    const args = [random() | 0, number % 4 < 2 ? random() % 64 : random() | 0];
    const [one, other] = [outcomeOf(before, exported, args, prepare), outcomeOf(after, exported, args)];
    ends.add(one.end);
    if (one.end === other.end && isSameMemory(one.memory, other.memory, layout)) agreed++;
    else difference ??= `${exported}(${args}) ends with ${one.end} before, ${other.end} after`;
  }
  return { agreed, difference, ends, bytes: lowered.bytes };
}

/** Whether the program takes a lowered module, and runs it by a script. */
export async function isTaken(wmlab, bytes, starts = ['run:7:3', 'run:9:2']) {
  const folder = mkdtempSync(`${tmpdir()}/lowered-`);
  try {
    const path = `${folder}/lowered.wasm`;
    writeFileSync(path, bytes);
    const checked = await ask(wmlab, ['check', path, '-'], EMPTY_LOG);
    const driven = await ask(wmlab, ['drive', path, '0*4000,1*4000', ...starts], '');
    return checked.text === ALLOWED && /^outcome .*\nallowed threads=2 /.test(driven.text);
  } finally {
    rmSync(folder, { recursive: true });
  }
}

/** All changes of three of the programs, in their order. */
const CHANGES = {
  initialized: [
    'function 1 (run) instruction 56: atomic.fence dropped', 'table 0: not used, dropped',
    'data segment 0: passive, made active at 1024', 'data segment 1: passive, made active at 1040',
    "function 0 (__wasm_init_memory): start function of the linker, dropped: the memory is filled before each thread's start",
  ],
  started: [
    'warning: module: no atomic access; the compiler may have made them plain ones',
    'function 1 instruction 5: select with a type replaced by select', 'function 2: never called; its body is replaced by unreachable',
    'function 3 (run) instruction 9: call_indirect replaced by a chain of calls (functions: 1)',
    'function 0: start function; each exported function calls it first', 'table 0: dropped: its calls are direct',
    'memory: made shared (maximum pages: 1)',
  ],
  unreached: [
    ...[1, 2, 3, 4, 5, 6, 7].map((index) => `function ${index}: never called; its body is replaced by unreachable`),
    'table 0: not used, dropped', 'data segment 0: passive and not used, dropped',
  ],
};

const NAMES = section(0, [...name('name'), 1, 4, 1, 0, 1, 122]);
/**
 * Small modules with their changes, beside the warning of plain accesses.
 *
 * @type {[string, Record<string, any>, string[]][]}
 */
const SMALL = [
  ['a memory without a maximum', { memory: [0, 2] }, ['memory: made shared (maximum pages: 2)']],
  ['a memory with a maximum', { memory: [1, 2, 5] }, ['memory: made shared (maximum pages: 5)']],
  ['a table that is exported', { tables: [[0x70, 0, 1]], exports: [[1, 116, 1, 0]] },
    ['export t: dropped, since it is a table or a tag', 'table 0: not used, dropped']],
  ['a block with the number of a type', { types: [[0x60, 0, 0], [0x60, 0, 1, 0x7f]], code: [2, 1, 0x41, 5, 0x0b, 0x1a] },
    ['function 0 (a) instruction 0: opcode 02 its type is written without an index']],
  ['a name that is not the export', { custom: NAMES, code: [0x41, 5, 0xc0, 0x1a] }, ['function 0 (z) instruction 1: i32.extend8_s replaced by shifts']],
  ['a passive segment', { data: [[1, 1, 5], [0, 0x41, 0, 0x0b, 1, 5]] }, ['data segment 0: passive and not used, dropped']],
];

/** How the changes of the programs here are reported: one for each kind that they need. */
const REPORTED = [
  /memory: made shared/, /memory\.copy replaced by a loop/, /memory\.fill replaced by a loop/, /memory\.grow made to fail/, /^warning: memory: memory\.grow always fails/,
  /memory\.grow replaced by an atomic update/, /memory\.size replaced by an atomic load/,
  /call_indirect replaced by a chain of calls/, /i64\.extend8_s replaced by shifts/, /i64\.extend16_s replaced by shifts/,
  /atomic\.fence dropped/, /start function; each exported function calls it first/, /start function of the linker, dropped/,
  /data segment 0: passive, made active/, /select with a type replaced by select/,
  /memory\.atomic\.wait32 replaced by a loop of loads/, /memory\.atomic\.wait64 replaced by a loop of loads/,
  /memory\.atomic\.notify replaced by 0/, /^module: each wait comes late/, /thread-local variables begin at 131072, /,
  /f32\.const made a constant of its bits/, /f64\.load made an access of an integer/, /f32\.reinterpret_i32 dropped/,
  /f64\.neg made a bit operation/, /f64\.copysign made bit operations/, /f64\.div made by an integer function/,
  /accesses from page 2 up to page 10 do not trap/, /data segment 0: the initial values of thread-local variables/,
];

function testReported({ note }, names) {
  for (const [what, { code = [], ...parts }, expected] of SMALL) {
    const [warning, ...found] = lower(moduleOf({ functions: [{ code, exported: 'a' }], ...parts })).changes;
    note(/^warning: module: no atomic access/.test(warning) && found.join('; ') === expected.join('; '), `reported: ${what}`, found.join('; '));
  }
  for (const [name, expected] of Object.entries(CHANGES)) {
    const found = lower(readFileSync(`${FOLDER}/${name}.wasm`)).changes.join('\n');
    note(found === expected.join('\n'), `${name}.wasm: its ${expected.length} changes are reported`, found);
  }
  const changes = names.flatMap((name) => lower(readFileSync(`${FOLDER}/${name}`), PROGRAMS[name]?.options).changes);
  const missing = REPORTED.filter((pattern) => !changes.some((line) => pattern.test(line)));
  note(!missing.length, `${REPORTED.length} kinds of changes are reported`, `not reported: ${missing.join(', ')}`);
}

export async function testSemantics({ note, wmlab, runs }) {
  // V8 11.3 compiles waits wrong in its first compiler: a local beside them is overwritten.
  setFlagsFromString('--no-liftoff');
  const random = randomFrom(7);
  const names = readdirSync(FOLDER).filter((name) => name.endsWith('.wasm') && !ON_THREADS.has(name)).sort();
  for (const name of names) {
    const { agreed, difference, ends, bytes } = compare(readFileSync(`${FOLDER}/${name}`), runs, random, PROGRAMS[name]);
    note(
      agreed === runs && ends.size > 1,
      `${name}: ${agreed} of ${runs} runs are the same before and after${difference ? `; ${difference}` : ''}`,
    );
    note(await isTaken(wmlab, bytes, startsOf(bytes)), `${name}: wmlab takes and drives the lowered module`);
  }
  testReported({ note }, names);
  note(names.length > 0, `${names.length} programs, ${names.length * runs} runs`);
}

/** Two starts of the first exported function, which has two arguments. */
function startsOf(bytes) {
  const found = WebAssembly.Module.exports(new WebAssembly.Module(bytes)).find(({ kind }) => kind === 'function');
  return [`${found?.name}:7:3`, `${found?.name}:9:2`];
}
