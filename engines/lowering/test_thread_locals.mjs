/** Thread-local variables: a block of each thread's own, or a warning; on every path by which a compiler makes them. */

import { readFileSync } from 'node:fs';
import { fileURLToPath } from 'node:url';
import { name, section, vector } from '../shared/binary.mjs';
import { lower } from './lower.mjs';
import { moduleOf } from './test_modules.mjs';

const I32 = 0x7f, PAGE = 65_536;
const LINKED = readFileSync(fileURLToPath(new URL('./programs/thread-locals.wasm', import.meta.url)));
const BASE_NAMED = section(0, [...name('name'), 7, 13, ...vector([[0, ...name('__tls_base')]])]);

/** Adds the argument to the first thread-local variable, and answers its new value; the base is global 0. */
const ADD = [0x23, 0, 0x23, 0, 0x28, 2, 0, 0x20, 0, 0x6a, 0x36, 2, 0, 0x23, 0, 0x28, 2, 0];
const types = [[0x60, 1, I32, 1, I32], [0x60, 1, I32, 0]];
const IMAGE = [1, 4, 7, 0, 0, 0];
const UNSET = [I32, 1, 0x41, 0, 0x0b];
const add = (exported) => ({ code: ADD, exported });
/** What the linker makes: the base is the argument, and a segment is copied there. */
const INITIALIZER = { type: 1, code: [0x20, 0, 0x24, 0, 0x20, 0, 0x41, 0, 0x41, 4, 0xfc, 8, 0, 0], exported: '__wasm_init_tls' };

/**
 * How a module comes to have thread-local variables: each with its parts. The variable is 7 at first.
 *
 * @type {[string, Record<string, any>][]}
 */
const PATHS = [
  ['with names', { globals: [UNSET], data: [IMAGE], custom: BASE_NAMED }],
  ['without names', { globals: [UNSET], data: [IMAGE] }],
  ['by an export', { globals: [UNSET], data: [IMAGE], exports: [[...name('__tls_base'), 3, 0]] }],
  ['with the function of the linker', { globals: [UNSET], data: [IMAGE], more: [INITIALIZER] }],
  ['linked without --shared-memory, without names', { globals: [[I32, 0, 0x41, 16, 0x0b]], data: [[0, 0x41, 16, 0x0b, 4, 7, 0, 0, 0]] }],
  ['linked without --shared-memory', {
    globals: [[I32, 0, 0x41, 16, 0x0b]], data: [[0, 0x41, 16, 0x0b, 4, 7, 0, 0, 0]], custom: BASE_NAMED,
  }],
];

const modulePath = ({ more = [], ...parts }) => moduleOf({ types, functions: [add('one'), add('two'), ...more], ...parts });
/** @returns {any} */
const instance = ({ bytes }) => new WebAssembly.Instance(new WebAssembly.Module(bytes)).exports;
const WARNING = /^warning: function 0 .*thread-local variables; all threads share one block/;

function refusal(bytes, options) {
  try {
    lower(bytes, options);
    return 'nothing';
  } catch (error) {
    return error.message;
  }
}

function testPaths({ note }) {
  for (const [how, parts] of PATHS) {
    const bytes = modulePath(parts);
    const shared = lower(bytes);
    note(shared.changes.some((line) => WARNING.test(line)), `${how}: shared thread-local variables are warned of`);
    const common = instance(shared);
    note(common.one(1) === 8 && common.two(1) === 9, `${how}: without --tls there is one block, with its initial value`);
    const own = lower(bytes, { tls: 'each' });
    const { one, two } = instance(own);
    note(one(1) === 8 && two(1) === 8 && two(1) === 9, `${how}: with --tls each start has a block`);
    note(!own.changes.some((line) => /^warning:.*thread-local/.test(line)), `${how}: then there is no warning`);
  }
}

export function testThreadLocals({ note }) {
  testPaths({ note });
  const copies = lower(modulePath(PATHS[0][1]), { tls: 2 });
  const exports = instance(copies);
  note(exports.one === undefined && exports['one.0'](1) === 8 && exports['one.1'](1) === 8, '--tls 2 makes two of each export');
  note(exports['two.0'](1) === 9, 'copies with one number share a block');
  const both = lower(LINKED, { tls: 2, stacks: 'auto' });
  note(both.changes.some((line) => line === `export run.1: its thread-local variables begin at ${2 * PAGE + 128}, 68 bytes`), 'a block is reported');
  note(instance(lower(LINKED, { tls: 'auto' })).run(1, 0) !== 0, '--tls auto gives blocks to a module with thread-local variables');
  const without = moduleOf({ types, functions: [{ code: [0x41, 1], exported: 'a' }] });
  note(/no thread-local variables/.test(refusal(without, { tls: 2 })), '--tls for a module without them is refused');
  note(refusal(without, { tls: 'auto', stacks: 'auto' }) === 'nothing', '--tls auto is not');
  const lost = moduleOf({ types, functions: [add('a')], globals: [UNSET], custom: BASE_NAMED });
  note(/initial values .* not found/.test(refusal(lost, { tls: 2 })), 'variables whose initial values are not found are refused');
  note(lower(lost).changes.some((line) => WARNING.test(line)), 'and are warned of without --tls');
  note(/--stacks each and --tls 2/.test(refusal(LINKED, { stacks: 'each', tls: 2 })), 'stacks and blocks have the same number');
}
