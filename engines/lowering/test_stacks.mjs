/** Stacks of the threads' own. */

import { name, section, vector } from '../shared/binary.mjs';
import { lower } from './lower.mjs';
import { moduleOf } from './test_modules.mjs';

const I32 = 0x7f, PAGE = 65_536;
const POINTER = [I32, 1, 0x41, 0x80, 0x20, 0x0b];
const SIZE = [0x3f, 0];
/** Moves the stack pointer (4096 at first) down by 16, stores the argument there and answers the address. */
const PUSH = [0x23, 0, 0x41, 16, 0x6b, 0x24, 0, 0x23, 0, 0x20, 0, 0x36, 2, 0, 0x23, 0];
const types = [[0x60, 1, I32, 1, I32], [0x60, 0, 1, I32]];
const functions = [{ code: PUSH, exported: 'push' }, { code: SIZE, type: 1, exported: 'size' }];
const STACKED = moduleOf({ types, functions, globals: [POINTER], exports: [[6, ...Buffer.from('memory'), 2, 0]] });

/** Stores the argument below the stack pointer, which stays where it is, and answers the address: a function that calls nothing. */
const LEAF = moduleOf({
  types, functions: [{ code: [0x23, 0, 0x41, 16, 0x6b, 0x20, 0, 0x36, 2, 0, 0x23, 0, 0x41, 16, 0x6b], exported: 'leaf' }], globals: [POINTER],
});

/** The same with the pointer after globals that cannot be one: a constant, an i64, 0, and no multiple of 16. */
const OTHERS = [[I32, 0, 0x41, 16, 0x0b], [0x7e, 1, 0x42, 16, 0x0b], [I32, 1, 0x41, 0, 0x0b], [I32, 1, 0x41, 8, 0x0b]];
const PUSH_HIDDEN = [0x23, 4, 0x41, 16, 0x6b, 0x24, 4, 0x23, 4, 0x20, 0, 0x36, 2, 0, 0x23, 4];
const HIDDEN = moduleOf({ types, functions: [{ code: PUSH_HIDDEN, exported: 'push' }], globals: [...OTHERS, POINTER] });

/** A second pointer by its name and by its export. */
const PUSH_SECOND = PUSH_HIDDEN.map((byte) => (byte === 4 ? 1 : byte));
const globalNames = (global, text) => {
  const names = vector([[global, ...name(text)]]);
  return section(0, [...name('name'), 7, names.length, ...names]);
};
/** @type {[string, object][]} */
const NAMED = [
  ['by its name', { custom: globalNames(1, '__stack_pointer') }],
  ['by its export', { exports: [[...name('__stack_pointer'), 3, 1]] }],
];

/** @returns {any} */
const instance = ({ bytes }) => new WebAssembly.Instance(new WebAssembly.Module(bytes)).exports;

function refusal(bytes, options) {
  try {
    lower(bytes, options);
    return 'nothing';
  } catch (error) {
    return error.message;
  }
}

export function testStacks({ note }) {
  const shared = lower(STACKED);
  note(
    shared.changes.some((line) => /^warning: function 0 \(push\): the stack is used; all threads start with one;/.test(line)),
    'a stack that all threads share is warned of',
  );
  note(lower(LEAF).changes.some((line) => /^warning: function 0 \(leaf\): the stack is used/.test(line)), 'and one below a pointer that stays');
  note(instance(lower(LEAF, { stacks: 'auto' })).leaf(1) === PAGE + 4_096 - 16, 'with `auto` a function that only reads the pointer has a stack');
  const copies = instance(lower(STACKED, { stacks: 3, stackBytes: 1_024 }));
  const tops = [0, 1, 2].map((copy) => copies[`push.${copy}`](7));
  note(tops.join() === [1_024, 2_048, 3_072].map((top) => PAGE + top - 16).join(), `three copies have their own stacks: ${tops}`);
  note(copies.push === undefined && copies['size.2']() === 1, 'the copies replace the export, and memory.size stays 1');
  note(new Uint32Array(copies.memory.buffer)[(PAGE + 1_024 - 16) / 4] === 7, 'a local is stored in the stack of its own');
  const each = instance(lower(STACKED, { stacks: 'each' }));
  note(each.push(1) === PAGE + 4_096 - 16 && each.size() === 1, 'with `each` the export keeps its name');
  const before = instance({ bytes: STACKED });
  note(before.push(1) === 4_096 - 16, 'before the lowering the stack is where the linker put it');
  const found = instance(lower(HIDDEN, { stacks: 'each' }));
  note(found.push(1) === PAGE + 4_096 - 16, 'without names the pointer is the first mutable i32 that is a positive multiple of 16');
  for (const [how, parts] of NAMED) {
    const module = moduleOf({ types, functions: [{ code: PUSH_SECOND, exported: 'push' }], globals: [POINTER, POINTER], ...parts });
    const named = instance(lower(module, { stacks: 'each' }));
    note(named.push(1) === PAGE + 4_096 - 16, `the stack pointer is found ${how}`);
  }
  const unnamed = moduleOf({ functions: [{ code: [], exported: 'a' }], globals: [POINTER], custom: globalNames(0, 'other') });
  note(/no stack pointer/.test(refusal(unnamed, { stacks: 2 })), 'a module whose globals have other names has no stack pointer');
  const without = moduleOf({ functions: [{ code: [], exported: 'a' }] });
  note(/no stack pointer/.test(refusal(without, { stacks: 2 })), 'stacks of a module without a stack pointer are refused');
  note(
    /17 pages; expected at most 16/.test(refusal(STACKED, { stacks: 16, stackBytes: PAGE })),
    'stacks that do not fit are refused',
  );
  const whole = refusal(STACKED, { stacks: 15, stackBytes: PAGE });
  note(whole === 'nothing', 'stacks up to the last of 16 pages are taken', whole);
  const clash = moduleOf({ types, functions: [functions[0], { ...functions[0], exported: 'push.0' }], globals: [POINTER] });
  note(refusal(clash, { stacks: 1 }) === 'nothing', 'names that end with a number are kept apart');
}
