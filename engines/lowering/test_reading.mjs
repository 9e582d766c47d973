/** How modules are read: where each instruction ends, values that are known before a module runs, and the linker's initialization. */

import { readFileSync } from 'node:fs';
import { fileURLToPath } from 'node:url';
import { Reader } from '../shared/binary.mjs';
import { featureOf, nameOf, readExpression } from './instructions.mjs';
import { linkerMemory } from './linker_memory.mjs';
import { constantOf, readModule } from './module.mjs';

const INITIALIZED = fileURLToPath(new URL('./programs/initialized.wasm', import.meta.url));

/** A number of two bytes, the second of which would be an instruction. */
const TWO_BYTES = [0x8b, 0x00];
const ACCESS = [2, ...TWO_BYTES];
const bytes = (count) => Array(count).fill(0x0b);

/** Instructions by the immediates that they have, and by the feature that they need if they have no lowering. */
const INSTRUCTIONS = [
  [[], [0x00, 0x01, 0x05, 0x0f, 0x1a, 0x1b, 0x45, 0x5a, 0x67, 0x8a, 0xa7, 0xac, 0xad, 0xc0, 0xc4]],
  [[], [0x5b, 0x66, 0x8b, 0xa6, 0xa8, 0xab, 0xae, 0xbf, 0xfc00, 0xfc07], 'Floats'],
  [[], [0xd1], 'References'],
  [[], [0x0a, 0x19], 'Reserved'],
  [[], [0xfd0e, 0xfd14, 0xfd23, 0xfd53, 0xfd5e, 0xfdff], 'Simd'],
  [TWO_BYTES, [0x0c, 0x0d, 0x10, 0x20, 0x21, 0x22, 0x23, 0x24, 0x3f, 0x40, 0x41, 0x42, 0xfc0b, 0xfe03]],
  [TWO_BYTES, [0x07, 0x08, 0x09, 0x12, 0x14, 0x15], 'Reserved'],
  [TWO_BYTES, [0x25, 0x26, 0xfc0d, 0xfc0f, 0xfc10, 0xfc11], 'Table'],
  [TWO_BYTES, [0xd0, 0xd2], 'References'],
  [TWO_BYTES, [0xfc09], 'PassiveData'],
  [[...TWO_BYTES, ...TWO_BYTES], [0x11, 0xfc0a]],
  [[...TWO_BYTES, ...TWO_BYTES], [0x13], 'Reserved'],
  [[...TWO_BYTES, ...TWO_BYTES], [0xfc08], 'PassiveData'],
  [[...TWO_BYTES, ...TWO_BYTES], [0xfc0c, 0xfc0e], 'Table'],
  [[2, ...TWO_BYTES, 1, 0], [0x0e]],
  [[1, 0x7f], [0x1c]],
  [bytes(4), [0x43], 'Floats'],
  [bytes(8), [0x44], 'Floats'],
  [ACCESS, [0x28, 0x29, 0x2c, 0x35, 0x36, 0x37, 0x3a, 0x3e, 0xfe10, 0xfe48, 0xfe49]],
  [ACCESS, [0x2a, 0x2b, 0x38, 0x39], 'Floats'],
  [ACCESS, [0xfe4a, 0xfe4e], 'NarrowCmpxchg'],
  [ACCESS, [0xfe00, 0xfe01, 0xfe02]],
  [ACCESS, [0xfd00, 0xfd0b, 0xfd5c, 0xfd5d], 'Simd'],
  [[0x42, 1, ...TWO_BYTES], [0x28, 0x36, 0xfe10]],
  [bytes(16), [0xfd0c, 0xfd0d], 'Simd'],
  [bytes(1), [0xfd15, 0xfd22], 'Simd'],
  [[...ACCESS, 0x0b], [0xfd54, 0xfd5b], 'Simd'],
];

/** A code as bytes: a prefix is followed by a number in LEB128. */
const codeBytes = (code) => (code < 0x100 ? [code] : [code >> 8, (code & 0xff) | 0x80, (code & 0xff) >> 7]);

function testInstructions({ note }) {
  const wrong = [];
  let count = 0;
  for (const [immediates, codes, feature] of INSTRUCTIONS) {
    for (const code of codes) {
      const expression = [...codeBytes(code), ...immediates, 0x0b];
      const reader = new Reader(Uint8Array.from([...expression, 0x01, 0x0b]));
      const read = readExpression(reader);
      const isRead = reader.at === expression.length && read.length === 2 && read[0].code === code;
      if (!isRead || featureOf(code) !== feature) wrong.push(`${code.toString(16)}: ${reader.at} bytes, ${featureOf(code)}`);
      count++;
    }
  }
  note(!wrong.length, `${count} instructions end where they should, and have their features`, wrong.join('; '));
}

/** Initial values, with a global 0 of 7 and a global 1 whose value is not known. */
const VALUES = [
  [[0x41, 5], 5n], [[0x41, 0x7b], -5n], [[0x42, 0x80, 0x7f], -128n], [[0x41, 5, 0x41, 3, 0x6a], 8n], [[0x41, 5, 0x41, 3, 0x6b], 2n],
  [[0x41, 5, 0x41, 3, 0x6c], 15n], [[0x42, 5, 0x42, 3, 0x7c], 8n], [[0x42, 5, 0x42, 3, 0x7d], 2n], [[0x42, 5, 0x42, 3, 0x7e], 15n],
  [[0x23, 0], 7n], [[0x23, 0, 0x41, 3, 0x41, 2, 0x6c, 0x6a], 13n], [[0x41, 0xff, 0xff, 0xff, 0xff, 7, 0x41, 1, 0x6a], -(2n ** 31n)],
  [[0x42, 0xff, 0xff, 0xff, 0xff, 7, 0x42, 1, 0x7c], 2n ** 31n],
  [[0x42, 0xff, 0xff, 0xff, 0xff, 0xff, 0xff, 0xff, 0xff, 0xff, 0, 0x42, 1, 0x7c], -(2n ** 63n)],
  [[0x23, 1], null], [[0x23, 1, 0x41, 1, 0x6a], null], [[0xd0, 0x70], null], [[0xd2, 0], null],
];

function testValues({ note }) {
  const expression = (code) => readExpression(new Reader(Uint8Array.from([...code, 0x0b])));
  const globals = [{ initial: expression([0x41, 7]) }, { initial: null }];
  const wrong = VALUES.filter(([code, value]) => constantOf(expression(code), globals) !== value).map(([code, value]) => `${code}: ${value}`);
  note(!wrong.length && constantOf(null, globals) === null, `${VALUES.length} initial values are computed`, wrong.join('; '));
}

/** Another value of an instruction's first immediate. */
const withOther = (instruction) => {
  const [value, ...others] = instruction.args;
  return { ...instruction, args: [typeof value === 'bigint' ? value + 1n : value + 1, ...others] };
};

/** The linker's function with one instruction changed: where it is still taken, and what is then found. */
function found(module, number, change) {
  const replaced = (list, place, item) => [...list.slice(0, place), item, ...list.slice(place + 1)];
  const { instructions } = module.bodies[module.start];
  const bodies = replaced(module.bodies, module.start, { instructions: replaced(instructions, number, change(instructions[number])) });
  const { flag, segments } = linkerMemory({ ...module, bodies }) ?? {};
  return segments ? [flag, ...segments.flatMap(({ segment, address, size }) => [segment, address, size])].join() : null;
}

/** Of which instructions the first immediate may be another: the addresses, and what a branch, an access or a drop names. */
const FREE = {
  0: '', 1: '', 2: '', 6: '', 9: '1924,0,1025,10,1,1040,72', 13: '1924,0,1024,10,1,1041,72', 17: '', 19: '', 20: '', 23: '', 26: '', 28: '', 33: '',
  36: '', 37: '',
};
const WHOLE = '1924,0,1024,10,1,1040,72';
/** The last segment's number, instead of which there is no other. */
const LAST_SEGMENT = 16;

function testInitialization({ note }) {
  const module = readModule(readFileSync(INITIALIZED));
  const { instructions } = module.bodies[module.start];
  const numbers = [...instructions.keys()];
  const without = numbers.filter((number) => found(module, number, () => ({ code: 0x01, args: [] })) !== null);
  note(!without.length && instructions.length === 39, "each instruction of the linker's initialization is needed", `${without}`);
  const wrong = numbers.filter((number) => {
    if (!instructions[number].args.length || number === LAST_SEGMENT) return false;
    const expected = number in FREE ? FREE[number] || WHOLE : null;
    return found(module, number, withOther) !== expected;
  });
  note(!wrong.length && found(module, 0, (same) => same) === WHOLE, 'with other constants it is another function', `${wrong}`);
}

/** The first and the last name of each list of float instructions, as wabt has them. */
const FLOAT_NAMES = {
  0x2a: 'f32.load', 0x2b: 'f64.load', 0x38: 'f32.store', 0x39: 'f64.store', 0x43: 'f32.const', 0x44: 'f64.const', 0x5b: 'f32.eq',
  0x60: 'f32.ge', 0x61: 'f64.eq', 0x66: 'f64.ge', 0x8b: 'f32.abs', 0x98: 'f32.copysign', 0x99: 'f64.abs', 0xa6: 'f64.copysign',
  0xa8: 'i32.trunc_f32_s', 0xab: 'i32.trunc_f64_u', 0xae: 'i64.trunc_f32_s', 0xb1: 'i64.trunc_f64_u', 0xb2: 'f32.convert_i32_s',
  0xb6: 'f32.demote_f64', 0xb7: 'f64.convert_i32_s', 0xbb: 'f64.promote_f32', 0xbc: 'i32.reinterpret_f32',
  0xbf: 'f64.reinterpret_i64', 0xfc00: 'i32.trunc_sat_f32_s', 0xfc07: 'i64.trunc_sat_f64_u',
};

function testNames({ note }) {
  const wrong = Object.entries(FLOAT_NAMES).filter(([code, name]) => nameOf(Number(code)) !== name);
  note(!wrong.length, 'instructions over floats have their names', `${wrong}`);
}

export function testReading(context) {
  testInstructions(context);
  testNames(context);
  testValues(context);
  testInitialization(context);
}
