/**
 * Floats as their bits. A float that is only moved, stored, loaded and constant becomes an integer of its width, exactly; so
 * do sign operations, which are bit operations. Arithmetic is made by integer functions, which soft_floats.c has.
 */

import { readFileSync } from 'node:fs';
import { fileURLToPath } from 'node:url';
import { u32 } from '../shared/binary.mjs';
import { body, call, constantOfType, get } from './assembly.mjs';
import { CODE, nameOf } from './instructions.mjs';
import { KIND, TYPE, bitsOf, readModule } from './module.mjs';

const INTEGER_OF = new Map([[TYPE.f32, TYPE.i32], [TYPE.f64, TYPE.i64]]);

/** The type of a value in a lowered module. */
export const integerType = (type) => INTEGER_OF.get(type) ?? type;

export const isFloatType = (type) => INTEGER_OF.has(type);

const SIGN32 = 1n << 31n, SIGN64 = 1n << 63n;

/** Accesses of floats, and those of integers that take their place. */
const ACCESSES = new Map([[0x2a, 0x28], [0x2b, 0x29], [0x38, 0x36], [0x39, 0x37]]);
const REINTERPRETATIONS = new Set([0xbc, 0xbd, 0xbe, 0xbf]);

/** Operations on the sign alone. */
const SIGN_OPERATIONS = new Map([
  [0x8b, [...constantOfType(TYPE.i32, SIGN32 - 1n), CODE.i32And]], [0x8c, [...constantOfType(TYPE.i32, SIGN32), CODE.i32Xor]],
  [0x99, [...constantOfType(TYPE.i64, SIGN64 - 1n), CODE.i64And]], [0x9a, [...constantOfType(TYPE.i64, SIGN64), CODE.i64Xor]],
]);

/** The functions that take the sign of their second operand. */
const COPIED_SIGNS = new Map([
  [0x98, { type: TYPE.i32, sign: SIGN32, and: CODE.i32And, or: CODE.i32Or }],
  [0xa6, { type: TYPE.i64, sign: SIGN64, and: CODE.i64And, or: CODE.i64Or }],
]);

function copiedSignBody({ type, sign, and, or }) {
  return body(0, get(0), constantOfType(type, sign - 1n), [and], get(1), constantOfType(type, sign), [and, or]);
}

const isFloatConstant = (code) => code === CODE.f32Const || code === CODE.f64Const;

/**
 * What takes the place of an instruction that carries a float: its bytes, and how the report calls it. Null if it is none.
 * `added` has the functions of the lowered module.
 */
export function carried({ code, args, bytes }, added) {
  if (isFloatConstant(code)) return [constantOfType(code === CODE.f32Const ? TYPE.i32 : TYPE.i64, bitsOf(args)), 'made a constant of its bits'];
  if (ACCESSES.has(code)) return [[ACCESSES.get(code), ...bytes.slice(1)], 'made an access of an integer'];
  if (REINTERPRETATIONS.has(code)) return [[], 'dropped: floats are their bits'];
  if (SIGN_OPERATIONS.has(code)) return [SIGN_OPERATIONS.get(code), 'made a bit operation'];
  const copied = COPIED_SIGNS.get(code);
  if (!copied) return null;
  const type = { params: [copied.type, copied.type], results: [copied.type] };
  return [call(added.once(`sign ${copied.type}`, type, () => copiedSignBody(copied))), 'made bit operations'];
}

/** Whether an instruction only carries a float, so that it is lowered exactly without arithmetic. */
export const isCarried = (code) => isFloatConstant(code) || ACCESSES.has(code) || REINTERPRETATIONS.has(code)
  || SIGN_OPERATIONS.has(code) || COPIED_SIGNS.has(code);

const LIBRARY = fileURLToPath(new URL('./soft_floats/soft_floats.wasm', import.meta.url));

/** The functions of integers that compute with floats, each exported under the name of its instruction. */
class Library {
  constructor() {
    this.module = readModule(readFileSync(LIBRARY));
    this.numbers = new Map(this.module.exports.filter(({ kind }) => kind === KIND.function).map(({ name, index }) => [name, index]));
  }

  /** The number that a function of the library has in the lowered module; it is added with those that it calls. */
  add(index, added) {
    const { functionTypes, types, bodies } = this.module;
    return added.once(`soft ${index}`, types[functionTypes[index]], () => this.bytes(bodies[index], added));
  }

  bytes({ locals, instructions }, added) {
    const code = instructions.flatMap(({ code: operation, args, bytes }) => (operation === CODE.call ? call(this.add(args[0], added)) : bytes));
    const entries = [...u32(locals.length), ...locals.flatMap(({ count, type }) => [...u32(count), type])];
    return [...u32(entries.length + code.length), ...entries, ...code];
  }
}

let library = null;

/** The call that takes the place of arithmetic, and how the report calls it. */
export function softFloat({ code }, added) {
  library ??= new Library();
  return [call(library.add(library.numbers.get(nameOf(code)), added)), 'made by an integer function'];
}

