/**
 * The instructions of WebAssembly, of every proposal that compilers use, as far as the lowering needs them: where each one
 * ends, its immediates, and the name of the feature that `wmlab` does not take.
 *
 * An instruction's code is its opcode; those with a prefix are `prefix * 256 + code`, such as 0xfe03 for `atomic.fence`.
 */

import { UserError } from '../shared/errors.mjs';

/** The codes that the lowering treats on their own. */
export const CODE = {
  unreachable: 0x00, block: 0x02, loop: 0x03, if: 0x04, else: 0x05, end: 0x0b, branch: 0x0c, branchTable: 0x0e,
  branchIf: 0x0d, return: 0x0f, call: 0x10, callIndirect: 0x11, drop: 0x1a, select: 0x1b, typedSelect: 0x1c, localGet: 0x20,
  localSet: 0x21, globalGet: 0x23, globalSet: 0x24, i32Load8U: 0x2d, i32Store8: 0x3a, memorySize: 0x3f,
  memoryGrow: 0x40, i32Const: 0x41, i64Const: 0x42, f32Const: 0x43, f64Const: 0x44, i32Eqz: 0x45, i32Eq: 0x46, i32Ne: 0x47, i32LtU: 0x49, i32GtU: 0x4b,
  i32LeU: 0x4d, i64Ne: 0x52, i64LtS: 0x53, i64GtU: 0x56, i32Add: 0x6a, i32Sub: 0x6b, i32Mul: 0x6c, i32And: 0x71,
  i32Or: 0x72, i32Xor: 0x73, i32Shl: 0x74, i32ShrS: 0x75, i64Add: 0x7c, i64Sub: 0x7d, i64Mul: 0x7e, i64And: 0x83, i64Or: 0x84,
  i64Xor: 0x85, i64Shl: 0x86, i64ShrS: 0x87,
  i64ExtendI32U: 0xad, refNull: 0xd0, refFunc: 0xd2, memoryInit: 0xfc08, dataDrop: 0xfc09, memoryCopy: 0xfc0a,
  memoryFill: 0xfc0b, notify: 0xfe00, wait32: 0xfe01, wait64: 0xfe02, fence: 0xfe03, i32AtomicLoad: 0xfe10,
  i64AtomicLoad: 0xfe11, i32AtomicStore: 0xfe17, i32AtomicCmpxchg: 0xfe48,
};

const NAMES = new Map([
  [CODE.callIndirect, 'call_indirect'], [CODE.typedSelect, 'select with a type'], [CODE.memoryGrow, 'memory.grow'],
  [CODE.memorySize, 'memory.size'], [0x25, 'table.get'], [0x26, 'table.set'],
  [0xc0, 'i32.extend8_s'], [0xc1, 'i32.extend16_s'], [0xc2, 'i64.extend8_s'], [0xc3, 'i64.extend16_s'],
  [0xc4, 'i64.extend32_s'], [CODE.refNull, 'ref.null'], [0xd1, 'ref.is_null'], [CODE.refFunc, 'ref.func'],
  [CODE.memoryInit, 'memory.init'], [CODE.dataDrop, 'data.drop'], [CODE.memoryCopy, 'memory.copy'],
  [CODE.memoryFill, 'memory.fill'], [0xfc0c, 'table.init'], [0xfc0d, 'elem.drop'], [0xfc0e, 'table.copy'],
  [0xfc0f, 'table.grow'], [0xfc10, 'table.size'], [0xfc11, 'table.fill'],
  [CODE.notify, 'memory.atomic.notify'], [CODE.wait32, 'memory.atomic.wait32'], [CODE.wait64, 'memory.atomic.wait64'],
  [CODE.fence, 'atomic.fence'], [0xfe4a, 'i32.atomic.rmw8.cmpxchg_u'], [0xfe4b, 'i32.atomic.rmw16.cmpxchg_u'],
  [0xfe4c, 'i64.atomic.rmw8.cmpxchg_u'], [0xfe4d, 'i64.atomic.rmw16.cmpxchg_u'],
  [0xfe4e, 'i64.atomic.rmw32.cmpxchg_u'],
]);

/** Names of instructions over floats, each list from the code on that is before it. */
const FLOAT_COMPARISONS = ['eq', 'ne', 'lt', 'gt', 'le', 'ge'];
const FLOAT_OPERATORS = [
  'abs', 'neg', 'ceil', 'floor', 'trunc', 'nearest', 'sqrt', 'add', 'sub', 'mul', 'div', 'min', 'max', 'copysign',
];
const TRUNCATIONS = ['f32_s', 'f32_u', 'f64_s', 'f64_u'];
for (const [first, names] of /** @type {[number, string[]][]} */ ([
  [0x2a, ['f32.load', 'f64.load']], [0x38, ['f32.store', 'f64.store']], [0x43, ['f32.const', 'f64.const']],
  [0x5b, FLOAT_COMPARISONS.map((name) => `f32.${name}`)], [0x61, FLOAT_COMPARISONS.map((name) => `f64.${name}`)],
  [0x8b, FLOAT_OPERATORS.map((name) => `f32.${name}`)], [0x99, FLOAT_OPERATORS.map((name) => `f64.${name}`)],
  [0xa8, TRUNCATIONS.map((name) => `i32.trunc_${name}`)], [0xae, TRUNCATIONS.map((name) => `i64.trunc_${name}`)],
  [0xb2, ['f32.convert_i32_s', 'f32.convert_i32_u', 'f32.convert_i64_s', 'f32.convert_i64_u', 'f32.demote_f64']],
  [0xb7, ['f64.convert_i32_s', 'f64.convert_i32_u', 'f64.convert_i64_s', 'f64.convert_i64_u', 'f64.promote_f32']],
  [0xbc, ['i32.reinterpret_f32', 'i64.reinterpret_f64', 'f32.reinterpret_i32', 'f64.reinterpret_i64']],
  [0xfc00, TRUNCATIONS.map((name) => `i32.trunc_sat_${name}`)],
  [0xfc04, TRUNCATIONS.map((name) => `i64.trunc_sat_${name}`)],
])) names.forEach((name, place) => NAMES.set(first + place, name));

/** The name of an instruction, or its opcode in hexadecimal digits. */
export const nameOf = (code) => NAMES.get(code) ?? `opcode ${code.toString(16).padStart(2, '0')}`;

const between = (code, first, last) => code >= first && code <= last;

export const isFloat = (code) => between(code, 0x2a, 0x2b) || between(code, 0x38, 0x39) || between(code, 0x43, 0x44)
  || between(code, 0x5b, 0x66) || between(code, 0x8b, 0xa6) || between(code, 0xa8, 0xab) || between(code, 0xae, 0xbf)
  || between(code, 0xfc00, 0xfc07);

/** The features that have no lowering, each with its codes. The names are those of `wmlab`'s refusals. */
const FEATURES = /** @type {[string, (code: number) => boolean][]} */ ([
  ['Floats', isFloat],
  ['NarrowCmpxchg', (code) => between(code, 0xfe4a, 0xfe4e)],
  ['PassiveData', (code) => between(code, CODE.memoryInit, CODE.dataDrop)],
  ['Table', (code) => between(code, 0x25, 0x26) || between(code, 0xfc0c, 0xfc11)],
  ['References', (code) => between(code, 0xd0, 0xd6)],
  ['Simd', (code) => code >= 0xfd00 && code < 0xfe00],
  ['Reserved', (code) => between(code, 0x06, 0x0a) || between(code, 0x12, 0x19) || code === 0x1f],
]);

/** The feature for which an instruction is refused, or undefined if it is taken or lowered. */
export const featureOf = (code) => FEATURES.find(([, has]) => has(code))?.[0];

/** A signed number in LEB128, as a BigInt. */
function signed(reader) {
  let value = 0n, shift = 0n, byte;
  do {
    byte = reader.byte();
    value |= BigInt(byte & 0x7f) << shift;
    shift += 7n;
  } while (byte & 0x80);
  return BigInt.asIntN(Number(shift), value);
}

/** The immediates of an access; bit 6 of the alignment announces a memory index. */
function memoryArgument(reader) {
  const flags = reader.u32();
  const memory = flags & 0x40 ? reader.u32() : 0;
  return [flags & 0x3f, reader.u32(), memory];
}

function labels(reader) {
  return Array.from({ length: reader.u32() + 1 }, () => reader.u32());
}

/** The immediates of the vector instructions (prefix FD). */
function simdImmediates(reader, code) {
  if (code <= 0xfd0b || between(code, 0xfd5c, 0xfd5d)) return memoryArgument(reader);
  if (code <= 0xfd0d) return reader.take(16);
  if (between(code, 0xfd15, 0xfd22)) return reader.take(1);
  return between(code, 0xfd54, 0xfd5b) ? [...memoryArgument(reader), reader.byte()] : [];
}

const ONE_INDEX = new Set([
  0x07, 0x08, 0x09, CODE.branch, 0x0d, CODE.call, 0x12, 0x14, 0x15, 0x18, CODE.localGet, CODE.localSet, 0x22,
  CODE.globalGet, CODE.globalSet, 0x25, 0x26, CODE.memorySize, CODE.memoryGrow, CODE.refFunc, CODE.dataDrop,
  CODE.memoryFill, 0xfc0d, 0xfc0f, 0xfc10, 0xfc11, CODE.fence,
]);
const TWO_INDICES = new Set([CODE.callIndirect, 0x13, CODE.memoryInit, CODE.memoryCopy, 0xfc0c, 0xfc0e]);
const ONE_NUMBER = new Set([CODE.block, CODE.loop, CODE.if, 0x06, CODE.i32Const, CODE.i64Const, CODE.refNull]);

function immediates(reader, code) {
  if (ONE_INDEX.has(code)) return [reader.u32()];
  if (TWO_INDICES.has(code)) return [reader.u32(), reader.u32()];
  if (ONE_NUMBER.has(code)) return [signed(reader)];
  if (code === CODE.branchTable) return labels(reader);
  if (code === CODE.typedSelect) return reader.take(reader.u32());
  if (code === CODE.f32Const) return reader.take(4);
  if (code === CODE.f64Const) return reader.take(8);
  if (between(code, 0x28, 0x3e) || code >= 0xfe00) return memoryArgument(reader);
  if (between(code, 0xfd00, 0xfdff)) return simdImmediates(reader, code);
  if (code > 0xd6 && code < 0xfc00) throw new UserError(`${nameOf(code)} at byte ${reader.at}: it is not known`);
  return [];
}

/** Whether an instruction begins a block that an `end` closes. */
export const beginsBlock = (code) => between(code, CODE.block, CODE.if) || code === 0x06;

const PREFIXES = new Set([0xfc, 0xfd, 0xfe]);

/** The next instruction: its code, its immediates and its bytes. */
function readInstruction(reader) {
  const start = reader.at;
  const first = reader.byte();
  const code = PREFIXES.has(first) ? first * 256 + reader.u32() : first;
  const args = immediates(reader, code);
  return { code, args, bytes: [...reader.bytes.subarray(start, reader.at)] };
}

/** The instructions up to the `end` that closes the expression; that `end` is the last one. */
export function readExpression(reader) {
  const instructions = [];
  for (let depth = 1; depth > 0;) {
    const instruction = readInstruction(reader);
    instructions.push(instruction);
    if (beginsBlock(instruction.code)) depth++;
    // `delegate` closes its `try` without an `end`.
    if (instruction.code === CODE.end || instruction.code === 0x18) depth--;
  }
  return instructions;
}
