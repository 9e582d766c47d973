/**
 * The accesses to memory. Each has its opcode (those with the prefix FE as FE00 + code), a name, its kind (`load`, `store`,
 * `update` or `exchange`, a compare-exchange), the type of its values, its width in bytes, whether it is atomic, whether a
 * narrow load extends the sign, and the operator of an update.
 */

import { OP } from './binary.mjs';

/** @type {Map<number, wmlab.Access>} */
const TABLE = new Map();

/**
 * @param {number} code
 * @param {wmlab.Access['kind']} kind
 * @param {wmlab.ValueType} type
 * @param {number} width
 * @param {Partial<wmlab.Access>} [more]
 */
function add(code, kind, type, width, more = {}) {
  const name = `${kind}_${code.toString(16)}`;
  TABLE.set(code, { code, name, kind, type, width, atomic: code > 0xff, signed: false, operator: '', ...more });
}

const SIGNED_LOADS = new Set([0x2c, 0x2e, 0x30, 0x32, 0x34]);
/** @type {[number, wmlab.ValueType, number][]} */
const PLAIN_LOADS = [
  [0x28, 'i32', 4], [0x29, 'i64', 8], [0x2c, 'i32', 1], [0x2d, 'i32', 1], [0x2e, 'i32', 2], [0x2f, 'i32', 2],
  [0x30, 'i64', 1], [0x31, 'i64', 1], [0x32, 'i64', 2], [0x33, 'i64', 2], [0x34, 'i64', 4], [0x35, 'i64', 4],
];
/** @type {[number, wmlab.ValueType, number][]} */
const PLAIN_STORES = [
  [0x36, 'i32', 4], [0x37, 'i64', 8], [0x3a, 'i32', 1], [0x3b, 'i32', 2], [0x3c, 'i64', 1], [0x3d, 'i64', 2],
  [0x3e, 'i64', 4],
];
for (const [code, type, width] of PLAIN_LOADS) add(code, 'load', type, width, { signed: SIGNED_LOADS.has(code) });
for (const [code, type, width] of PLAIN_STORES) add(code, 'store', type, width);

/**
 * The seven shapes in which each atomic access comes, in the order of their opcodes.
 *
 * @type {[wmlab.ValueType, number][]}
 */
const SHAPES = [['i32', 4], ['i64', 8], ['i32', 1], ['i32', 2], ['i64', 1], ['i64', 2], ['i64', 4]];
/** @type {(base: number, kind: wmlab.Access['kind'], more?: Partial<wmlab.Access>) => void} */
const addAtomic = (base, kind, more) => SHAPES.forEach(([type, width], k) => add(base + k, kind, type, width, more));
addAtomic(0xfe10, 'load');
addAtomic(0xfe17, 'store');
['add', 'sub', 'and', 'or', 'xor', 'xchg'].forEach((operator, k) => addAtomic(0xfe1e + 7 * k, 'update', { operator }));
addAtomic(0xfe48, 'exchange');

/** All accesses. */
export const ACCESSES = [...TABLE.values()];

/** The access of an opcode, if it is one. */
export const accessOf = (code) => TABLE.get(code);

/** The plain access that a wrong engine makes of an atomic load or store; an update stays as it is. */
export function plainOf(access) {
  if (!access.atomic || (access.kind !== 'load' && access.kind !== 'store')) return access;
  const same = (other) => !other.atomic && !other.signed && other.kind === access.kind
    && other.type === access.type && other.width === access.width;
  return ACCESSES.find(same);
}

/** The opcode as bytes. */
export const opcode = (access) => (access.atomic ? [OP.atomic, access.code & 0xff] : [access.code]);

const OPERANDS = { load: 0, store: 1, update: 1, exchange: 2 };

/** The types of the operands after the address. */
export const operandsOf = (access) => Array(OPERANDS[access.kind]).fill(access.type);

/** The types of the results. */
export const resultsOf = (access) => (access.kind === 'store' ? [] : [access.type]);

export const reads = (access) => access.kind !== 'store';

/** The lowest `width` bytes of an integer, as an unsigned one. */
export const cut = (value, width) => BigInt.asUintN(8 * width, BigInt(value));

/** What an update writes. */
function updated({ operator, width }, read, operand) {
  const whole = {
    add: read + operand, sub: read - operand, and: read & operand, or: read | operand, xor: read ^ operand, xchg: operand,
  };
  return cut(whole[operator], width);
}

/** What a load leaves on the stack, in the form that JavaScript hands to WebAssembly. */
export function loaded(access, read) {
  const value = access.signed ? BigInt.asIntN(8 * access.width, read) : read;
  return access.type === 'i64' ? BigInt.asIntN(64, value) : Number(BigInt.asIntN(32, value));
}

/**
 * An access with its operands, as a hook gets them: the address, the operands and the offset. The effective address is
 * not wrapped. A narrow access takes its operands cut to the width.
 */
export function operation(access, args) {
  const address = (args[0] >>> 0) + (args.at(-1) >>> 0);
  const [operand, replacement] = args.slice(1, -1).map((value) => cut(value, access.width));
  return { access, address, operand, replacement };
}

/** The trap of an access, or null. If it is both unaligned and out of bounds, V8 reports the latter, and the profile the former. */
export function trapOf({ access, address }, size) {
  if (access.atomic && address % access.width) return 'unaligned';
  return address + access.width > size ? 'out-of-bounds' : null;
}

/** The event that the access makes if it reads this value, without its writers. */
export function eventOf({ access, address, operand, replacement }, read) {
  const { kind, width } = access;
  const order = access.atomic ? 'sc' : 'un';
  if (kind === 'load') return ['r', order, address, width, read];
  if (kind === 'store') return ['w', order, address, width, operand];
  if (kind === 'update') return ['x', order, address, width, read, updated(access, read, operand)];
  // A compare-exchange that fails is a read, with the order of the access.
  return read === operand ? ['x', order, address, width, read, replacement] : ['r', order, address, width, read];
}
