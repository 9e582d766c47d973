// @ts-check
/** Instructions as bytes, for the code that is added to a test. */

import { s32, u32 } from '../../engines/shared/binary.mjs';

export const I32 = 0x7f, I64 = 0x7e;
export const get = (/** @type {number} */ local) => [0x20, ...u32(local)];
export const set = (/** @type {number} */ local) => [0x21, ...u32(local)];
export const tee = (/** @type {number} */ local) => [0x22, ...u32(local)];
export const globalGet = (/** @type {number} */ index) => [0x23, ...u32(index)];
export const globalSet = (/** @type {number} */ index) => [0x24, ...u32(index)];
export const call = (/** @type {number} */ index) => [0x10, ...u32(index)];
export const i32 = (/** @type {number} */ value) => [0x41, ...s32(value)];
/**
 * A small constant of 64 bits.
 *
 * @param {number} value
 */
export const i64 = (value) => [0x42, ...s32(value)];
export const branch = (/** @type {number} */ depth) => [0x0c, ...u32(depth)];
export const branchIf = (/** @type {number} */ depth) => [0x0d, ...u32(depth)];
export const ADD = [0x6a], SUB = [0x6b], MUL = [0x6c], AND = [0x71], SHL = [0x74];
export const LT_U = [0x49], GT_U = [0x4b], LT_S = [0x48], GE_S = [0x4e], EQZ = [0x45], DROP = [0x1a];
export const BLOCK = [0x02, 0x40], LOOP = [0x03, 0x40], IF = [0x04, 0x40], END = [0x0b], UNREACHABLE = [0x00];
export const WIDE_SHIFT = [0x88], SHIFT = [0x76];
export const atomicLoad = (/** @type {number} */ offset) => [0xfe, 0x10, 2, ...u32(offset)];
export const atomicStore = (/** @type {number} */ offset) => [0xfe, 0x17, 2, ...u32(offset)];
export const wait32 = [0xfe, 0x01, 2, 0];
export const fill = [0xfc, 0x0b, 0];

/**
 * Groups of locals of one type, as a body has them.
 *
 * @param {number[][]} groups each a count and a type
 */
export const localsOf = (groups) => {
  const used = groups.filter(([count]) => count);
  return [...u32(used.length), ...used.flatMap(([count, type]) => [...u32(count), type])];
};

/**
 * A body with its size.
 *
 * @param {number[][]} groups
 * @param {number[]} code
 */
export function bodyOf(groups, code) {
  const bytes = [...localsOf(groups), ...code, ...END];
  return [...u32(bytes.length), ...bytes];
}
