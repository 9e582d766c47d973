/** Instructions as bytes, and the functions that a lowered module has in addition to its own. */

import { s32, u32 } from '../shared/binary.mjs';
import { CODE } from './instructions.mjs';
import { TYPE } from './module.mjs';

const EMPTY_BLOCK = 0x40;
const PAGE_BITS = 16;

export const get = (local) => [CODE.localGet, ...u32(local)];
export const set = (local) => [CODE.localSet, ...u32(local)];
export const call = (index) => [CODE.call, ...u32(index)];
export const constant = (value) => [CODE.i32Const, ...s32(value)];
export const longConstant = (value) => [CODE.i64Const, ...s32(value)];
export const branch = (label) => [CODE.branch, ...u32(label)];
export const branchIf = (label) => [CODE.branchIf, ...u32(label)];
export const block = (code, ...contents) => [code, EMPTY_BLOCK, ...contents.flat(), CODE.end];
export const condition = (...contents) => block(CODE.if, ...contents);

/** The bytes of an instruction whose code has a prefix, without its immediates. */
export const prefixed = (code) => [code >> 8, ...u32(code & 0xff)];

/** A function's locals, all i32, and its code, with their size. */
export function body(localCount, ...code) {
  const locals = localCount ? [1, ...u32(localCount), TYPE.i32] : [0];
  const bytes = [...locals, ...code.flat(), CODE.end];
  return [...u32(bytes.length), ...bytes];
}

/** The constant of a number that is an i32 or an i64, whose LEB128 may take ten bytes. */
export function constantOfType(type, value) {
  if (type === TYPE.i32) return constant(Number(BigInt.asIntN(32, value)));
  const bytes = [];
  for (let left = BigInt.asIntN(64, value); ;) {
    const low = Number(left & 0x7fn);
    left >>= 7n;
    const last = (left === 0n && !(low & 0x40)) || (left === -1n && low & 0x40);
    bytes.push(last ? low : low | 0x80);
    if (last) return [CODE.i64Const, ...bytes];
  }
}

/** A sign extension from some bits: a shift to the left and back. */
export function signExtension(code) {
  const [bits, narrow] = { 0xc0: [32, 8], 0xc1: [32, 16], 0xc2: [64, 8], 0xc3: [64, 16], 0xc4: [64, 32] }[code];
  const distance = bits === 32 ? constant(bits - narrow) : longConstant(bits - narrow);
  const [left, right] = bits === 32 ? [CODE.i32Shl, CODE.i32ShrS] : [CODE.i64Shl, CODE.i64ShrS];
  return [...distance, left, ...distance, right];
}

const long = (local) => [...get(local), CODE.i64ExtendI32U];

/** The address in a local with an offset, as an i64. */
export const effectiveAddress = (local, offset) => [...long(local), ...constantOfType(TYPE.i64, BigInt(offset)), CODE.i64Add];

/** Whether the range from the address in one local, as long as another local states, ends past the memory: an i32. */
const isPastMemory = (address, count) => [
  ...long(address), ...long(count), CODE.i64Add,
  CODE.memorySize, 0, CODE.i64ExtendI32U, ...longConstant(PAGE_BITS), CODE.i64Shl, CODE.i64GtU,
];

/** A load that is out of bounds in every memory: it traps as the instruction would. */
export const trapOutOfBounds = [...constant(-1), CODE.i32Load8U, 0, ...u32(0xffff_ffff), CODE.drop];

const sum = (one, other) => [...get(one), ...get(other), CODE.i32Add];
const loadByte = [CODE.i32Load8U, 0, 0];
const storeByte = [CODE.i32Store8, 0, 0];
const step = (local, code) => [...get(local), ...constant(1), code, ...set(local)];

/** `memory.copy` with operands TO, FROM and COUNT: bytes one after the other, from the end if FROM is below TO. */
export function copyBody() {
  const [to, from, count, done] = [0, 1, 2, 3];
  const move = (place) => [...sum(to, place), ...sum(from, place), ...loadByte, ...storeByte];
  return body(1,
    [...isPastMemory(to, count), ...isPastMemory(from, count), CODE.i32Or], condition(trapOutOfBounds),
    [...get(to), ...get(from), CODE.i32LeU, CODE.if, EMPTY_BLOCK],
    block(CODE.loop, get(done), get(count), [CODE.i32LtU],
      condition(move(done), step(done, CODE.i32Add), branch(1))),
    [CODE.else],
    block(CODE.loop, get(count), condition(step(count, CODE.i32Sub), move(count), branch(1))),
    [CODE.end]);
}

/** `memory.fill` with operands TO, VALUE and COUNT: bytes one after the other. */
export function fillBody() {
  const [to, value, count, done] = [0, 1, 2, 3];
  return body(1,
    isPastMemory(to, count), condition(trapOutOfBounds),
    block(CODE.loop, get(done), get(count), [CODE.i32LtU],
      condition(sum(to, done), get(value), storeByte, step(done, CODE.i32Add), branch(1))));
}

/**
 * `call_indirect` for one type: the operands, and then the place in the table. `targets` has the place and the function of
 * each element of that type. Any other place traps as `unreachable`.
 */
export function dispatchBody(parameterCount, targets) {
  const operands = Array.from({ length: parameterCount }, (_, index) => get(index));
  const cases = targets.map(([place, target]) => [
    ...get(parameterCount), ...constant(place), CODE.i32Eq, CODE.if, EMPTY_BLOCK,
    ...operands.flat(), ...call(target), CODE.return, CODE.end,
  ]);
  return body(0, ...cases, [CODE.unreachable]);
}

/** An exported function: it sets globals to addresses, calls the start function, if there is one, and then a function. */
export function entryBody({ parameterCount, target, start = null, places }) {
  const operands = Array.from({ length: parameterCount }, (_, index) => get(index));
  const moved = places.map(({ global, address }) => [...constant(address), CODE.globalSet, ...u32(global)]);
  return body(0, ...moved, start === null ? [] : call(start), ...operands, call(target));
}

export const UNREACHABLE_BODY = body(0, [CODE.unreachable]);
