/**
 * `memory.atomic.wait32`, `wait64` and `notify` without threads that sleep: the runs in which each wait came late. A wait is
 * a loop of atomic loads until the value differs; a notification finds nobody who waits.
 */

import { u32 } from '../shared/binary.mjs';
import {
  block, body, branch, branchIf, condition, constant, constantOfType, effectiveAddress, get, longConstant, prefixed, trapOutOfBounds,
} from './assembly.mjs';
import { CODE } from './instructions.mjs';
import { TYPE } from './module.mjs';

/** What a wait answers: the value differed, or the time was over. */
const NOT_EQUAL = 1, TIMED_OUT = 2;
const MEMORY_SIZE = [CODE.memorySize, 0];
const PAGE_BITS = 16;

/** What waits for a value of a type: its load, its comparison, and the alignment of both as an exponent of 2. */
const WAITS = new Map([
  [CODE.wait32, { type: TYPE.i32, load: CODE.i32AtomicLoad, differs: CODE.i32Ne, alignment: 2 }],
  [CODE.wait64, { type: TYPE.i64, load: CODE.i64AtomicLoad, differs: CODE.i64Ne, alignment: 3 }],
]);

export const isWaiting = (code) => code === CODE.notify || WAITS.has(code);

/** A function that waits at an address with an offset: the address, the value expected, and the time, which may be negative. */
function waitBody({ load, differs, alignment }, offset) {
  const [address, expected, time] = [0, 1, 2];
  return body(0,
    block(CODE.block, block(CODE.loop,
      get(address), prefixed(load), [alignment, ...u32(offset)], get(expected), [differs], branchIf(1),
      get(time), longConstant(0), [CODE.i64LtS], branchIf(0),
      constant(TIMED_OUT), [CODE.return])),
    constant(NOT_EQUAL));
}

/** A function that wakes nobody. It traps as the instruction does, which makes no event. */
function notifyBody(offset) {
  const address = 0;
  const lowBits = constant(3);
  return body(0,
    effectiveAddress(address, offset + 4), MEMORY_SIZE, [CODE.i64ExtendI32U], longConstant(PAGE_BITS), [CODE.i64Shl, CODE.i64GtU],
    condition(trapOutOfBounds),
    get(address), constant(offset), [CODE.i32Add], lowBits, [CODE.i32And],
    condition(constant(1), prefixed(CODE.i32AtomicLoad), [2, 0, CODE.drop]),
    constant(0));
}

/** The function that takes the place of a wait or a notification: a key, its type, and what makes its body. */
export function waitingFunction({ code, args: [, offset] }) {
  const wait = WAITS.get(code);
  const operands = wait ? [TYPE.i32, wait.type, TYPE.i64] : [TYPE.i32, TYPE.i32];
  return {
    key: `${code} at ${offset}`,
    type: { params: operands, results: [TYPE.i32] },
    makeBytes: () => (wait ? waitBody(wait, offset) : notifyBody(offset)),
    text: wait ? 'replaced by a loop of loads until the value differs' : 'replaced by 0: nobody waits',
  };
}

/** The line of a report on what the runs of a module without sleeping threads are. */
export const WAITING_NOTE = 'each wait comes late: the edge that notify makes, and a notification without a new value, are not covered';
