// @ts-check
/**
 * The instructions of a function with its accesses taken out: an access whose address is a constant, and whose operands are single
 * instructions, becomes a unit that can be placed anywhere; every other one keeps its operands on the stack.
 */

import { UserError } from '../../engines/shared/errors.mjs';
import { accessOf, operandsOf } from '../../engines/shared/accesses.mjs';
import { CODE, featureOf, nameOf } from '../../engines/lowering/instructions.mjs';

/**
 * @typedef {{ code: number, args: any[], bytes: number[] }} Instruction
 * @typedef {{ kind: string, type: string, width: number, atomic: boolean, code: number, operator: string }} Access
 * @typedef {{ unit: true, access: Access, address: number, align: number, operands: Instruction[], isConstant: boolean }} Unit
 * @typedef {{ unit: false, access: Access | null, instruction: Instruction }} Other
 * @typedef {Unit | Other} Item
 */

const PUSHES = new Set([CODE.localGet, CODE.globalGet, CODE.i32Const, CODE.i64Const]);
const CONSTANTS = new Set([CODE.i32Const, CODE.i64Const]);
const NOT_TAKEN = new Set([CODE.callIndirect, CODE.typedSelect, CODE.memoryGrow, CODE.memoryCopy, CODE.memoryFill]);
const CONTROL = new Set([CODE.block, CODE.loop, CODE.if, CODE.else, CODE.branch, 0x0d, CODE.branchTable, CODE.return, CODE.call]);

/**
 * The unit that the last items and an access make, if they do.
 *
 * @param {Item[]} items
 * @param {Access} access
 * @param {Instruction} instruction
 */
function unitOf(items, access, { args: [align, offset] }) {
  const count = 1 + operandsOf(access).length;
  const last = items.slice(-count);
  if (last.length < count || !last.every((item) => !item.unit && PUSHES.has(item.instruction.code))) return null;
  const [address, ...operands] = last.map((item) => /** @type {Other} */ (item).instruction);
  if (address.code !== CODE.i32Const) return null;
  items.splice(-count);
  const isConstant = operands.every(({ code }) => CONSTANTS.has(code));
  const at = Number(BigInt.asUintN(32, address.args[0])) + offset;
  return /** @type {Unit} */ ({ unit: true, access, address: at, align, operands, isConstant });
}

/**
 * The items of a function.
 *
 * @param {Instruction[]} instructions
 * @param {string} where
 */
export function itemsOf(instructions, where) {
  /** @type {Item[]} */
  const items = [];
  for (const instruction of instructions) {
    const { code } = instruction;
    if (featureOf(code) || NOT_TAKEN.has(code)) throw new UserError(`${where}: ${nameOf(code)} cannot be run many times; leave it out`);
    const access = accessOf(code) ?? null;
    const unit = access && unitOf(items, access, instruction);
    items.push(unit ?? { unit: false, access, instruction });
  }
  return items;
}

/**
 * Whether nothing in a function branches.
 *
 * @param {Item[]} items
 */
export const isStraight = (items) => items.every((item) => item.unit || !CONTROL.has(item.instruction.code));

/**
 * The ranges of the accesses if each address is known, and otherwise null.
 *
 * @param {Item[]} items
 */
export function rangesOf(items) {
  if (items.some((item) => !item.unit && item.access)) return null;
  return items.flatMap((item) => (item.unit ? [{ address: item.address, width: item.access.width }] : []));
}
