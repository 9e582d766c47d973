/**
 * Stacks of the threads' own. The compiler keeps locals whose address is taken on a stack in the shared memory, and every
 * thread starts with the same stack pointer. So exported functions are wrapped: they first set it to a stack of their own.
 */

import { CODE } from './instructions.mjs';
import { KIND, TYPE, constantOf } from './module.mjs';

/** The global that is the stack pointer: by its name, by its export, or the first one that can be; null if there is none. */
export function stackPointer(module) {
  const named = [...module.names.globals].find(([, name]) => name === '__stack_pointer')?.[0]
    ?? module.exports.find(({ kind, name }) => kind === KIND.global && name === '__stack_pointer')?.index;
  if (named !== undefined) return named;
  if (module.names.globals.size) return null;
  const first = module.globals.findIndex((global) => canBeStackPointer(global, module.globals));
  return first < 0 ? null : first;
}

/** Whether a global of a module without names looks like a stack pointer: an address that is a multiple of 16. */
function canBeStackPointer({ type, mutable, initial }, globals) {
  const value = mutable && type === TYPE.i32 ? constantOf(initial, globals) : null;
  return value !== null && value > 0n && value % 16n === 0n;
}

/**
 * The functions that use the stack pointer, of those that can be called. One that calls nothing may keep its locals below the
 * pointer without setting it.
 */
export function functionsWithStack(module, called, pointer) {
  const uses = ({ code, args }) => (code === CODE.globalGet || code === CODE.globalSet) && args[0] === pointer;
  return [...called].filter((index) => module.bodies[index].instructions.some(uses)).sort((a, b) => a - b);
}
