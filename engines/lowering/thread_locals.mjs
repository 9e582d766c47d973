/**
 * Variables of the threads' own, such as C's `_Thread_local`. The linker puts their initial values into one segment, and code
 * finds a thread's block by the global `__tls_base`, which a runtime has to set in each thread. Here exported functions set it.
 */

import { CODE } from './instructions.mjs';
import { KIND, TYPE, constantOf } from './module.mjs';

/** Where a block begins: the most that compilers align such a variable to. */
export const BLOCK_ALIGNMENT = 64;
const NAME = '__tls_base';

/** What the linker's `__wasm_init_tls` does: it sets the global to its argument, and copies a whole segment there. */
function initializer({ instructions }) {
  const codes = [CODE.localGet, CODE.globalSet, CODE.localGet, CODE.i32Const, CODE.i32Const, CODE.memoryInit, CODE.end];
  const fits = instructions.length === codes.length && instructions.every(({ code }, place) => code === codes[place]);
  return fits ? { global: instructions[1].args[0], segment: instructions[5].args[0] } : null;
}

/** The functions that are the linker's `__wasm_init_tls`. A lowered module does not need them. */
export const initializers = (module) => new Set(
  module.bodies.flatMap((body, index) => (initializer(body) ? [index] : [])));

const isSet = (module, called, global) => [...called].some((index) => (
  module.bodies[index].instructions.some(({ code, args }) => code === CODE.globalSet && args[0] === global)));

/** The functions that read a global, of those that can be called. */
const readersOf = (module, called, global) => [...called].sort((a, b) => a - b).filter((index) => (
  module.bodies[index].instructions.some(({ code, args }) => code === CODE.globalGet && args[0] === global)));

const address = (value) => Number(BigInt.asUintN(32, value));

/** The passive segments that nothing copies: the linker leaves the one of the thread-local variables to the runtime. */
function leftSegments(module, linker) {
  const isCopied = (index) => linker?.segments.some(({ segment }) => segment === index);
  return module.data.flatMap(({ offset }, index) => (offset === null && !isCopied(index) ? [index] : []));
}

/** The active segment at an address, or null. */
function segmentAt(module, place) {
  const found = module.data.findIndex(({ offset }) => {
    const at = offset && constantOf(offset, module.globals);
    return at !== null && address(at) === place;
  });
  return found < 0 ? null : found;
}

/** The segment with the initial values, by the value of the base: 0 if the runtime sets it; null if there is none. */
function segmentOfBase(module, linker, { type, initial }) {
  const value = type === TYPE.i32 ? constantOf(initial, module.globals) : null;
  if (value === null) return null;
  const left = leftSegments(module, linker);
  if (value === 0n) return left.length === 1 ? left[0] : null;
  return segmentAt(module, address(value));
}

/** In a module without names: a global that code reads and never sets, and whose value fits a segment. */
function unnamedBase(module, linker, called) {
  if (module.names.globals.size) return null;
  const found = module.globals.findIndex((global, index) => (
    segmentOfBase(module, linker, global) !== null && !isSet(module, called, index) && readersOf(module, called, index).length));
  return found < 0 ? null : found;
}

function baseGlobal(module, linker, called) {
  const named = [...module.names.globals].find(([, name]) => name === NAME)?.[0]
    ?? module.exports.find(({ kind, name }) => kind === KIND.global && name === NAME)?.index;
  const made = module.bodies.map(initializer).find((found) => found !== null);
  return named ?? made?.global ?? linker?.locals?.global ?? unnamedBase(module, linker, called);
}

/** The segment with the initial values, or null if it is not found. */
function imageOf(module, linker, global) {
  const made = module.bodies.map(initializer).find((found) => found !== null);
  const found = made?.segment ?? linker?.locals?.segment ?? segmentOfBase(module, linker, module.globals[global]);
  return found === null ? null : module.data[found].bytes;
}

/**
 * The thread-local variables of a module, or null if no function that can be called uses any: the global that is their base,
 * the functions that use them, their initial values (null if they are not found), and whether they have a block already.
 */
export function threadLocals(module, linker, called) {
  const global = baseGlobal(module, linker, called);
  if (global === null || global === undefined) return null;
  const users = readersOf(module, called, global);
  if (!users.length) return null;
  return { global, users, image: imageOf(module, linker, global), isPlaced: constantOf(module.globals[global].initial, module.globals) !== 0n };
}
