/**
 * What lld makes with `--shared-memory`: a start function `__wasm_init_memory` that fills the memory from passive segments in
 * the first thread that comes, while the others wait. It is recognized by its exact instructions.
 */

import { CODE } from './instructions.mjs';

/** Reads instructions from left to right; each function answers null, or undefined, if something else is there. */
class Cursor {
  constructor(instructions) {
    this.instructions = instructions;
    this.at = 0;
  }

  /** Whether the next instructions have these codes; an array is a constant with its value. */
  take(...wanted) {
    const fits = wanted.every((item, index) => {
      const found = this.instructions[this.at + index];
      const [code, value] = Array.isArray(item) ? item : [item];
      return found?.code === code && (value === undefined || found.args[0] === BigInt(value));
    });
    if (fits) this.at += wanted.length;
    return fits;
  }

  argument(back) {
    return this.instructions[this.at - back].args[0];
  }
}

const I32 = CODE.i32Const;
const address = (value) => Number(BigInt.asUintN(32, value));

/**
 * The copies of whole segments (`memory.init`) and the fills with zeros. Before the copy of the thread-local variables newer
 * linkers set their base, for this one thread.
 */
function initialization(cursor) {
  const segments = [];
  let locals = null;
  for (;;) {
    const isOfLocals = cursor.take(I32, I32, CODE.globalSet, [I32, 0], I32, CODE.memoryInit);
    if (isOfLocals || cursor.take(I32, [I32, 0], I32, CODE.memoryInit)) {
      const segment = cursor.argument(1);
      segments.push({ segment, address: address(cursor.argument(isOfLocals ? 6 : 4)), size: address(cursor.argument(2)) });
      if (isOfLocals) locals = { global: cursor.argument(4), segment };
    } else if (!cursor.take(I32, [I32, 0], I32, CODE.memoryFill)) return { segments, locals };
  }
}

/** The first thread of three: it finds the flag 0 and sets it to 1; a thread that finds 1 waits, one that finds 2 goes on. */
function begin(cursor) {
  if (!cursor.take(CODE.block, CODE.block, CODE.block, I32, [I32, 0], [I32, 1], CODE.i32AtomicCmpxchg)) return null;
  const flag = cursor.argument(4);
  if (!cursor.take(CODE.branchTable, CODE.end)) return null;
  return cursor.instructions[cursor.at - 2].args.join() === '0,1,2' ? flag : null;
}

/** The end of the initialization: the flag is 2, and the threads that wait are woken; then the branch of these threads. */
function finish(cursor, flag) {
  return cursor.take([I32, flag], [I32, 2], CODE.i32AtomicStore, [I32, flag], [I32, -1], CODE.notify, CODE.drop)
    && cursor.take(CODE.branch, CODE.end)
    && cursor.take([I32, flag], [I32, 1], [CODE.i64Const, -1], CODE.wait32, CODE.drop, CODE.end);
}

/**
 * If the module's start function is the linker's: the function, its flag's address, the segments with their addresses, and
 * the base and the segment of thread-local variables, if it copies these. Else null.
 */
export function linkerMemory(module) {
  if (module.start === null || module.imports.some(({ kind }) => kind === 0)) return null;
  const cursor = new Cursor(module.bodies[module.start].instructions);
  const flag = begin(cursor);
  if (flag === null) return null;
  const { segments, locals } = initialization(cursor);
  if (!finish(cursor, flag)) return null;
  while (cursor.take(CODE.dataDrop));
  const isWhole = cursor.take(CODE.end) && cursor.at === cursor.instructions.length;
  const fits = segments.every(({ segment, size }) => module.data[segment].bytes.length === size);
  return isWhole && fits ? { start: module.start, flag: address(flag), segments, locals } : null;
}

/** The bytes that the flag has when the memory is filled. */
export const FLAG_WHEN_FILLED = [2, 0, 0, 0];
