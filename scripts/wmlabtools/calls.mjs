/** Reads lines of JSON: a module in hexadecimal, and calls of its exports; perhaps the pages of which the digest is, and where
 * the block of thread-local variables is put, with its bytes in hexadecimal. Prints a line for each: whether the module is
 * valid and, for each call in an instance of its own, how it ended and the digest of the memory `m` afterwards. */

import { createHash } from 'node:crypto';
import { createInterface } from 'node:readline';
import { setFlagsFromString } from 'node:v8';

/** An argument, given by its bits and as an unsigned decimal. */
const argument = ([bits, value]) => (bits === 64 ? BigInt.asIntN(64, BigInt(value)) : Number(value) | 0);

/** The result of a call as an unsigned decimal, or null if it has none. */
function resultOf(value) {
  if (value === undefined) return null;
  return typeof value === 'bigint' ? `${BigInt.asUintN(64, value)}` : `${value >>> 0}`;
}

/** The digest of a memory, as if it had this many pages. */
function digestOf(memory, pages) {
  const bytes = new Uint8Array(memory.buffer);
  const whole = new Uint8Array(Math.max(bytes.length, 65_536 * pages));
  whole.set(bytes);
  return createHash('sha256').update(whole).digest('hex');
}

/** What a runtime does for thread-local variables, before a thread runs. */
function placeBlock({ m, __tls_base: base }, { at, bytes }) {
  new Uint8Array(m.buffer).set(Buffer.from(bytes, 'hex'), at);
  base.value = at;
}

/** How a call ended, and the digest of the memory that it left: none if the start function traps. */
function made(module, { name, args }, { pages = 0, block = null }) {
  const end = {};
  let instance = null;
  try {
    instance = new WebAssembly.Instance(module, {});
    /** @type {any} */
    const exports = instance.exports;
    if (block) placeBlock(exports, block);
    end.result = resultOf(exports[name](...args.map(argument)));
  } catch (error) {
    end.trap = error.message;
  }
  const memory = instance && digestOf(instance.exports.m, pages);
  return { ...end, memory };
}

// V8 11.3 compiles waits wrong in its first compiler: a local beside them is overwritten.
setFlagsFromString('--no-liftoff');
for await (const line of createInterface({ input: process.stdin })) {
  const { module, calls, ...layout } = JSON.parse(line);
  const bytes = Buffer.from(module, 'hex');
  const valid = WebAssembly.validate(bytes);
  const compiled = valid && calls.length ? new WebAssembly.Module(bytes) : null;
  console.log(JSON.stringify({ valid, calls: compiled ? calls.map((call) => made(compiled, call, layout)) : [] }));
}
