/**
 * What the hooks of a rewritten module do, one function for each mode. Each answers `hooks`, and `finish`, which is called
 * when the thread has ended. A hook of an access notes its event, its writers and its place in the order.
 *
 * - `locked`: each access is made natively, one at a time, by turns; a shadow of the memory has the writer of each byte.
 * - `buffered`: memory and store buffers are simulated; plain stores wait for a turn of their own, so weak outcomes come often.
 * - `free`: the accesses stay native, in their places, and only the values read are noted.
 *
 * With `wrong` the engine is wrong on purpose: it makes atomic loads and stores as plain ones (`plain-atomics`), stores in
 * two halves (`torn-store`), or answers a load with an older value (`stale-load`).
 */

import { ACCESSES, eventOf, loaded, operation, reads, cut, trapOf } from './accesses.mjs';
import { TIRED } from './document.mjs';
import { CONTROL, Cut, Turns, nextRandom } from './turns.mjs';

/** A trap of the profile, by its name in the log. */
class Trap extends Error {}

/** How a shadow names event `number` of a thread; 0 is the initial memory. */
const EVENTS = 65_536;
const shadowOf = (thread, number) => 1 + thread * EVENTS + number;
export const writerOf = (shadow) => (shadow === 0 ? [] : [Math.floor((shadow - 1) / EVENTS), (shadow - 1) % EVENTS]);

/** The hooks that end a thread, in every mode. */
const ENDS = {
  exhausted() { throw new Trap('exhausted'); },
  tired() { throw new Cut(TIRED); },
};

const hooksFor = (made) => ({ ...ENDS, ...Object.fromEntries(ACCESSES.map((access) => [access.name, made(access)])) });

const refuse = (made, size) => {
  const trap = trapOf(made, size);
  if (trap) throw new Trap(trap);
};

const bytesAt = (bytes, address, width) => {
  let value = 0n;
  for (let k = width - 1; k >= 0; k--) value = value * 256n + BigInt(bytes[address + k]);
  return value;
};

/** Makes an access by the engine. If it is both unaligned and out of bounds, the engine's trap is the other one. */
function natively(native, made, args, size) {
  if (made.address > 0xffff_ffff) refuse(made, size);
  try {
    return native[made.access.name](made.address, ...args.slice(1, -1));
  } catch (error) {
    if (trapOf(made, size) === 'unaligned') throw new Trap('unaligned');
    throw error;
  }
}

/** The values are those of the engine: what an access answers, and what it leaves in memory. */
export function locked(env) {
  const { thread, shadow, native, memory, events } = env;
  const turns = new Turns(env);
  const bytes = new Uint8Array(memory.buffer);
  const make = (access, args) => {
    const made = operation(access, args);
    turns.cutAtLimit();
    const result = natively(native, made, args, bytes.length);
    turns.takeEvent();
    const event = eventOf(made, reads(access) ? cut(result, access.width) : 0n);
    const places = Array.from({ length: access.width }, (_, k) => made.address + k);
    const writers = reads(access) ? places.map((at) => shadow[at]) : [];
    if (event[0] !== 'r') {
      event[event.length - 1] = bytesAt(bytes, made.address, access.width);
      for (const at of places) shadow[at] = shadowOf(thread, events.length);
    }
    events.push({ event, writers, place: turns.place() });
    return result;
  };
  return { hooks: hooksFor((access) => (...args) => turns.make(() => make(access, args))), finish: () => turns.end() };
}

/** The waiting stores of a thread, over a memory with its shadow. */
class StoreBuffer {
  constructor(bytes, shadow) {
    this.bytes = bytes;
    this.shadow = shadow;
    this.waiting = [];
  }

  publish({ address, width, value, writer }) {
    for (let k = 0; k < width; k++) {
      this.bytes[address + k] = Number((value >> BigInt(8 * k)) & 255n);
      this.shadow[address + k] = writer;
    }
  }

  publishOldest() {
    this.publish(this.waiting.shift());
  }

  publishAll() {
    while (this.waiting.length) this.publishOldest();
  }

  /** The byte that the thread sees, and who wrote it: that of its newest waiting store there, else of the memory. */
  look(at) {
    const store = this.waiting.findLast(({ address, width }) => at >= address && at < address + width);
    if (!store) return [BigInt(this.bytes[at]), this.shadow[at]];
    return [(store.value >> BigInt(8 * (at - store.address))) & 255n, store.writer];
  }
}

/** The halves of a store, both of the same writer. */
function halvesOf({ address, width, value, writer }) {
  const half = width / 2;
  return [
    { address, width: half, value: cut(value, half), writer },
    { address: address + half, width: half, value: value >> BigInt(8 * half), writer },
  ];
}

/** One thread of the mode buffered. */
class BufferedThread {
  constructor(env) {
    this.thread = env.thread;
    this.control = env.control;
    this.events = env.events;
    this.wrong = env.wrong;
    this.bytes = new Uint8Array(env.memory.buffer);
    this.buffer = new StoreBuffer(this.bytes, env.shadow);
    this.turns = new Turns(env, () => this.buffer.publishOldest());
    this.seenBefore = new Map(); // the bytes that a load saw, by its range, for the engine that answers them again
  }

  isAtomic({ atomic, kind }) {
    return atomic && !(this.wrong === 'plain-atomics' && (kind === 'load' || kind === 'store'));
  }

  /** Each byte of a range that the thread sees, with its writer. */
  look(access, address) {
    const seen = Array.from({ length: access.width }, (_, k) => this.buffer.look(address + k));
    if (this.wrong !== 'stale-load' || access.kind !== 'load') return seen;
    const range = `${address} ${access.width}`;
    const older = this.seenBefore.get(range);
    if (!older) this.seenBefore.set(range, seen);
    return older && nextRandom(this.control) % 2 ? older : seen;
  }

  write(access, store) {
    const isTorn = this.wrong === 'torn-store' && access.kind === 'store' && access.width > 1;
    const stores = isTorn ? halvesOf(store) : [store];
    if (this.isAtomic(access)) this.buffer.publish(stores.shift());
    this.buffer.waiting.push(...stores);
    this.turns.addWaiting(stores.length);
  }

  make(access, args) {
    const { turns, buffer, events } = this;
    const made = operation(access, args);
    turns.cutAtLimit();
    refuse(made, this.bytes.length);
    turns.takeEvent();
    if (this.isAtomic(access)) {
      turns.addWaiting(-buffer.waiting.length);
      buffer.publishAll();
    }
    const seen = reads(access) ? this.look(access, made.address) : [];
    const read = seen.reduceRight((value, [byte]) => value * 256n + byte, 0n);
    const event = eventOf(made, read);
    const writer = shadowOf(this.thread, events.length);
    if (event[0] !== 'r') this.write(access, { address: made.address, width: access.width, value: event.at(-1), writer });
    events.push({ event, writers: seen.map(([, from]) => from), place: turns.place() });
    return reads(access) ? loaded(access, read) : undefined;
  }
}

export function buffered(env) {
  const thread = new BufferedThread(env);
  return {
    hooks: hooksFor((access) => (...args) => thread.turns.make(() => thread.make(access, args))),
    finish: () => thread.turns.end(),
  };
}

/** The plain store of half the width of a store, for the same type. */
const halfStore = ({ width, type }) => ACCESSES.find((access) => (
  !access.atomic && access.kind === 'store' && access.type === type && access.width === width / 2));

/** A hook that makes a store natively in two halves. */
const tornStore = (access, native) => (address, value, offset) => {
  const half = /** @type {wmlab.Access} */ (halfStore(access));
  const at = (address >>> 0) + (offset >>> 0);
  const upper = access.type === 'i64' ? value >> BigInt(8 * half.width) : value >> (8 * half.width);
  native[half.name](at, value);
  native[half.name](at + half.width, upper);
};

/** After how many values that are not new a thread sleeps, and for how many milliseconds. */
const REPEATS = 32, NAP = 1;
const KNOWN = 4;

/**
 * A thread that spins reads the same few values again: it sleeps, so that the other threads come to what it waits for. It does so at
 * the head of its next loop: right after the read it might hold a lock that the others need.
 */
class Naps {
  constructor(control) {
    this.control = control;
    this.known = [];
    this.repeats = 0;
    this.isDue = false;
  }

  rest() {
    if (this.isDue) Atomics.wait(this.control, CONTROL.nap, 0, NAP);
    this.isDue = false;
  }

  see(value) {
    if (this.known.includes(value)) {
      this.isDue = ++this.repeats > REPEATS;
      return;
    }
    this.repeats = 0;
    this.isDue = false;
    this.known.push(value);
    if (this.known.length > KNOWN) this.known.shift();
  }
}

/** Nothing but a note of each value read; a thread is cut right after the last read of its share. */
export function free({ limit, values, wrong, native, control }) {
  const older = new Map(); // the last value of each type, for the engine that answers it again
  const naps = new Naps(control);
  const note = (type) => (value) => {
    const isStale = wrong === 'stale-load' && older.has(type) && nextRandom(control) % 8 === 0;
    const seen = isStale ? older.get(type) : value;
    older.set(type, value);
    values.push(seen);
    if (values.length === limit) throw new Cut('after a read');
    naps.see(seen);
    return seen;
  };
  const stores = wrong === 'torn-store' ? ACCESSES.filter(({ kind, width }) => kind === 'store' && width > 1) : [];
  const torn = Object.fromEntries(stores.map((access) => [access.name, tornStore(access, native)]));
  return { hooks: { ...ENDS, ...torn, note_i32: note('i32'), note_i64: note('i64'), rest: () => naps.rest() }, finish() {} };
}

/**
 * No memory at all: the values to be read come from a list, so that a thread of the free mode can be run again for its
 * events. It is cut before the first access after the last value: one that was cut after the last read of its share made no other.
 */
export function again({ values, limit, size, events }) {
  let next = 0;
  const make = (access, args) => {
    const made = operation(access, args);
    refuse(made, size);
    if (next === limit || (reads(access) && next === values.length)) throw new Cut('before an access');
    const read = reads(access) ? cut(values[next++], access.width) : 0n;
    events.push(eventOf(made, read));
    return reads(access) ? loaded(access, read) : undefined;
  };
  return { hooks: hooksFor((access) => (...args) => make(access, args)), finish() {} };
}

/** The messages of V8, SpiderMonkey and JavaScriptCore in small letters, and the traps of the log. */
const TRAPS = {
  unreachable: 'unreachable',
  'divide by zero': 'divide-by-zero',
  'remainder by zero': 'divide-by-zero',
  'divide result unrepresentable': 'overflow',
  'memory access out of bounds': 'out-of-bounds',
  'operation does not support unaligned accesses': 'unaligned',
  'unreachable executed': 'unreachable',
  'integer divide by zero': 'divide-by-zero',
  'integer overflow': 'overflow',
  'index out of bounds': 'out-of-bounds',
  'unaligned memory access': 'unaligned',
  'unreachable code should not be executed': 'unreachable',
  'division by zero': 'divide-by-zero',
  'out of bounds memory access': 'out-of-bounds',
};

/** The trap that an error of the engine is, if it is one. JavaScriptCore adds to its messages what it evaluated. */
const trapNamed = (error) => (
  error instanceof WebAssembly.RuntimeError ? TRAPS[error.message.replace(/ \(evaluating [^]*\)$/, '').toLowerCase()] : undefined);

/** How a call ended, in the form of a log; `['cut', 'tired']` if it was cut for its many loops and calls, maybe right before its end. */
export function endOf(call) {
  try {
    const result = call();
    if (result === undefined) return ['done', []];
    return ['done', [typeof result === 'bigint' ? BigInt.asUintN(64, result) : BigInt(result >>> 0)]];
  } catch (error) {
    if (error instanceof Cut) return error.message === TIRED ? ['cut', TIRED] : ['cut'];
    if (error instanceof Trap) return ['trap', error.message];
    const trap = trapNamed(error);
    if (trap) return ['trap', trap];
    throw error;
  }
}
