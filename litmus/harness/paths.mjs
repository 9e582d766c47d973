#!/bin/sh
':' //; command -v node >/dev/null || { echo "${0##*/}: node is not installed (Debian: nodejs)" >&2; exit 2; }; exec node "$0" "$@"
// @ts-check
/**
 * Every way in which each thread of a test can go, if its reads get values that some thread writes. Standard input is JSON with the
 * module, its threads and limits; standard output is JSON with the paths of each thread, and the bytes that do not begin as zeros.
 *
 * A path has the thread's events without writers, and its results. The values that reads may get are found by trying: the threads are
 * run on the initial memory, then also on what they wrote, and so on until nothing new is written.
 */

import { readFileSync } from 'node:fs';
import { ACCESSES, cut, eventOf, loaded, operation, reads, trapOf } from '../../engines/shared/accesses.mjs';
import { UserError } from '../../engines/shared/errors.mjs';
import { rewrite } from '../../engines/shared/rewrite.mjs';
import { argumentsOf, unsignedStart } from '../../engines/shared/starts.mjs';

/** @typedef {{ address: number, bytes: number[], isTearFree: boolean }} Write */
/** @typedef {{ events: any[], results: bigint[], end: string }} Path */

/** A path goes no further. */
class Cut extends Error {
  /**
   * @param {string} why
   * @param {bigint[]} [options]
   */
  constructor(why, options = []) {
    super(why);
    this.why = why;
    this.options = options;
  }
}

const byteOf = (/** @type {bigint} */ value, /** @type {number} */ k) => Number((value >> BigInt(8 * k)) & 255n);

/** Whether an access may not tear: an atomic one, or an aligned one of at most 4 bytes. */
const isTearFree = (/** @type {boolean} */ isAtomic, /** @type {number} */ address, /** @type {number} */ width) => (
  isAtomic || (width <= 4 && address % width === 0));

/** The writes that are known, and what a read may get of them. */
class Writes {
  /**
   * @param {Uint8Array} initial
   * @param {boolean} isByBytes
   * @param {boolean} isWhole whether reads that may not tear are whole, as V4 demands
   */
  constructor(initial, isByBytes, isWhole) {
    this.initial = initial;
    this.isByBytes = isByBytes;
    this.isWhole = isWhole;
    /** @type {Map<string, Write>} */
    this.known = new Map();
  }

  /**
   * Adds the writes of a path. Answers whether one is new.
   *
   * @param {any[]} events
   */
  add(events) {
    let isNew = false;
    for (const [kind, order, address, width, ...values] of events) {
      if (kind === 'r') continue;
      const bytes = Array.from({ length: width }, (_, k) => byteOf(values.at(-1), k));
      const write = { address, bytes, isTearFree: isTearFree(order === 'sc', address, width) };
      const key = `${address} ${write.isTearFree} ${bytes}`;
      if (this.known.has(key)) continue;
      this.known.set(key, write);
      isNew = true;
    }
    return isNew;
  }

  /**
   * The parts of a range that are read as wholes.
   *
   * @param {number} address
   * @param {number} width
   */
  partsOf(address, width) {
    const edges = new Set([address, address + width]);
    for (const { address: at, bytes } of this.known.values()) for (const edge of [at, at + bytes.length]) edges.add(edge);
    if (this.isByBytes) for (let k = 0; k < width; k++) edges.add(address + k);
    const sorted = [...edges].filter((edge) => edge >= address && edge <= address + width).sort((one, other) => one - other);
    return sorted.slice(1).map((end, k) => [sorted[k], end]);
  }

  /**
   * The values of a range whose parts are read from the memory as it begins and from these writes.
   *
   * @param {number} address
   * @param {number} width
   * @param {Write[]} writes
   */
  mixed(address, width, writes) {
    let values = [0n];
    for (const [from, end] of this.partsOf(address, width)) {
      const shift = BigInt(8 * (from - address));
      const valueOf = (/** @type {(at: number) => number} */ byte) => (
        Array.from({ length: end - from }, (_, k) => BigInt(byte(from + k)) << BigInt(8 * k)).reduce((one, other) => one | other, 0n));
      const writers = writes.filter(({ address: at, bytes }) => at <= from && from < at + bytes.length);
      const written = writers.map(({ address: at, bytes }) => valueOf((place) => bytes[place - at]));
      const options = new Set([valueOf((at) => this.initial[at]), ...written]);
      values = values.flatMap((value) => [...options].map((option) => value | (option << shift)));
    }
    return values;
  }

  /**
   * The values that a read may get. A whole one takes bytes from at most one write of its own range that may not tear.
   *
   * @param {any} made
   */
  valuesAt({ isAtomic, address, width }) {
    const mayNotTear = this.isWhole && isTearFree(isAtomic, address, width);
    const writes = [...this.known.values()];
    const isAlike = (/** @type {Write} */ write) => (
      mayNotTear && write.isTearFree && write.address === address && write.bytes.length === width);
    const others = writes.filter((write) => !isAlike(write));
    const alike = writes.filter(isAlike);
    if (!alike.length) return this.mixed(address, width, others);
    return [...new Set(alike.flatMap((write) => this.mixed(address, width, [...others, write])))];
  }
}

/** A thread that can be run on any values that its reads get. */
class Thread {
  /**
   * @param {any} made
   * @param {{ start: string, args: string[] }} thread
   * @param {WebAssembly.Memory} memory
   */
  constructor(made, { start, args }, memory) {
    this.module = new WebAssembly.Module(made.bytes);
    this.importedAs = made.memory;
    this.memory = memory;
    const unsigned = unsignedStart({ name: start, args: args.map(BigInt) }, made.parameters);
    this.start = start;
    this.args = argumentsOf(unsigned, made.parameters.get(start));
  }

  /**
   * @param {(access: any, args: any[]) => any} make
   */
  exports(make) {
    /** @type {any} */
    const imports = { recorder: {} };
    for (const access of ACCESSES) imports.recorder[access.name] = (/** @type {any[]} */ ...args) => make(access, args);
    for (const name of ['tired', 'exhausted']) imports.recorder[name] = () => { throw new Cut('limit'); };
    (imports[this.importedAs.module] ??= {})[this.importedAs.name] = this.memory;
    return new WebAssembly.Instance(this.module, imports).exports;
  }

  /**
   * Runs the thread on these values.
   *
   * @param {bigint[]} values
   * @param {Writes} writes
   * @param {number} most
   * @returns {{ path: Path | null, options: bigint[] }}
   */
  run(values, writes, most) {
    /** @type {any[]} */
    const events = [];
    let next = 0;
    const make = (/** @type {any} */ access, /** @type {any[]} */ args) => {
      const made = operation(access, args);
      const trap = trapOf(made, this.memory.buffer.byteLength);
      if (trap) throw new Cut(trap);
      if (events.length === most) throw new Cut('limit');
      if (reads(access) && next === values.length) throw new Cut('read', writes.valuesAt({ isAtomic: access.atomic, address: made.address, width: access.width }));
      const value = reads(access) ? cut(values[next++], access.width) : 0n;
      events.push(eventOf(made, value));
      return reads(access) ? loaded(access, value) : undefined;
    };
    try {
      const result = /** @type {any} */ (this.exports(make)[this.start])(...this.args);
      const list = result === undefined ? [] : Array.isArray(result) ? result : [result];
      const results = list.map((value) => (typeof value === 'bigint' ? BigInt.asUintN(64, value) : BigInt(value >>> 0)));
      return { path: { events, results, end: 'done' }, options: [] };
    } catch (error) {
      if (error instanceof Cut && error.why === 'read') return { path: null, options: error.options };
      return { path: { events, results: [], end: error instanceof Cut ? error.why : 'trap' }, options: [] };
    }
  }

  /**
   * All paths, at most `mostPaths`.
   *
   * @param {Writes} writes
   * @param {{ mostEvents: number, mostPaths: number }} limits
   */
  paths(writes, { mostEvents, mostPaths }) {
    /** @type {Path[]} */
    const found = [];
    /** @type {bigint[][]} */
    const waiting = [[]];
    for (let values = waiting.shift(); values && found.length + waiting.length < mostPaths; values = waiting.shift()) {
      const { path, options } = this.run(values, writes, mostEvents);
      if (path) found.push(path);
      const before = values;
      waiting.push(...options.map((value) => [...before, value]));
    }
    const isFull = waiting.length > 0;
    return { found, isFull, isCut: isFull || found.some(({ end }) => end === 'limit') };
  }
}

/**
 * The memory of a module as it begins.
 *
 * @param {any} made
 */
function initialOf(made) {
  const { initial, maximum } = made.memory;
  const memory = new WebAssembly.Memory({ initial, maximum, shared: true });
  const [start, parameters] = made.parameters.entries().next().value;
  new Thread(made, { start, args: parameters.map(() => '0') }, memory).exports(() => 0);
  return { memory, bytes: new Uint8Array(memory.buffer).slice() };
}

/**
 * @param {any} given
 */
function pathsOf({ module, threads, byBytes, isWhole, ...limits }) {
  const made = rewrite(Uint8Array.from(atob(module), (character) => character.charCodeAt(0)), 'hooked');
  const { memory, bytes } = initialOf(made);
  const writes = new Writes(bytes, byBytes, isWhole);
  const each = threads.map((/** @type {any} */ thread) => new Thread(made, thread, memory));
  for (;;) {
    /** @type {{ found: Path[], isFull: boolean, isCut: boolean }[]} */
    const found = each.map((/** @type {Thread} */ thread) => thread.paths(writes, limits));
    const isNew = found.flatMap(({ found: paths }) => paths.map(({ events }) => writes.add(events))).includes(true);
    const [isCut, isFull] = [found.some((one) => one.isCut), found.some((one) => one.isFull)];
    const initial = [...bytes.entries()].filter(([, byte]) => byte);
    if (!isNew || isFull) return { threads: found.map(({ found: paths }) => paths), isCut, initial };
  }
}

try {
  const found = pathsOf(JSON.parse(readFileSync(0, 'utf8')));
  process.stdout.write(JSON.stringify(found, (_, value) => (typeof value === 'bigint' ? `${value}` : value)));
} catch (error) {
  if (!(error instanceof UserError) && !(error instanceof WebAssembly.CompileError)) throw error;
  process.stderr.write(error.message);
  process.exitCode = 2;
}
