// @ts-check
/**
 * Makes a module that runs a test many times: for each thread of the test an exported function `run<t>(n)`. Its loop has the body of
 * the thread's start, made on instance i of the test's memory, and stores what the start answers in columns (layout.mjs). The threads
 * meet between iterations (meeting.mjs). Each access of the test keeps its instruction; only its address has the instance's base added.
 */

import { HEADER, SECTION, name, section, u32, vector } from '../../engines/shared/binary.mjs';
import { opcode, operandsOf, plainOf, resultsOf } from '../../engines/shared/accesses.mjs';
import { UserError } from '../../engines/shared/errors.mjs';
import { CODE, beginsBlock } from '../../engines/lowering/instructions.mjs';
import { KIND, constantOf, readModule } from '../../engines/lowering/module.mjs';
import { constantOfType } from '../../engines/lowering/assembly.mjs';
import { isStraight, itemsOf, rangesOf } from './accesses.mjs';
import {
  ADD, END, GT_U, I32, I64, IF, LOOP, LT_U, MUL, SHIFT, SHL, UNREACHABLE, WIDE_SHIFT, bodyOf, branch, branchIf, call, fill, get,
  globalGet, globalSet, i32, i64, set, tee,
} from './code.mjs';
import { DEFAULTS, layoutOf, locationAt } from './layout.mjs';
import { meetingCode, pauseBody } from './meeting.mjs';
import { WRONG } from './wrong.mjs';

/**
 * @typedef {import('./accesses.mjs').Item} Item
 * @typedef {import('./accesses.mjs').Unit} Unit
 * @typedef {import('./accesses.mjs').Access} Access
 * @typedef {{ start: string, args: string[] }} Thread
 * @typedef {{ name: string, module: Uint8Array, threads: Thread[], finals: { address: number, width: number }[] }} Test
 */

const PAGE = 65_536;
/** How many pages a test may have whose addresses are not constants. */
const MOST_PAGES = 16;
const typeByte = (/** @type {string} */ type) => (type === 'i64' ? I64 : I32);
const typeName = (/** @type {number} */ byte) => (byte === I64 ? 'i64' : 'i32');
const NARROW_STORE = /** @type {Record<string, number>} */ ({ 'i32 1': 0x3a, 'i32 2': 0x3b, 'i64 1': 0x3c, 'i64 2': 0x3d, 'i64 4': 0x3e });

/** Locals of a function that are added to its own. */
class Locals {
  /**
   * @param {number[]} own the types of the function's own
   */
  constructor(own) {
    this.types = own;
  }

  /**
   * @param {string} type
   */
  add(type) {
    return this.types.push(typeByte(type)) - 1;
  }

  /**
   * The groups after the parameters.
   *
   * @param {number} parameters
   */
  groups(parameters) {
    return this.types.slice(parameters).map((type) => [1, type]);
  }
}

/**
 * Refuses a module that is not a test for a harness.
 *
 * @param {any} module
 */
function requireModule(module) {
  if (module.imports.some((/** @type {any} */ { kind }) => kind !== KIND.memory)) throw new UserError('an import that is not a memory');
  if (module.start !== null) throw new UserError('a start function; export it, and name it as a thread');
  if (!module.memories[0]?.shared) throw new UserError('a memory that is not there, or not shared; write (memory 1 1 shared)');
  const { minimum } = module.memories[0];
  if (minimum > MOST_PAGES) throw new UserError(`a memory of ${minimum} pages; the most are ${MOST_PAGES}`);
}

/** A test's module, read, with its threads and data segments. */
class Source {
  /**
   * @param {Test} test
   */
  constructor({ module, threads, finals }) {
    this.module = readModule(module);
    requireModule(this.module);
    this.finals = finals;
    this.bodies = this.module.bodies.map((/** @type {any} */ body, /** @type {number} */ index) => (
      { ...body, items: itemsOf(body.instructions, `function ${index}`) }));
    this.threads = threads.map((thread) => this.startOf(thread));
    this.segments = this.module.data.map((/** @type {any} */ { offset, bytes }) => (
      { address: Number(constantOf(offset, this.module.globals)), bytes }));
  }

  /**
   * @param {Thread} thread
   */
  startOf({ start, args }) {
    const found = this.module.exports.find(({ name: exported, kind }) => exported === start && kind === KIND.function);
    if (!found) throw new UserError(`start ${start}: no function is exported under this name`);
    const type = this.module.types[this.module.functionTypes[found.index]];
    if (type.params.length !== args.length) {
      throw new UserError(`start ${start}: it takes ${type.params.length} arguments, and ${args.length} are given`);
    }
    return { index: found.index, params: type.params, results: type.results, args: args.map(BigInt) };
  }

  /** What is accessed, or the whole memory if an address is not a constant. */
  ranges() {
    const each = this.bodies.map(({ items }) => rangesOf(items));
    const known = each.flatMap((ranges) => ranges ?? []);
    const size = this.module.memories[0].minimum * PAGE;
    const outside = known.find(({ address, width }) => address + width > size);
    if (outside) throw new UserError(`an access at ${outside.address} is outside of the memory of ${size} bytes`);
    return each.includes(null) ? [{ address: 0, width: size }] : [...known, ...this.finals];
  }

  get widest() {
    const widths = this.bodies.flatMap(({ items }) => items.map((/** @type {Item} */ { access }) => access?.width ?? 1));
    return Math.max(...widths, 4);
  }

  layout(/** @type {any} */ options) {
    const results = this.threads.map(({ results: types }) => types.map(typeName));
    return layoutOf({ ranges: this.ranges(), results, widest: this.widest }, options);
  }
}

/** Writes the code of one function of the test, in a loop or called from one. */
class FunctionWriter {
  /**
   * @param {LoopedModule} whole
   * @param {Locals} locals
   * @param {{ base: number[], shift: number, isInline: boolean }} place how the instance's base is pushed; the number of the first local
   */
  constructor(whole, locals, { base, shift, isInline }) {

    this.whole = whole;
    this.locals = locals;
    this.base = base;
    this.shift = shift;
    this.isInline = isInline;
    this.depth = 0;
  }

  /**
   * The instruction of an access, as the engine makes it.
   *
   * @param {Access} access
   * @param {number} align
   * @param {number} offset
   */
  made(access, align, offset) {
    const kept = this.whole.wrong === 'plain-atomics' ? plainOf(access) : access;
    return [...opcode(kept), ...u32(align), ...u32(offset)];
  }

  /**
   * An access of which the address and the operands are pushed by some code.
   * @param {Access} access
   * @param {number} align
   * @param {number} offset
   * @param {number[]} address
   * @param {number[][]} operands
   */
  access(access, align, offset, address, operands) {
    const { wrong } = this.whole;
    if (wrong === 'torn-store' && access.kind === 'store' && access.width > 1) return this.torn(access, offset, address, operands[0]);
    if (wrong === 'split-update' && access.operator === 'xchg') return this.split(access, align, offset, address, operands[0]);
    return [...address, ...operands.flat(), ...this.made(access, align, offset)];
  }

  /**
   * @param {Access} access
   * @param {number} offset
   * @param {number[]} address
   * @param {number[]} operand
   */
  torn({ type, width }, offset, address, operand) {
    const size = width / 2;
    const store = [NARROW_STORE[`${type} ${size}`], 0];
    const later = type === 'i64' ? [...i64(8 * size), ...WIDE_SHIFT] : [...i32(8 * size), ...SHIFT];
    return [...address, ...operand, ...store, ...u32(offset), ...address, ...operand, ...later, ...store, ...u32(offset + size)];
  }

  /**
   * @param {Access} access
   * @param {number} align
   * @param {number} offset
   * @param {number[]} address
   * @param {number[]} operand
   */
  split(access, align, offset, address, operand) {
    const base = { i32: { 4: 0, 1: 2, 2: 3 }, i64: { 8: 1, 1: 4, 2: 5, 4: 6 } }[/** @type {'i32' | 'i64'} */ (access.type)];
    const shape = /** @type {Record<number, number>} */ (base)[access.width];
    const memory = [...u32(align), ...u32(offset)];
    return [...address, 0xfe, 0x10 + shape, ...memory, ...address, ...operand, 0xfe, 0x17 + shape, ...memory];
  }

  /**
   * An access of a constant address.
   *
   * @param {Unit} unit
   */
  unit({ access, address, align, operands }) {
    const location = locationAt(this.whole.layout, address);
    const pushed = operands.map((operand) => this.plain(operand));
    return this.access(access, align, location.base + address - location.first, this.base, pushed);
  }

  /**
   * An access whose address is on the stack: it traps outside of the instance.
   *
   * @param {Access} access
   * @param {any} instruction
   */
  dynamic(access, { args: [align, offset] }) {
    const [{ base, size }] = this.whole.layout.locations;
    const operands = operandsOf(access).map((type) => this.locals.add(type));
    const address = this.locals.add('i32');
    const most = size - access.width - offset;
    const isOutside = most < 0 ? UNREACHABLE : [...get(address), ...i32(most), ...GT_U, ...IF, ...UNREACHABLE, ...END];
    const moved = [...get(address), ...this.base, ...ADD];
    return [
      ...[...operands].reverse().flatMap(set), ...set(address), ...isOutside,
      ...this.access(access, align, offset + base, moved, operands.map(get)),
    ];
  }

  /**
   * An instruction that is not an access.
   *
   * @param {any} instruction
   */
  plain({ code, args, bytes }) {
    if (code >= CODE.localGet && code <= 0x22) return [code, ...u32(args[0] + this.shift)];
    if (code === CODE.call) return call(this.whole.functionAt(args[0]));
    if (code === CODE.memorySize) return i32(this.whole.source.module.memories[0].minimum);
    if (code === CODE.return && this.isInline) return branch(this.depth);
    return bytes;
  }

  /**
   * @param {Item} item
   */
  item(item) {
    if (item.unit) return this.unit(item);
    if (item.access) return this.dynamic(item.access, item.instruction);
    const { code } = item.instruction;
    const bytes = this.plain(item.instruction);
    this.depth += beginsBlock(code) ? 1 : code === CODE.end ? -1 : 0;
    return bytes;
  }

  /**
   * The code of all items, without the last `end`.
   *
   * @param {Item[]} items
   */
  all(items) {
    const { isSwapped } = WRONG[this.whole.wrong ?? ''] ?? {};
    const own = items.slice(0, -1);
    return isSwapped && isStraight(own) ? this.swapped(own, isSwapped) : own.flatMap((item) => this.item(item));
  }

  /**
   * The same with pairs of neighbours in the other order.
   *
   * @param {Item[]} items
   * @param {(first: any, later: any) => boolean} isSwapped
   */
  swapped(items, isSwapped) {
    const units = items.filter((item) => item.unit && item.isConstant);
    /** @type {Map<Item, Item>} */
    const early = new Map();
    for (let k = 0; k + 1 < units.length; k++) if (isSwapped(units[k], units[k + 1])) early.set(units[k], units[++k]);
    const kept = new Map([...early.values()].map((later) => [later, resultsOf(later.access).map((type) => this.locals.add(type))]));
    return items.flatMap((item) => {
      const later = early.get(item);
      if (later) return [...this.item(later), ...(kept.get(later) ?? []).flatMap(set), ...this.item(item)];
      return kept.get(item)?.flatMap(get) ?? this.item(item);
    });
  }
}

/** The body of a function that makes bytes zeros, from an address on, so many. Engines fill shared memory fast by this alone. */
const clearBody = () => bodyOf([], [...get(0), ...i32(0), ...get(1), ...fill]);

/** The looped module of a test. */
class LoopedModule {
  /**
   * @param {Test} test
   * @param {typeof DEFAULTS} options
   */
  constructor(test, options) {
    this.source = new Source(test);
    this.options = options;
    this.wrong = options.wrong;
    this.layout = this.source.layout(options);
    const { module } = this.source;
    this.types = module.types.map(({ params, results }) => [0x60, ...u32(params.length), ...params, ...u32(results.length), ...results]);
    this.baseGlobal = module.globals.length;
    this.pause = this.source.threads.length;
  }

  /**
   * The number that a function of the test has: the loops and the pause come first.
   *
   * @param {number} index
   */
  functionAt(index) {
    return this.source.threads.length + 1 + index;
  }

  /**
   * @param {number[]} params
   * @param {number[]} results
   */
  typeOf(params, results) {
    const type = [0x60, ...u32(params.length), ...params, ...u32(results.length), ...results];
    const at = this.types.findIndex((other) => `${other}` === `${type}`);
    return at < 0 ? this.types.push(type) - 1 : at;
  }

  /**
   * The type of a block without operands.
   *
   * @param {number[]} results
   */
  blockType(results) {
    if (results.length > 1) return u32(this.typeOf([], results));
    return results.length ? [results[0]] : [0x40];
  }

  /** What each iteration begins with: mutable globals, arguments and locals as a new thread has them. */
  fresh(/** @type {any} */ thread, /** @type {number} */ first, /** @type {number[]} */ own) {
    const { globals } = this.source.module;
    const reset = globals.flatMap((/** @type {any} */ { type, mutable, initial }, /** @type {number} */ k) => (
      mutable ? [...constantOfType(type, constantOf(initial, globals)), ...globalSet(k)] : []));
    const values = own.map((type, k) => constantOfType(type, thread.args[k] ?? 0n));
    return [...reset, ...values.flatMap((value, k) => [...value, ...set(first + k)])];
  }

  /**
   * Stores a result in its column; a narrow one takes the lowest byte.
   *
   * @param {any} column
   * @param {number} i
   * @param {number} register
   */
  stored({ at, size, isWide }, i, register) {
    /** @type {Record<number, number[]>} */
    const opcodes = isWide ? { 1: [0x3c, 0], 8: [0x37, 3] } : { 1: [0x3a, 0], 4: [0x36, 2] };
    const store = opcodes[size];
    return [...get(i), ...(size > 1 ? [...i32(Math.log2(size)), ...SHL] : []), ...get(register), ...store, ...u32(at)];
  }

  /**
   * Stores all results of a thread.
   *
   * @param {number} t
   * @param {number} i
   * @param {number[]} registers
   */
  storedAll(t, i, registers) {
    return registers.flatMap((register, k) => this.stored(this.layout.columns[t][k], i, register));
  }

  /**
   * The loop of a thread.
   *
   * @param {number} t
   */
  loop(t) {
    const thread = this.source.threads[t];
    const body = this.source.bodies[thread.index];
    const own = [...thread.params, ...body.locals.flatMap((/** @type {any} */ { count, type }) => Array(count).fill(type))];
    const [i, turn, spin, base, first] = [1, 2, 3, 4, 5];
    const hasCalls = body.items.some((/** @type {Item} */ item) => !item.unit && item.instruction.code === CODE.call);
    const locals = new Locals([I32, I32, I32, I32, I32, ...own]);
    const registers = thread.results.map((/** @type {number} */ type) => locals.add(typeName(type)));
    const writer = new FunctionWriter(this, locals, { base: get(base), shift: first, isInline: true });
    const { options: { chunk }, pause, source: { threads } } = this;
    const meeting = meetingCode({ thread: t, threads: threads.length, chunk, pause, locals: { i, turn, spin } });
    const code = [
      ...LOOP, ...get(i), ...i32(this.layout.stride), ...MUL, ...set(base),
      ...(hasCalls ? [...get(base), ...globalSet(this.baseGlobal)] : []),
      ...this.fresh(thread, first, own), ...meeting,
      0x02, ...this.blockType(thread.results), ...writer.all(body.items), ...END,
      ...[...registers].reverse().flatMap(set),
      ...this.storedAll(t, i, registers),
      ...get(i), ...i32(1), ...ADD, ...tee(i), ...get(0), ...LT_U, ...branchIf(0), ...END,
    ];
    return bodyOf(locals.groups(1), code);
  }

  /**
   * A function that a start may call.
   *
   * @param {any} body
   * @param {number} index
   */
  called(body, index) {
    const { module } = this.source;
    const { params } = module.types[module.functionTypes[index]];
    const own = [...params, ...body.locals.flatMap((/** @type {any} */ { count, type }) => Array(count).fill(type))];
    const locals = new Locals(own);
    const writer = new FunctionWriter(this, locals, { base: globalGet(this.baseGlobal), shift: 0, isInline: false });
    const code = writer.all(body.items);
    return bodyOf(locals.groups(params.length), code);
  }

  bytes() {
    const { module, threads, bodies } = this.source;
    const run = this.typeOf([I32], []), pause = this.typeOf([I32, I32], []), clear = pause;
    const loops = threads.map((_, t) => this.loop(t));
    const code = [...loops, pauseBody(), ...bodies.map((body, index) => this.called(body, index)), clearBody()];
    const kinds = [...threads.map(() => run), pause, ...module.functionTypes, clear];
    const exported = [...threads.map((_, t) => `run${t}`).entries(), [kinds.length - 1, 'clear']];
    const globals = module.globals.map((/** @type {any} */ { type, mutable, initial }) => (
      [type, mutable ? 1 : 0, ...constantOfType(type, constantOf(initial, module.globals)), CODE.end]));
    const memory = [...name('litmus'), ...name('memory'), KIND.memory, 3, 1, ...u32(65_536)];
    return Uint8Array.from([
      ...HEADER,
      ...section(SECTION.types, vector(this.types)),
      ...section(SECTION.imports, vector([memory])),
      ...section(SECTION.functions, vector(kinds.map(u32))),
      ...section(SECTION.globals, vector([...globals, [I32, 1, ...i32(0), CODE.end]])),
      ...section(SECTION.exports, vector(exported.map(([index, word]) => [...name(`${word}`), KIND.function, ...u32(Number(index))]))),
      ...section(SECTION.code, vector(code)),
    ]);
  }
}

/**
 * The looped module of a test as bytes, with its layout, its data segments, and where the final values are.
 *
 * @param {Test} test
 * @param {Partial<typeof DEFAULTS>} given
 */
export function loopedModule(test, given = {}) {
  const options = { ...DEFAULTS, ...given };
  const looped = new LoopedModule(test, options);
  const bytes = looped.bytes();
  const finals = test.finals.map(({ address, width }) => {
    const { base, first } = locationAt(looped.layout, address);
    return { at: base + address - first, width };
  });
  return { bytes, layout: looped.layout, finals, segments: looped.source.segments };
}

