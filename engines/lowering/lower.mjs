/** Brings a module that a compiler made into the part of WebAssembly that `wmlab` takes, and reports each change. */

import { UserError } from '../shared/errors.mjs';
import { HEADER, SECTION, name, section, u32, vector } from '../shared/binary.mjs';
import {
  UNREACHABLE_BODY, call, constant, constantOfType, copyBody, dispatchBody, entryBody, fillBody, signExtension,
} from './assembly.mjs';
import { carried, integerType, isFloatType, softFloat } from './floats.mjs';
import { FurtherPages, PAGE_BYTES, entriesOf } from './further_pages.mjs';
import { GROW, WORD_BYTES, failedGrowth, growBody, sizeFromWord } from './growth.mjs';
import { CODE, beginsBlock, isFloat, nameOf } from './instructions.mjs';
import { FLAG_WHEN_FILLED, linkerMemory } from './linker_memory.mjs';
import { KIND, TYPE, constantOf, readModule } from './module.mjs';
import { LIMITS, blockType, refusal, refusalsOf, tooMany } from './refusals.mjs';
import { functionsWithStack, stackPointer } from './stacks.mjs';
import { calledFunctions, tableOf, targetsOf, unknownTable } from './tables.mjs';
import { BLOCK_ALIGNMENT, initializers, threadLocals } from './thread_locals.mjs';
import { WAITING_NOTE, isWaiting, waitingFunction } from './waiting.mjs';

/** A module has parts without a lowering: `refusals` lists them all. */
export class Refused extends UserError {
  constructor(refusals) {
    super(`${refusals.length} unsupported`);
    this.refusals = refusals;
  }
}

/** The function types of the lowered module, each once. */
class Types {
  list = [];

  /** The number of a type, whose floats become integers. */
  number(params, results) {
    const bytes = [0x60, ...vector(params.map(integerType)), ...vector(results.map(integerType))];
    const known = this.list.findIndex((other) => other.join() === bytes.join());
    return known < 0 ? this.list.push(bytes) - 1 : known;
  }
}

/** The functions that the lowered module has in addition, each under a key. */
class AddedFunctions {
  constructor(first, types) {
    this.first = first;
    this.types = types;
    this.list = [];
    this.numbers = new Map();
  }

  add({ params, results }, bytes) {
    return this.first + this.list.push({ type: this.types.number(params, results), bytes }) - 1;
  }

  /** The number of the function of a key, which is made if it is the first one of the key. */
  once(key, type, makeBytes) {
    if (!this.numbers.has(key)) this.numbers.set(key, this.add(type, makeBytes()));
    return this.numbers.get(key);
  }
}

const THREE_OPERANDS = { params: [TYPE.i32, TYPE.i32, TYPE.i32], results: [] };

class Lowering {
  constructor(module, options) {
    this.module = module;
    this.options = options;
    this.changes = [];
    this.types = new Types();
    this.added = new AddedFunctions(module.bodies.length, this.types);
    this.linker = linkerMemory(module);
    this.start = this.linker ? null : module.start;
    this.table = tableOf(module);
    this.initializers = initializers(module);
    this.exported = module.exports.filter(({ kind, index }) => kind === KIND.function && !this.initializers.has(index));
    this.called = calledFunctions(module, this.table, this.exported, this.start);
    this.locals = threadLocals(module, this.linker, this.called);
    this.pages = module.memories[0]?.minimum ?? 0;
    this.further = new FurtherPages();
    this.blocks = [];
    /** @type {{ word: number, most: number } | null} */
    this.growth = null;
    /** @type {number[]} */
    this.stackUsers = [];
  }

  placeOf = (index) => {
    const known = this.module.names.functions.get(index)
      ?? this.module.exports.find((one) => one.kind === KIND.function && one.index === index)?.name;
    return `function ${index}${known === undefined ? '' : ` (${known})`}`;
  };

  note(place, text) {
    this.changes.push(`${place}: ${text}`);
  }

  typeOf(index) {
    return this.module.types[this.module.functionTypes[index]];
  }

  refuseWhatHasNoLowering() {
    const refusals = refusalsOf(this.module, this.called, this.placeOf, this.options);
    this.warnOfPlainAccesses();
    const unknown = this.usesTable() ? unknownTable(this.module) : null;
    if (unknown) refusals.push(refusal('Table', 'module', unknown));
    if (refusals.length) throw new Refused(refusals);
  }

  /** A compiler that made atomic accesses plain ones leaves no trace in a linked module but this one. */
  warnOfPlainAccesses() {
    if (!this.uses((code) => code >= 0xfe00)) {
      this.note('warning: module', 'no atomic access; the compiler may have made them plain ones');
    }
  }

  /** Whether a function that can be called has an instruction of which this holds. */
  uses(holds) {
    return [...this.called].some((index) => this.module.bodies[index].instructions.some(({ code }) => holds(code)));
  }

  usesTable() {
    return this.uses((code) => code === CODE.callIndirect);
  }

  /** What takes the place of an instruction, and how the report calls it; null if the instruction stays. */
  replacement(instruction) {
    const { code, args } = instruction;
    if (code === CODE.fence) return [[], 'dropped'];
    if (code >= 0xc0 && code <= 0xc4) return [signExtension(code), 'replaced by shifts'];
    if (code === CODE.memoryGrow) return this.grow();
    if (code === CODE.memorySize) return this.size();
    if (isWaiting(code)) return this.waiting(instruction);
    if (code === CODE.memoryCopy) return [call(this.added.once('copy', THREE_OPERANDS, copyBody)), 'replaced by a loop over bytes'];
    if (code === CODE.memoryFill) return [call(this.added.once('fill', THREE_OPERANDS, fillBody)), 'replaced by a loop over bytes'];
    if (code === CODE.callIndirect) return this.dispatch(args[0]);
    if (code === CODE.typedSelect) return [[CODE.select], 'replaced by select'];
    if (beginsBlock(code)) return this.block(instruction);
    return isFloat(code) ? carried(instruction, this.added) ?? softFloat(instruction, this.added) : null;
  }

  /** A block whose type has an index, or is a float. */
  block(instruction) {
    const { code, args } = instruction;
    const type = blockType(this.module, instruction);
    if (type) return [[code, integerType(type.results[0]) ?? 0x40], 'its type is written without an index'];
    const result = Number(BigInt.asUintN(7, args[0]));
    return isFloatType(result) ? [[code, integerType(result)], 'its type is that of the bits'] : null;
  }

  grow() {
    if (!this.growth) return [failedGrowth(this.pages), `made to fail: the memory has ${this.pages} pages for good`];
    const { growth, growth: { most } } = this;
    return [call(this.added.once('grow', GROW, () => growBody(growth))), `replaced by an atomic update (up to ${most} pages)`];
  }

  size() {
    if (this.growth) return [sizeFromWord(this.growth.word), 'replaced by an atomic load'];
    return this.further.pages ? [constant(this.pages), `replaced by ${this.pages}, without further pages`] : null;
  }

  waiting(instruction) {
    const { key, type, makeBytes, text } = waitingFunction(instruction);
    return [call(this.added.once(key, type, makeBytes)), text];
  }

  dispatch(typeIndex) {
    const { params, results } = this.module.types[typeIndex];
    const targets = targetsOf(this.module, this.table, typeIndex);
    const key = `dispatch ${params} to ${results}`;
    const type = { params: [...params, TYPE.i32], results };
    const number = this.added.once(key, type, () => dispatchBody(params.length, targets));
    return [call(number), `replaced by a chain of calls (functions: ${targets.length})`];
  }

  /** A function's body, with its size. */
  body(index) {
    const place = this.placeOf(index);
    if (!this.called.has(index)) {
      if (index !== this.linker?.start && !this.initializers.has(index)) this.note(place, 'never called; its body is replaced by unreachable');
      return UNREACHABLE_BODY;
    }
    const { locals, instructions } = this.module.bodies[index];
    const bytes = [...vector(locals.map(({ count, type }) => [...u32(count), integerType(type)]))];
    for (const [number, instruction] of instructions.entries()) {
      const replaced = this.replacement(instruction);
      if (replaced) this.note(`${place} instruction ${number}`, `${nameOf(instruction.code)} ${replaced[1]}`);
      for (const byte of replaced?.[0] ?? instruction.bytes) bytes.push(byte);
    }
    return [...u32(bytes.length), ...bytes];
  }

  /** The type of a function; one that is never called may have a type that `wmlab` does not take. */
  functionType(index) {
    const { params, results } = this.called.has(index) ? this.typeOf(index) : { params: [], results: [] };
    return this.types.number(params, results);
  }

  /** @param {number[]} users */
  warnOfUsers(users, text) {
    const [first, ...others] = users;
    const more = others.length ? ` and ${others.length} more` : '';
    this.note(`warning: ${this.placeOf(first)}${more}`, text);
  }

  /** What `auto` stands for: as many as there are of the other kind, or one for each export; nothing if none is needed. */
  resolveAuto() {
    const { stacks, tls } = this.options;
    const pointer = stackPointer(this.module);
    this.stackUsers = pointer === null ? [] : functionsWithStack(this.module, this.called, pointer);
    const resolved = (own, other, isNeeded) => (own !== 'auto' ? own : isNeeded ? (Number.isInteger(other) ? other : 'each') : null);
    this.options = {
      ...this.options, stacks: resolved(stacks, tls, this.stackUsers.length > 0), tls: resolved(tls, stacks, this.locals !== null),
    };
    return pointer;
  }

  /** The stack pointer, if each thread has a stack of its own; else null. */
  ownPointer(pointer) {
    if (this.options.stacks !== null) {
      if (pointer === null) throw new UserError('--stacks: the module has no stack pointer, so that its threads need no stacks');
      return pointer;
    }
    if (this.stackUsers.length) {
      this.warnOfUsers(this.stackUsers, 'the stack is used; all threads start with one; --stacks gives each its own');
    }
    return null;
  }

  /** How many blocks of thread-local variables are made. */
  blockCount(entryCount) {
    const { locals, options: { tls } } = this;
    if (tls !== null) {
      if (!locals) throw new UserError('--tls: the module has no thread-local variables');
      if (!locals.image) throw new UserError('--tls: the initial values of the thread-local variables are not found');
      return entryCount;
    }
    if (!locals) return 0;
    this.warnOfUsers(locals.users, 'thread-local variables; all threads share one block of them; --tls gives each its own');
    return locals.isPlaced || !locals.image ? 0 : 1;
  }

  /** Whether the memory grows: not if it is at its maximum, or if that is asked for. */
  grows() {
    const { minimum, maximum } = this.module.memories[0] ?? {};
    return this.uses((code) => code === CODE.memoryGrow) && this.options.growth && maximum !== minimum;
  }

  /** The pages that the program has in the end, in front of the further ones. */
  programPages() {
    if (!this.grows()) return this.pages;
    const most = Math.min(this.module.memories[0].maximum ?? LIMITS.pages, LIMITS.pages - this.further.pages);
    if (most > this.pages) return most;
    throw new Refused([refusal('Growth', 'module', `${this.pages} pages and ${this.further.pages} further ones leave no page to grow`)]);
  }

  /** Finds out what comes behind the program's pages; answers the exported functions as they are in the lowered module. */
  placeEntries() {
    const anyPointer = this.resolveAuto();
    const { stacks, stackBytes, tls } = this.options;
    const copies = copiesOf(stacks, tls);
    const entries = entriesOf(this.exported, copies);
    const count = copies || entries.length;
    const pointer = this.ownPointer(anyPointer);
    const stackPlace = pointer === null ? 0 : this.further.take(count * stackBytes);
    const blockCount = this.blockCount(count);
    const blockBytes = Math.ceil((this.locals?.image?.length ?? 0) / BLOCK_ALIGNMENT) * BLOCK_ALIGNMENT;
    const blockPlace = this.further.take(blockCount * blockBytes, BLOCK_ALIGNMENT);
    const wordPlace = this.grows() ? this.further.take(WORD_BYTES) : null;
    const pages = this.programPages();
    this.requirePages(pages);
    const base = pages * PAGE_BYTES;
    if (wordPlace !== null) this.growth = { word: base + wordPlace, most: pages };
    this.blocks = Array.from({ length: blockCount }, (_, block) => base + blockPlace + block * blockBytes);
    const topOf = ({ number }) => ({ global: pointer, address: base + stackPlace + stackBytes * (number + 1) });
    const blockOf = ({ number }) => ({ global: this.locals?.global, address: this.blocks[number] });
    return entries.map((entry) => this.notedEntry({
      ...entry, stack: pointer === null ? null : topOf(entry), block: tls === null ? null : blockOf(entry),
    }));
  }

  requirePages(programPages) {
    const pages = programPages + this.further.pages;
    if (pages <= LIMITS.pages) return;
    const parts = [
      ...(this.options.stacks === null ? [] : [`--stacks with ${this.options.stackBytes} bytes each`]),
      ...(this.locals ? [`${this.locals.image?.length ?? 0} bytes of thread-local variables each`] : []),
    ];
    throw new UserError(`${parts.join(' and ')}: they make ${pages} pages; expected at most ${LIMITS.pages}`);
  }

  notedEntry(entry) {
    const place = `export ${entry.name}`;
    if (entry.stack) this.note(place, `its stack begins at ${entry.stack.address}, ${this.options.stackBytes} bytes down`);
    if (entry.block) this.note(place, `its thread-local variables begin at ${entry.block.address}, ${this.locals?.image.length} bytes`);
    return entry;
  }

  /** The number of the function that an export names: one that sets globals or calls the start function first. */
  entry({ index, stack, block }) {
    const places = [stack, block].filter((place) => place !== null);
    if (!places.length && this.start === null) return index;
    const type = this.typeOf(index);
    return this.added.add(type, entryBody({ parameterCount: type.params.length, target: index, start: this.start, places }));
  }

  exports(functions) {
    const made = functions.map((one) => [...name(one.name), KIND.function, ...u32(this.entry(one))]);
    for (const { name: exported, kind, index } of this.module.exports) {
      if (kind === KIND.memory || kind === KIND.global) made.push([...name(exported), kind, ...u32(index)]);
      else if (kind !== KIND.function) this.note(`export ${exported}`, 'dropped, since it is a table or a tag');
    }
    for (const { name: exported, index } of functions) {
      const { params, results } = this.typeOf(index);
      if ([...params, ...results].some(isFloatType)) this.note(`export ${exported}`, 'its floats are given as their bits');
    }
    for (const index of this.initializers) this.note(this.placeOf(index), 'it initializes thread-local variables, dropped');
    if (this.start !== null) this.note(this.placeOf(this.start), 'start function; each exported function calls it first');
    return made;
  }

  limits({ shared, minimum, maximum }) {
    const pages = (this.growth?.most ?? minimum) + this.further.pages;
    const most = this.growth ? pages : Math.max(maximum ?? pages, pages);
    if (!shared) this.note('memory', `made shared (maximum pages: ${most})`);
    if (pages > minimum) this.note('memory', `${pages} initial pages instead of ${minimum}; the last ${this.further.pages} are further ones`);
    if (this.growth) this.note('memory', `accesses from page ${minimum} up to page ${pages} do not trap before the memory grows`);
    return [3, ...u32(pages), ...u32(most)];
  }

  /** The initial memory of what is behind the program's pages, as `[address, bytes]`. */
  furtherSegments() {
    const word = this.growth ? [[this.growth.word, [this.pages]]] : [];
    return [...this.blocks.map((address) => [address, this.locals?.image]), ...word];
  }

  /** The active segments, as `[address, bytes]`. */
  segments() {
    const { data, globals } = this.module;
    const placed = data.map(({ offset, bytes }) => [offset && Number(constantOf(offset, globals)), bytes]);
    for (const [index, [address]] of placed.entries()) {
      const taken = this.linker?.segments.find(({ segment }) => segment === index);
      if (taken) placed[index][0] = taken.address;
      if (address === null) this.note(`data segment ${index}`, this.endingOf(data[index], taken));
    }
    if (this.linker) {
      this.note(
        this.placeOf(this.linker.start),
        "start function of the linker, dropped: the memory is filled before each thread's start",
      );
      placed.push([this.linker.flag, FLAG_WHEN_FILLED]);
    }
    return [...placed.filter(([address]) => address !== null), ...this.furtherSegments()];
  }

  /** What becomes of a passive segment. */
  endingOf({ bytes }, taken) {
    if (taken) return `passive, made active at ${taken.address}`;
    return bytes === this.locals?.image ? 'the initial values of thread-local variables, copied to each block' : 'passive and not used, dropped';
  }

  /** A global. The base of thread-local variables is set by each entry, or it is the one block that all threads share. */
  global({ type, mutable, initial }, index) {
    const isBase = index === this.locals?.global && this.blocks.length > 0;
    const value = isBase ? BigInt(this.blocks[0]) : constantOf(initial, this.module.globals);
    const kind = integerType(type);
    return [kind, mutable || isBase ? 1 : 0, ...constantOfType(kind, value), CODE.end];
  }

  /** A memory at its own maximum never grows, before and after; whoever linked it so may not know. */
  warnOfFullMemory() {
    const isFull = this.uses((code) => code === CODE.memoryGrow) && !this.growth && this.options.growth;
    if (isFull) this.note('warning: memory', `memory.grow always fails, since the module's own maximum is its size (pages: ${this.pages})`);
  }

  noteWaiting() {
    if (this.uses(isWaiting)) this.note('module', WAITING_NOTE);
  }

  noteTable() {
    const ending = this.usesTable() ? 'dropped: its calls are direct' : 'not used, dropped';
    for (const index of this.module.tables.keys()) this.note(`table ${index}`, ending);
  }

  /** The sections of the lowered module. Types come last, since all parts may add some. */
  bytes() {
    const { module } = this;
    this.refuseWhatHasNoLowering();
    const functions = this.placeEntries();
    const bodies = module.bodies.map((_, index) => this.body(index));
    const kinds = module.bodies.map((_, index) => u32(this.functionType(index)));
    const exported = this.exports(functions);
    this.noteTable();
    this.noteWaiting();
    this.warnOfFullMemory();
    const isImported = module.imports.length > 0;
    const memories = module.memories.map((memory) => this.limits(memory));
    const imports = isImported ? [[...name(module.imports[0].module), ...name(module.imports[0].name), KIND.memory, ...memories[0]]] : [];
    const globals = module.globals.map((global, index) => this.global(global, index));
    const data = this.segments().map(([address, bytes]) => [0, ...constant(address), CODE.end, ...u32(bytes.length), ...bytes]);
    const total = bodies.length + this.added.list.length;
    if (total > LIMITS.functions) throw new Refused([refusal('Functions', 'lowered module', tooMany(total, LIMITS.functions, 'functions'))]);
    const parts = [
      [SECTION.types, this.types.list], [SECTION.imports, imports],
      [SECTION.functions, [...kinds, ...this.added.list.map(({ type }) => u32(type))]],
      [SECTION.memories, isImported ? [] : memories], [SECTION.globals, globals], [SECTION.exports, exported],
      [SECTION.code, [...bodies, ...this.added.list.map(({ bytes }) => bytes)]], [SECTION.data, data],
    ];
    const sections = parts.filter(([, items]) => items.length).flatMap(([id, items]) => section(id, vector(items)));
    const names = module.nameSection ? section(0, [...name('name'), ...module.nameSection]) : [];
    return Uint8Array.from([...HEADER, ...sections, ...names]);
  }
}

/** How many copies of each export there are, which stacks and thread-local variables have in common; 0 for the exports alone. */
function copiesOf(stacks, tls) {
  if (stacks !== null && tls !== null && stacks !== tls) {
    throw new UserError(`--stacks ${stacks} and --tls ${tls}: expected the same, since a thread has one number`);
  }
  const copies = stacks ?? tls;
  return copies === null || copies === 'each' ? 0 : copies;
}

export const DEFAULTS = { stacks: null, stackBytes: 4_096, tls: null, growth: true, softFloats: false };

/**
 * The lowered module and the changes, one string for each. `stacks` is null, `'each'` (each exported function has a stack of
 * its own), how many copies of each exported function there are, with a stack for each, or `'auto'` (`'each'`, or as many as
 * `tls` is, if the stack is used). `tls` is the same for blocks of thread-local variables. Without `growth` the memory never grows. With `softFloats` there may be arithmetic of floats.
 */
export function lower(bytes, options = {}) {
  const lowering = new Lowering(readModule(bytes), { ...DEFAULTS, ...options });
  return { bytes: lowering.bytes(), changes: lowering.changes };
}
