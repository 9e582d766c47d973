/**
 * Rewrites a module so that its accesses can be recorded. Its memory becomes an import, and
 *
 * - in the style `hooked` each access becomes a call of a function `recorder.<access>(address, operands.., offset)`;
 * - in the style `noted` accesses stay as they are, each value that one reads goes through `recorder.note_<type>`, and each loop
 *   calls `recorder.rest` at its head.
 *
 * In both, a call while 256 calls are active ends the thread (V8 allows more), and so does a thread that enters too many
 * loops and functions without an end (`recorder.exhausted`, `recorder.tired`).
 */

import { HEADER, NotRecorded, OP, Reader, SECTION, name, s32, section, sectionsOf, skipImmediates, u32, vector } from './binary.mjs';
import { ACCESSES, accessOf, opcode, operandsOf, plainOf, reads, resultsOf } from './accesses.mjs';

const VALUE_TYPE = { i32: 0x7f, i64: 0x7e };
const FUNCTION = 0, MEMORY = 2;
const ACTIVE_CALLS = 256;
/** How many loops and functions a thread may enter. */
export const MOST_TURNS = 20_000;

const functionType = (params, results) => {
  const types = (list) => vector(list.map((type) => [VALUE_TYPE[type]]));
  return [0x60, ...types(params), ...types(results)];
};

/** The memory's limits as bytes of the module, and as numbers. */
function limitsOf(reader) {
  const at = reader.at;
  const flags = reader.byte();
  const initial = reader.u32();
  const maximum = flags & 1 ? reader.u32() : initial;
  return { bytes: [...reader.bytes.subarray(at, reader.at)], initial, maximum };
}

/** The memory, imported or not. Nothing else may be imported. */
function outside(sections) {
  /** @type {wmlab.ImportedMemory | null} */
  let memory = null;
  let isImported = false;
  const imports = sections.get(SECTION.imports)?.();
  for (let left = imports?.u32() ?? 0; left > 0; left--) {
    const module = imports.name();
    const item = imports.name();
    if (imports.byte() !== MEMORY) throw new NotRecorded('an import that is not a memory');
    memory = { module, name: item, ...limitsOf(imports) };
    isImported = true;
  }
  const own = sections.get(SECTION.memories)?.();
  if (own && own.u32() > 0) memory = { module: 'recorder', name: 'memory', ...limitsOf(own) };
  return { memory: memory ?? { module: 'recorder', name: 'memory', bytes: [3, 0, 0], initial: 0, maximum: 0 }, isImported };
}

/** The functions that are imported for the hooks, in the order in which they are first used. */
class Hooks {
  list = [];

  /** The number of the function with this name. */
  number(hookName, params, results) {
    let place = this.list.findIndex((hook) => hook.name === hookName);
    if (place < 0) place = this.list.push({ name: hookName, type: functionType(params, results) }) - 1;
    return place;
  }
}

/** Rewrites the code of a module's functions. */
class CodeRewriter {
  constructor({ hooks, style, wrong, shift, firstGlobal, limit }) {
    this.hooks = hooks;
    this.style = style;
    this.wrong = wrong;
    this.shift = shift;
    this.limit = limit;
    this.depth = firstGlobal;
    this.turns = firstGlobal + 1;
  }

  /** Adds to a global of the recorder's own. */
  add(global, amount) {
    return [OP.globalGet, ...u32(global), OP.i32Const, ...s32(amount), OP.i32Add, OP.globalSet, ...u32(global)];
  }

  /** Ends the thread by a hook that throws, if a global has reached a limit. */
  endAt(global, limit, hookName) {
    return [
      OP.globalGet, ...u32(global), OP.i32Const, ...s32(limit), OP.i32GeU, OP.if, OP.empty,
      OP.call, ...u32(this.hooks.number(hookName, [], [])), OP.end,
    ];
  }

  /** The code at the head of each loop and function. */
  turn() {
    return [...this.add(this.turns, 1), ...this.endAt(this.turns, this.limit, 'tired')];
  }

  /** The code at the head of each loop at which a thread that spins may rest. */
  rest() {
    return this.style === 'noted' ? [OP.call, ...u32(this.hooks.number('rest', [], []))] : [];
  }

  call(index) {
    return [
      ...this.endAt(this.depth, ACTIVE_CALLS, 'exhausted'),
      ...this.add(this.depth, 1), OP.call, ...u32(index + this.shift), ...this.add(this.depth, -1),
    ];
  }

  access(access, align, offset) {
    const isTorn = this.wrong === 'torn-store' && access.kind === 'store' && access.width > 1;
    if (this.style === 'hooked' || isTorn) {
      const hook = this.hooks.number(access.name, ['i32', ...operandsOf(access), 'i32'], resultsOf(access));
      return [OP.i32Const, ...s32(offset), OP.call, ...u32(hook)];
    }
    const made = this.wrong === 'plain-atomics' ? plainOf(access) : access;
    const code = [...opcode(made), ...u32(align), ...u32(offset)];
    if (!reads(access)) return code;
    const note = this.hooks.number(`note_${access.type}`, [access.type], [access.type]);
    return [...code, OP.call, ...u32(note)];
  }

  /** The next instruction, rewritten. */
  instruction(reader) {
    const at = reader.at;
    const first = reader.byte();
    const code = first === OP.atomic ? 0xfe00 + reader.u32() : first;
    const access = accessOf(code);
    if (access) return this.access(access, reader.u32(), reader.u32());
    if (first === OP.atomic) throw new NotRecorded(`opcode fe ${(code & 0xff).toString(16)}`);
    if (first === OP.call) return this.call(reader.u32());
    skipImmediates(reader, first);
    const same = [...reader.bytes.subarray(at, reader.at)];
    return first === OP.loop ? [...same, ...this.turn(), ...this.rest()] : same;
  }

  /** A function's locals and code, with their size. */
  body(reader, end) {
    const start = reader.at;
    for (let left = reader.u32(); left > 0; left--) { reader.u32(); reader.byte(); }
    const code = [...reader.bytes.subarray(start, reader.at), ...this.turn()];
    while (reader.at < end) code.push(...this.instruction(reader));
    return [...u32(code.length), ...code];
  }

  all(reader) {
    const bodies = [];
    for (let left = reader?.u32() ?? 0; left > 0; left--) {
      const size = reader.u32();
      bodies.push(this.body(reader, reader.at + size));
    }
    return bodies;
  }
}

/** A section with items after its own. */
function longer(sections, id, items) {
  const reader = sections.get(id)?.();
  const count = reader?.u32() ?? 0;
  return [...u32(count + items.length), ...(reader?.rest() ?? []), ...items.flat()];
}

/** The exports with their new numbers, and which function each name is. */
function exportsOf(sections, shift) {
  const items = [];
  const functions = new Map();
  const reader = sections.get(SECTION.exports)?.();
  for (let left = reader?.u32() ?? 0; left > 0; left--) {
    const item = reader.name();
    const kind = reader.byte();
    const index = reader.u32();
    items.push([...name(item), kind, ...u32(kind === FUNCTION ? index + shift : index)]);
    if (kind === FUNCTION) functions.set(item, index);
  }
  return { items, functions };
}

/** The parameters of the exported functions, by name, each as `i32` or `i64`. */
function parametersOf(sections, functions) {
  const types = [];
  const typeReader = sections.get(SECTION.types)?.();
  const typeOf = (byte) => (byte === VALUE_TYPE.i64 ? 'i64' : 'i32');
  for (let left = typeReader?.u32() ?? 0; left > 0; left--) {
    typeReader.byte();
    types.push(typeReader.take(typeReader.u32()).map(typeOf));
    typeReader.take(typeReader.u32());
  }
  const indices = [];
  const functionReader = sections.get(SECTION.functions)?.();
  for (let left = functionReader?.u32() ?? 0; left > 0; left--) indices.push(functionReader.u32());
  return new Map([...functions].map(([item, index]) => [item, types[indices[index]]]));
}

/**
 * A module rewritten in a style, with what a recorder has to know of it: its memory (how it is imported, its limits), and
 * the parameters of its exported functions. With `wrong` the accesses of the style `noted` are made as a wrong engine makes them.
 */
export function rewrite(bytes, style, { wrong = null, turns = MOST_TURNS } = {}) {
  const sections = sectionsOf(bytes);
  const { memory, isImported } = outside(sections);
  const firstGlobal = sections.get(SECTION.globals)?.().u32() ?? 0;
  const hooks = new Hooks();
  const rewriter = (shift) => new CodeRewriter({ hooks, style, wrong, shift, firstGlobal, limit: turns });
  // The first pass finds out how many hooks there are, by which the functions' numbers are then shifted.
  rewriter(0).all(sections.get(SECTION.code)?.());
  const shift = hooks.list.length;
  const code = rewriter(shift).all(sections.get(SECTION.code)?.());

  const firstType = sections.get(SECTION.types)?.().u32() ?? 0;
  const imports = hooks.list.map((hook, k) => [...name('recorder'), ...name(hook.name), FUNCTION, ...u32(firstType + k)]);
  if (!isImported) imports.unshift([...name('recorder'), ...name('memory'), MEMORY, ...memory.bytes]);
  // The number of active calls, and that of the turns made.
  const own = [1, 0].map((start) => [VALUE_TYPE.i32, 1, OP.i32Const, ...s32(start), OP.end]);
  const exports = exportsOf(sections, shift);
  const copied = (id) => (sections.has(id) ? section(id, sections.get(id)().rest()) : []);
  const made = [
    ...HEADER,
    ...section(SECTION.types, longer(sections, SECTION.types, hooks.list.map((hook) => hook.type))),
    ...section(SECTION.imports, longer(sections, SECTION.imports, imports)),
    ...copied(SECTION.functions),
    ...section(SECTION.globals, longer(sections, SECTION.globals, own)),
    ...section(SECTION.exports, vector(exports.items)),
    ...copied(SECTION.dataCount),
    ...section(SECTION.code, vector(code)),
    ...copied(SECTION.data),
  ];
  return { bytes: Uint8Array.from(made), memory, parameters: parametersOf(sections, exports.functions) };
}

/** A module that makes each access natively, as an exported function of its name that takes address and operands. */
export function nativeAccesses(memory) {
  const body = (access) => {
    const operands = ['i32', ...operandsOf(access)].flatMap((_, k) => [OP.localGet, k]);
    const align = access.atomic ? Math.log2(access.width) : 0;
    const code = [0, ...operands, ...opcode(access), align, 0, OP.end];
    return [...u32(code.length), ...code];
  };
  return Uint8Array.from([
    ...HEADER,
    ...section(SECTION.types, vector(ACCESSES.map((access) => functionType(['i32', ...operandsOf(access)], resultsOf(access))))),
    ...section(SECTION.imports, vector([[...name('recorder'), ...name('memory'), MEMORY, ...memory.bytes]])),
    ...section(SECTION.functions, vector(ACCESSES.map((_, k) => u32(k)))),
    ...section(SECTION.exports, vector(ACCESSES.map((access, k) => [...name(access.name), FUNCTION, ...u32(k)]))),
    ...section(SECTION.code, vector(ACCESSES.map(body))),
  ]);
}
