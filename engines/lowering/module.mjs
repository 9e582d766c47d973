/** A module as data: its sections, read from its bytes. V8 has compiled the bytes before, so their form is right. */

import { HEADER, Reader, SECTION, sectionsOf } from '../shared/binary.mjs';
import { CODE, readExpression } from './instructions.mjs';

export const TYPE = { i32: 0x7f, i64: 0x7e, f32: 0x7d, f64: 0x7c, v128: 0x7b };
export const KIND = { function: 0, table: 1, memory: 2, global: 3 };
const ELEMENTS = 9, START = 8, TABLES = 4;

const list = (reader, item) => Array.from({ length: reader?.u32() ?? 0 }, (_, index) => item(reader, index));

function readType(reader) {
  reader.byte();
  return { params: list(reader, (types) => types.byte()), results: list(reader, (types) => types.byte()) };
}

function readLimits(reader) {
  const flags = reader.byte();
  const minimum = reader.u32();
  return { shared: (flags & 2) !== 0, minimum, maximum: flags & 1 ? reader.u32() : null };
}

const readTable = (reader) => ({ type: reader.byte(), ...readLimits(reader) });
const readGlobalType = (reader) => ({ type: reader.byte(), mutable: reader.byte() === 1 });

function readImport(reader) {
  const found = { module: reader.name(), name: reader.name(), kind: reader.byte() };
  if (found.kind === KIND.function) return { ...found, type: reader.u32() };
  if (found.kind === KIND.table) return { ...found, table: readTable(reader) };
  if (found.kind === KIND.memory) return { ...found, memory: readLimits(reader) };
  if (found.kind === KIND.global) return { ...found, global: readGlobalType(reader) };
  reader.byte();
  return { ...found, type: reader.u32() };
}

const readGlobal = (reader) => ({ ...readGlobalType(reader), initial: readExpression(reader) });
const readExport = (reader) => ({ name: reader.name(), kind: reader.byte(), index: reader.u32() });

/** The function that an element names, or null. */
/** @param {{ code: number, args: any }[]} instructions */
const elementOf = ([{ code, args }]) => (code === CODE.refFunc ? args[0] : null);

/** An element segment. Bit 0: passive or declarative; bit 1: has a table index, or declarative; bit 2: expressions. */
function readElements(reader) {
  const flags = reader.u32();
  const active = (flags & 1) === 0;
  if (active && flags & 2) reader.u32(); // the number of the table
  const offset = active ? readExpression(reader) : null;
  if (flags & 3) reader.byte();
  const functions = list(reader, (items) => (flags & 4 ? elementOf(readExpression(items)) : items.u32()));
  return { active, offset, functions };
}

function readData(reader) {
  const flags = reader.u32();
  if (flags & 2) reader.u32(); // the number of the memory
  const offset = flags & 1 ? null : readExpression(reader);
  return { offset, bytes: reader.take(reader.u32()) };
}

function readBody(reader) {
  const size = reader.u32();
  const end = reader.at + size;
  const locals = list(reader, (entries) => ({ count: entries.u32(), type: entries.byte() }));
  const instructions = readExpression(reader);
  reader.at = end;
  return { locals, instructions };
}

/** The custom sections by name, each with a reader of its contents. */
function customSections(bytes) {
  const found = new Map();
  const reader = new Reader(bytes, HEADER.length);
  while (reader.more) {
    const id = reader.byte();
    const size = reader.u32();
    const end = reader.at + size;
    if (id === 0) {
      const contents = new Reader(bytes, reader.at, end);
      found.set(contents.name(), contents);
    }
    reader.at = end;
  }
  return found;
}

/** The names of functions (subsection 1) and globals (subsection 7), by their numbers; both may be absent. */
function readNames(reader) {
  const names = { functions: new Map(), globals: new Map() };
  while (reader?.more) {
    const id = reader.byte();
    const size = reader.u32();
    const end = reader.at + size;
    const into = { 1: names.functions, 7: names.globals }[id];
    if (into) list(reader, (items) => into.set(items.u32(), items.name()));
    reader.at = end;
  }
  return names;
}

/** The features that the compiler states for the module, such as `+atomics`; null if it states none. */
const readFeatures = (reader) => (
  reader ? new Set(list(reader, (items) => String.fromCharCode(items.byte()) + items.name())) : null);

/** What takes the place of an imported function's body, which is never looked at as a body. */
const IMPORTED_BODY = { locals: [], instructions: [] };

/** All of a module. Functions, tables, memories and globals are numbered with the imported ones first. */
export function readModule(bytes) {
  const sections = sectionsOf(bytes);
  const customs = customSections(bytes);
  const all = (id, item) => list(sections.get(id)?.(), item);
  const imports = all(SECTION.imports, readImport);
  const imported = (kind, item) => imports.filter((one) => one.kind === kind).map(item);
  return {
    imports,
    types: all(SECTION.types, readType),
    functionTypes: [...imported(KIND.function, ({ type }) => type), ...all(SECTION.functions, (reader) => reader.u32())],
    bodies: [...imported(KIND.function, () => IMPORTED_BODY), ...all(SECTION.code, readBody)],
    tables: [...imported(KIND.table, ({ table }) => table), ...all(TABLES, readTable)],
    memories: [...imported(KIND.memory, ({ memory }) => memory), ...all(SECTION.memories, readLimits)],
    globals: [...imported(KIND.global, ({ global }) => ({ ...global, initial: null })), ...all(SECTION.globals, readGlobal)],
    exports: all(SECTION.exports, readExport),
    start: sections.get(START)?.().u32() ?? null,
    elements: all(ELEMENTS, readElements),
    data: all(SECTION.data, readData),
    names: readNames(customs.get('name')),
    nameSection: customSections(bytes).get('name')?.rest() ?? null,
    features: readFeatures(customs.get('target_features')),
  };
}

/** The bits of a float, the immediate of an `f32.const` or an `f64.const`. */
export const bitsOf = (bytes) => bytes.reduceRight((value, byte) => value * 256n + BigInt(byte), 0n);

/** The value of an initial expression, a float's bits, or null if it is not known before the module runs. */
export function constantOf(expression, globals) {
  if (expression === null) return null;
  const stack = [];
  const operate = (action, bits) => {
    const [right, left] = [stack.pop(), stack.pop()];
    stack.push(BigInt.asIntN(bits, action(left, right)));
  };
  const actions = [[CODE.i32Add, CODE.i64Add, (a, b) => a + b], [CODE.i32Sub, CODE.i64Sub, (a, b) => a - b],
    [CODE.i32Mul, CODE.i64Mul, (a, b) => a * b]];
  for (const { code, args } of expression) {
    const action = actions.find((row) => row.includes(code));
    if (code === CODE.i32Const || code === CODE.i64Const) stack.push(args[0]);
    else if (code === CODE.f32Const || code === CODE.f64Const) stack.push(bitsOf(args));
    else if (code === CODE.globalGet) stack.push(constantOf(globals[args[0]].initial, globals));
    else if (action) operate(action[2], code === action[0] ? 32 : 64);
    else if (code !== CODE.end) return null;
    if (stack.at(-1) === null) return null;
  }
  return stack[0];
}
