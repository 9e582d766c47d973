/**
 * Makes a module record itself: each access becomes a call of a function of its own that makes the access under a lock and
 * writes an event into the memory after the program's pages. The memory is imported, so that several instances share it.
 */

import { UserError } from '../shared/errors.mjs';
import { HEADER, SECTION, name, s32, section, u32, vector } from '../shared/binary.mjs';
import { accessOf, operandsOf, resultsOf } from '../shared/accesses.mjs';
import { CODE, featureOf, nameOf } from '../lowering/instructions.mjs';
import { KIND, TYPE, constantOf, readModule } from '../lowering/module.mjs';
import { constantOfType } from '../lowering/assembly.mjs';
import { layoutOf, MOST_ARGUMENTS } from './layout.mjs';
import { accessBody, countedCall, i32, registerBody, startBody } from './recording_code.mjs';

const typeByte = (type) => TYPE[type];

const NOT_TAKEN = new Set([
  CODE.callIndirect, CODE.typedSelect, CODE.memoryGrow, CODE.memoryCopy, CODE.memoryFill, CODE.fence, 0xc0, 0xc1, 0xc2, 0xc3, 0xc4,
]);

/** Refuses what `wmlab` does not take. */
function requireProfile(module) {
  const refuse = (what) => { throw new UserError(`${what}: lower the module first, by engines/lower`); };
  if (module.start !== null) refuse('a start function');
  if (module.imports.some(({ kind }) => kind !== KIND.memory)) refuse('an import that is not a memory');
  if (!module.memories[0]?.shared) refuse('a memory that is not there, or not shared');
  for (const [index, { instructions }] of module.bodies.entries()) {
    for (const [number, { code }] of instructions.entries()) {
      if (featureOf(code) || NOT_TAKEN.has(code)) refuse(`function ${index} instruction ${number}: ${nameOf(code)}`);
    }
  }
  for (const { index, kind, name: exported } of module.exports) {
    const type = module.types[module.functionTypes[index]];
    if (kind === KIND.function && type.params.length > MOST_ARGUMENTS) {
      throw new UserError(`export ${exported}: ${type.params.length} arguments; expected at most ${MOST_ARGUMENTS}`);
    }
  }
}

/** The functions that can be started, in the order of their exports, with their types. */
export function startsOf(module) {
  return module.exports.filter(({ kind }) => kind === KIND.function)
    .map(({ name: exported, index }) => ({ name: exported, index, ...module.types[module.functionTypes[index]] }));
}

class SelfRecording {
  constructor(module, capacity) {
    requireProfile(module);
    this.module = module;
    this.layout = layoutOf(module.memories[0].minimum, capacity);
    this.types = module.types.map(({ params, results }) => [0x60, ...u32(params.length), ...params, ...u32(results.length), ...results]);
    this.threadGlobal = module.globals.length;
    this.depthGlobal = module.globals.length + 1;
    this.added = [];
    this.helpers = new Map();
  }

  add(params, results, bytes) {
    const type = this.types.push([0x60, ...u32(params.length), ...params, ...u32(results.length), ...results]) - 1;
    return this.module.bodies.length + this.added.push({ type, bytes }) - 1;
  }

  /** The number of the function that makes an access. */
  helper(access) {
    if (!this.helpers.has(access.code)) {
      const params = ['i32', ...operandsOf(access), 'i32'].map(typeByte);
      const bytes = accessBody(access, this.layout, this.threadGlobal);
      this.helpers.set(access.code, this.add(params, resultsOf(access).map(typeByte), bytes));
    }
    return this.helpers.get(access.code);
  }

  instruction({ code, args, bytes }) {
    const access = accessOf(code);
    if (access) return [...i32(args[1]), CODE.call, ...u32(this.helper(access))];
    if (code === CODE.memorySize) return i32(this.layout.pages);
    return code === CODE.call ? countedCall(args[0], this.depthGlobal) : bytes;
  }

  body({ locals, instructions }) {
    const bytes = vector(locals.map(({ count, type }) => [...u32(count), type]));
    for (const instruction of instructions) for (const byte of this.instruction(instruction)) bytes.push(byte);
    return [...u32(bytes.length), ...bytes];
  }

  /** The exports: starts that begin a thread, and the memory with what is recorded. */
  exports() {
    const { module, layout, threadGlobal } = this;
    const segments = module.data.map(({ offset, bytes }) => [Number(constantOf(offset, module.globals)), bytes]);
    const register = this.add([TYPE.i32], [], registerBody(layout, threadGlobal, segments));
    const starts = startsOf(module).map(({ name: exported, index, params, results }, number) => {
      const code = startBody({ number, params, results, target: index, register, layout, threadGlobal });
      return [...name(exported), KIND.function, ...u32(this.add(params, results, code))];
    });
    const others = module.exports.filter(({ kind }) => kind === KIND.global || kind === KIND.memory)
      .map(({ name: exported, kind, index }) => [...name(exported), kind, ...u32(index)]);
    const hasMemory = module.exports.some(({ kind, name: exported }) => kind === KIND.memory || exported === 'memory');
    return [...starts, ...others, ...(hasMemory ? [] : [[...name('memory'), KIND.memory, 0]])];
  }

  bytes() {
    const { module, layout } = this;
    const bodies = module.bodies.map((one) => this.body(one));
    const exported = this.exports();
    const { module: from, name: item } = module.imports[0] ?? { module: 'env', name: 'memory' };
    const limits = [3, ...u32(layout.allPages), ...u32(layout.allPages)];
    const own = [0, 1].map((start) => [TYPE.i32, 1, CODE.i32Const, ...s32(start), CODE.end]);
    const globals = module.globals.map(({ type, mutable, initial }) => (
      [type, mutable ? 1 : 0, ...constantOfType(type, constantOf(initial, module.globals)), CODE.end]));
    const parts = [
      [SECTION.types, this.types], [SECTION.imports, [[...name(from), ...name(item), KIND.memory, ...limits]]],
      [SECTION.functions, [...module.functionTypes, ...this.added.map(({ type }) => type)].map(u32)],
      [SECTION.globals, [...globals, ...own]], [SECTION.exports, exported],
      [SECTION.code, [...bodies, ...this.added.map(({ bytes }) => bytes)]],
    ];
    return Uint8Array.from([...HEADER, ...parts.flatMap(([id, items]) => section(id, vector(items)))]);
  }
}

/** The module that records itself, the memory that it imports, and the layout of what it records. */
export function recordingModule(bytes, { capacity }) {
  const module = readModule(bytes);
  const made = new SelfRecording(module, capacity);
  const { module: from, name: item } = module.imports[0] ?? { module: 'env', name: 'memory' };
  return { bytes: made.bytes(), layout: made.layout, memory: { module: from, name: item } };
}
