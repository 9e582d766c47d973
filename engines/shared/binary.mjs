/**
 * The binary format of WebAssembly, as far as a rewriter needs it: numbers, names, sections, and where an instruction ends.
 * Bytes are plain arrays of numbers where they are made, and `Uint8Array`s where they are read.
 */

import { UserError } from './errors.mjs';

/** A part of a module that cannot be rewritten. */
export class NotRecorded extends UserError {
  constructor(what) {
    super(`${what} cannot be recorded`);
  }
}

/** Reads a part of a module from left to right. */
export class Reader {
  constructor(bytes, at = 0, end = bytes.length) {
    this.bytes = bytes;
    this.at = at;
    this.end = end;
  }

  /** Whether bytes are left. */
  get more() {
    return this.at < this.end;
  }

  byte() {
    return this.bytes[this.at++];
  }

  /** A number in LEB128, without a sign. */
  u32() {
    let value = 0;
    for (let shift = 0; ; shift += 7) {
      const byte = this.byte();
      value += (byte & 0x7f) * 2 ** shift;
      if (!(byte & 0x80)) return value;
    }
  }

  /** Passes over a number in LEB128, whatever its sign. */
  skipNumber() {
    while (this.byte() & 0x80);
  }

  take(count) {
    this.at += count;
    return [...this.bytes.subarray(this.at - count, this.at)];
  }

  name() {
    return new TextDecoder().decode(Uint8Array.from(this.take(this.u32())));
  }

  rest() {
    return this.take(this.end - this.at);
  }
}

/** A number in LEB128, without a sign. */
export function u32(value) {
  const bytes = [];
  do {
    const low = value % 128;
    value = Math.floor(value / 128);
    bytes.push(value ? low | 0x80 : low);
  } while (value);
  return bytes;
}

/** The immediate of an `i32.const`; the number is taken modulo 2^32. */
export function s32(value) {
  const bytes = [];
  for (let left = value | 0; ; ) {
    const low = left & 0x7f;
    left >>= 7;
    const last = (left === 0 && !(low & 0x40)) || (left === -1 && low & 0x40);
    bytes.push(last ? low : low | 0x80);
    if (last) return bytes;
  }
}

export function name(text) {
  const bytes = [...new TextEncoder().encode(text)];
  return [...u32(bytes.length), ...bytes];
}

export const vector = (items) => [...u32(items.length), ...items.flat()];
export const section = (id, content) => [id, ...u32(content.length), ...content];

/** What each module begins with: its magic number and its version. */
export const HEADER = [0x00, 0x61, 0x73, 0x6d, 1, 0, 0, 0];

/** The numbers of the sections. */
export const SECTION = {
  types: 1, imports: 2, functions: 3, memories: 5, globals: 6, exports: 7, code: 10, data: 11, dataCount: 12,
};

/** The sections of a module by their numbers, each as a function that gives a new reader; custom ones are left out. */
export function sectionsOf(bytes) {
  const sections = new Map();
  const reader = new Reader(bytes, HEADER.length);
  while (reader.more) {
    const id = reader.byte();
    const size = reader.u32();
    const at = reader.at;
    if (id !== 0) sections.set(id, () => new Reader(bytes, at, at + size));
    reader.at += size;
  }
  return sections;
}

/** The opcodes that a rewriter treats on their own. */
export const OP = {
  unreachable: 0x00, block: 0x02, loop: 0x03, if: 0x04, else: 0x05, end: 0x0b, branch: 0x0c, branchIf: 0x0d,
  branchTable: 0x0e, call: 0x10, localGet: 0x20, globalGet: 0x23, globalSet: 0x24, i32Const: 0x41, i64Const: 0x42,
  i32GeU: 0x4f, i32Add: 0x6a, atomic: 0xfe, empty: 0x40,
};

/** Passes over the immediates of an instruction that is neither an access nor prefixed. */
export function skipImmediates(reader, op) {
  if (op === OP.block || op === OP.loop || op === OP.if) reader.skipNumber();
  else if (op === OP.branch || op === OP.branchIf || op === OP.call) reader.u32();
  else if (op === OP.branchTable) for (let left = reader.u32() + 1; left > 0; left--) reader.u32();
  else if (op >= OP.localGet && op <= OP.globalSet) reader.u32();
  else if (op === 0x3f || op === 0x40) reader.byte();
  else if (op === OP.i32Const || op === OP.i64Const) reader.skipNumber();
  else if (op > 0xc4 || op === 0x11 || op === 0x43 || op === 0x44) throw new NotRecorded(`opcode ${op.toString(16)}`);
}
