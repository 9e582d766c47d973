/** The functions that a module which records itself has in addition: one for each kind of access, and one for each start. */

import { s32, u32 } from '../shared/binary.mjs';
import { opcode, operandsOf, reads } from '../shared/accesses.mjs';
import { EVENT, HEADER, KIND, MAGIC, MOST_THREADS, THREAD, VERSION } from './layout.mjs';

const I32 = 0x7f, I64 = 0x7e;
const EMPTY = 0x40;
const typeByte = (type) => (type === 'i64' ? I64 : I32);
const align = (width) => Math.log2(width);

const get = (local) => [0x20, ...u32(local)];
const set = (local) => [0x21, ...u32(local)];
const tee = (local) => [0x22, ...u32(local)];
const getGlobal = (global) => [0x23, ...u32(global)];
const setGlobal = (global) => [0x24, ...u32(global)];
export const i32 = (value) => [0x41, ...s32(value)];
const i64 = (value) => [0x42, ...s32(value)];
const load = (offset) => [0x28, 2, ...u32(offset)];
const store = (offset) => [0x36, 2, ...u32(offset)];
const storeLong = (offset) => [0x37, 3, ...u32(offset)];
const when = (...code) => [0x04, EMPTY, ...code.flat(), 0x0b];
const UNREACHABLE = 0x00, DROP = 0x1a, IS_ZERO = 0x45, EQUAL = 0x46, AT_LEAST = 0x4f, ADD = 0x6a, MULTIPLY = 0x6c, AND = 0x71;
const SHIFT_LEFT = 0x74, I64_EQUAL = 0x51, I64_GREATER = 0x56, I64_ADD = 0x7c, I64_AND = 0x83, I32_WRAP = 0xa7, I64_EXTEND = 0xad;

/** A function body with its size; `locals` are types. */
function body(locals, ...code) {
  const entries = [...u32(locals.length), ...locals.flatMap((type) => [1, type])];
  const bytes = [...entries, ...code.flat(), 0x0b];
  return [...u32(bytes.length), ...bytes];
}

/** Waits for the lock: a compare-exchange until it finds 0. */
const lock = ({ base }) => [0x03, EMPTY, ...i32(0), ...i32(0), ...i32(1), 0xfe, 0x48, 2, ...u32(base + HEADER.lock), 0x0d, 0, 0x0b];
const unlock = ({ base }) => [...i32(0), ...i32(0), 0xfe, 0x17, 2, ...u32(base + HEADER.lock)];

/** A load of the given number of bytes as an unsigned i64. */
const LOADS = { 1: 0x31, 2: 0x33, 4: 0x35, 8: 0x29 };
const loadLong = (width) => [LOADS[width], 0, 0];

/** The mask of a width as an i64 constant; none is needed for 8 bytes. */
const MASKS = { 1: [0x42, 0xff, 1], 2: [0x42, 0xff, 0xff, 3], 4: [0x42, 0xff, 0xff, 0xff, 0xff, 0x0f] };
const masked = (access) => [
  ...(access.type === 'i32' ? [I64_EXTEND] : []), ...(access.width < 8 ? [...MASKS[access.width], I64_AND] : []),
];

/** What traps in every memory as out of bounds. */
const TRAP_OUT_OF_BOUNDS = [...i32(-1), 0x2d, 0, ...u32(0xffff_ffff), DROP];

const shadowOf = (local, k, { shadow }) => ({ place: [...get(local), ...i32(2), SHIFT_LEFT], offset: shadow + 4 * k });

/** The numbers of a function's locals: its operands, and those that it has in addition. */
function localsOf(access) {
  const operands = operandsOf(access).length;
  const [offset, address, entry, row, read, written, long, result] = Array.from({ length: 8 }, (_, k) => k + 1 + operands);
  const types = [I32, I32, I32, I64, I64, I64, typeByte(access.type)];
  return { operands, offset, address, entry, row, read, written, long, result, types };
}

/** The access by the instruction itself, at the effective address; its result, if it has one, is left on the stack. */
const natively = (access, local) => [
  ...get(local.address), ...Array.from({ length: local.operands }, (_, k) => get(k + 1)).flat(),
  ...opcode(access), access.atomic ? align(access.width) : 0, 0,
];

/** Computes the effective address; an access that traps does so here, before the lock is taken. */
function effectiveAddress(access, local, layout) {
  const isUnaligned = [...get(local.address), ...i32(access.width - 1), AND];
  const trapUnaligned = [...isUnaligned, ...when(natively(access, local), reads(access) ? [DROP] : [])];
  return [
    ...get(0), I64_EXTEND, ...get(local.offset), I64_EXTEND, I64_ADD, ...tee(local.long),
    ...i64(access.width), I64_ADD, ...i64(layout.base), I64_GREATER, ...when(TRAP_OUT_OF_BOUNDS),
    ...get(local.long), I32_WRAP, ...set(local.address),
    ...(access.atomic && access.width > 1 ? trapUnaligned : []),
  ];
}

/** Takes the next event; a thread that finds none left ends before its access. */
const takeEvent = (local, layout) => [
  ...i32(0), ...load(layout.base + HEADER.events), ...tee(local.entry), ...i32(layout.capacity), EQUAL,
  ...when(unlock(layout), [UNREACHABLE]),
  ...get(local.entry), ...i32(EVENT.bytes), MULTIPLY, ...set(local.row),
];

/** Stores a field of the event, whose offset is in the local `row`. */
const field = (local, layout, offset, value, storing = store) => [...get(local.row), ...value, ...storing(layout.events + offset)];

const noteWriters = (access, local, layout) => Array.from({ length: access.width }, (_, k) => {
  const { place, offset } = shadowOf(local.address, k, layout);
  return field(local, layout, EVENT.writers + 4 * k, [...place, ...load(offset)]);
}).flat();

const noteAsWriter = (access, local, layout) => Array.from({ length: access.width }, (_, k) => {
  const { place, offset } = shadowOf(local.address, k, layout);
  return [...place, ...get(local.entry), ...i32(1), ADD, ...store(offset)];
}).flat();

/** The word of an event's kind: the kind, whether the access is atomic, the width. */
const kindWord = (access, kind) => kind + 256 * Number(access.atomic) + 65_536 * access.width;

/** Stores the kind of the event and, unless it is a read, its place as the writer of its bytes. */
function noteKind(access, local, layout) {
  const write = (kind) => [
    ...field(local, layout, EVENT.kind, i32(kindWord(access, kind))), ...(kind === KIND.read ? [] : noteAsWriter(access, local, layout)),
  ];
  if (access.kind === 'load') return write(KIND.read);
  if (access.kind === 'store') return write(KIND.write);
  if (access.kind === 'update') return write(KIND.update);
  // A compare-exchange that fails is a read.
  const expected = [...get(1), ...masked(access)];
  return [...get(local.read), ...expected, I64_EQUAL, 0x04, EMPTY, ...write(KIND.update), 0x05, ...write(KIND.read), 0x0b];
}

/**
 * The function that makes an access and records it: `(address, operands.., offset)` with the result of the access. All of it
 * happens under the lock. The value written is what is in the memory after it.
 */
export function accessBody(access, layout, threadGlobal) {
  const local = localsOf(access);
  const made = reads(access)
    ? [...natively(access, local), ...tee(local.result), ...masked(access), ...set(local.read)] : natively(access, local);
  const written = access.kind === 'load' ? [] : [...get(local.address), ...loadLong(access.width), ...set(local.written)];
  return body(local.types,
    effectiveAddress(access, local, layout),
    lock(layout),
    takeEvent(local, layout),
    reads(access) ? noteWriters(access, local, layout) : [],
    made, written,
    field(local, layout, EVENT.thread, getGlobal(threadGlobal)),
    field(local, layout, EVENT.address, get(local.address)),
    field(local, layout, EVENT.read, get(local.read), storeLong),
    field(local, layout, EVENT.written, get(local.written), storeLong),
    noteKind(access, local, layout),
    i32(0), get(local.entry), i32(1), [ADD], store(layout.base + HEADER.events),
    unlock(layout),
    reads(access) ? get(local.result) : []);
}

/** Stores the bytes of a data segment, 4 at a time as far as they go. */
function storeBytes(address, bytes) {
  const code = [];
  let at = 0;
  for (; at + 4 <= bytes.length; at += 4) {
    const word = bytes[at] | (bytes[at + 1] << 8) | (bytes[at + 2] << 16) | (bytes[at + 3] << 24);
    code.push(...i32(address + at), ...i32(word), 0x36, 0, 0);
  }
  for (; at < bytes.length; at++) code.push(...i32(address + at), ...i32(bytes[at]), 0x3a, 0, 0);
  return code;
}

/**
 * The function that begins a thread: it takes the next thread's number, and the first thread fills the memory and the header.
 * `segments` are `[address, bytes]`. It takes the number of the start + 1.
 */
export function registerBody(layout, threadGlobal, segments) {
  const { base, pages, capacity } = layout;
  const header = [[HEADER.version, VERSION], [HEADER.pages, pages], [HEADER.capacity, capacity], [HEADER.magic, MAGIC]];
  const fill = [
    ...segments.flatMap(([address, bytes]) => storeBytes(address, bytes)),
    ...header.flatMap(([offset, value]) => [...i32(0), ...i32(value), ...store(base + offset)]),
  ];
  return body([],
    lock(layout),
    i32(0), load(base + HEADER.threads), setGlobal(threadGlobal),
    getGlobal(threadGlobal), [IS_ZERO], when(fill),
    getGlobal(threadGlobal), i32(MOST_THREADS), [AT_LEAST], when(unlock(layout), [UNREACHABLE]),
    i32(0), getGlobal(threadGlobal), i32(1), [ADD], store(base + HEADER.threads),
    rowOf(threadGlobal), get(0), store(base + THREAD.first + THREAD.start),
    unlock(layout));
}

const rowOf = (threadGlobal) => [...getGlobal(threadGlobal), ...i32(THREAD.bytes), MULTIPLY];
const asLong = (type) => (type === I64 ? [] : [I64_EXTEND]);

/** An exported function: it begins a thread, stores its arguments, calls the function and stores its result. */
export function startBody({ number, params, results, target, register, layout, threadGlobal }) {
  const row = layout.base + THREAD.first;
  const result = params.length;
  const args = params.flatMap((type, k) => [
    ...rowOf(threadGlobal), ...get(k), ...asLong(type), ...storeLong(row + THREAD.arguments + 8 * k),
  ]);
  const storeResult = results.length
    ? [...set(result), ...rowOf(threadGlobal), ...get(result), ...asLong(results[0]), ...storeLong(row + THREAD.result)] : [];
  return body(results.slice(0, 1),
    i32(number + 1), [0x10, ...u32(register)], args,
    params.flatMap((_, k) => get(k)), [0x10, ...u32(target)], storeResult,
    rowOf(threadGlobal), i32(1), store(row + THREAD.isDone),
    results.length ? get(result) : []);
}

/** A call that ends the thread if 256 calls are active, as in the profile; `depth` counts them. */
export function countedCall(index, depth) {
  const add = (amount) => [...getGlobal(depth), ...i32(amount), ADD, ...setGlobal(depth)];
  return [...getGlobal(depth), ...i32(256), AT_LEAST, ...when([UNREACHABLE]), ...add(1), 0x10, ...u32(index), ...add(-1)];
}
