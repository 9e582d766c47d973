/** Arithmetic of floats by integer functions: each instruction before and after the lowering, on random operands. */

import { u32 } from '../shared/binary.mjs';
import { nameOf } from './instructions.mjs';
import { lower } from './lower.mjs';
import { moduleOf } from './test_modules.mjs';

const I32 = 0x7f, I64 = 0x7e, F32 = 0x7d, F64 = 0x7c;
const range = (first, last) => Array.from({ length: last - first + 1 }, (_, place) => first + place);
const rows = (codes, params, result) => codes.map((code) => ({ code, params, result }));

/** Each instruction of floats: its code, the types of its operands and of its result. */
const INSTRUCTIONS = [
  ...rows(range(0x5b, 0x60), [F32, F32], I32), ...rows(range(0x61, 0x66), [F64, F64], I32),
  ...rows(range(0x8b, 0x91), [F32], F32), ...rows(range(0x92, 0x98), [F32, F32], F32),
  ...rows(range(0x99, 0x9f), [F64], F64), ...rows(range(0xa0, 0xa6), [F64, F64], F64),
  ...rows([0xa8, 0xa9, 0xfc00, 0xfc01], [F32], I32), ...rows([0xaa, 0xab, 0xfc02, 0xfc03], [F64], I32),
  ...rows([0xae, 0xaf, 0xfc04, 0xfc05], [F32], I64), ...rows([0xb0, 0xb1, 0xfc06, 0xfc07], [F64], I64),
  ...rows([0xb2, 0xb3], [I32], F32), ...rows([0xb4, 0xb5], [I64], F32), ...rows([0xb6], [F64], F32),
  ...rows([0xb7, 0xb8], [I32], F64), ...rows([0xb9, 0xba], [I64], F64), ...rows([0xbb], [F32], F64),
];

const BITS_TYPE = new Map([[F32, I32], [F64, I64], [I32, I32], [I64, I64]]);
/** What makes a float of its bits, and bits of a float. */
const FROM_BITS = new Map([[F32, [0xbe]], [F64, [0xbf]]]);
const TO_BITS = new Map([[F32, [0xbc]], [F64, [0xbd]]]);
const fromBits = (type) => FROM_BITS.get(type) ?? [];
const toBits = (type) => TO_BITS.get(type) ?? [];
const opcode = (code) => (code > 0xff ? [code >> 8, ...u32(code & 0xff)] : [code]);

/** A module with a function for each instruction, of the bits of its operands, under its name. */
export function floatModule() {
  const signatures = INSTRUCTIONS.map(({ params, result }) => (
    [0x60, params.length, ...params.map((type) => BITS_TYPE.get(type)), 1, BITS_TYPE.get(result)]));
  return moduleOf({
    types: signatures,
    functions: INSTRUCTIONS.map(({ code, params, result }, place) => ({
      type: place, exported: nameOf(code),
      code: [...params.flatMap((type, local) => [0x20, local, ...fromBits(type)]), ...opcode(code), ...toBits(result)],
    })),
  });
}

/** Exponents and fractions near which arithmetic behaves differently. */
const FORMATS = new Map([[F32, { exponents: 255, fraction: 23 }], [F64, { exponents: 2047, fraction: 52 }]]);

/** Bits of a float: of any bits, or of chosen exponents and fractions. `near` is another operand, or null. */
function randomFloat(type, random, near) {
  const { exponents, fraction } = /** @type {{ exponents: number, fraction: number }} */ (FORMATS.get(type));
  const width = type === F32 ? 32n : 64n;
  const any = BigInt.asUintN(Number(width), (BigInt(random()) << 32n) | BigInt(random()));
  const way = random() % 8;
  if (way === 0) return any;
  if (way === 1 && near !== null) return BigInt.asUintN(Number(width), near + BigInt(random() % 5) - 2n);
  const bias = (exponents - 1) / 2;
  const exponent = [
    0, 1, exponents, exponents - 1, bias, bias + random() % 70, bias - random() % 70, random() % (exponents + 1),
  ][random() % 8];
  const ones = (1n << BigInt(fraction)) - 1n;
  const kept = [0n, 1n, ones, ones - 1n, 1n << BigInt(fraction - 1), any & ones, any & (ones << BigInt(random() % fraction)) & ones][random() % 7];
  return (BigInt(random() % 2) << (width - 1n)) | (BigInt(exponent) << BigInt(fraction)) | kept;
}

function randomInteger(type, random) {
  const bits = type === I32 ? 32 : 64;
  const any = (BigInt(random()) << 32n) | BigInt(random());
  return BigInt.asUintN(bits, random() % 2 ? any >> BigInt(random() % 64) : (1n << BigInt(random() % 64)) + BigInt(random() % 3) - 1n);
}

const isNan = (type, bits) => (type === F32 ? (bits & 0x7fffffffn) > 0x7f800000n : (bits & (2n ** 63n - 1n)) > 0x7ff0000000000000n);

/** What a function answers, as bits: every NaN is the same one, and every trap. */
function answerOf(call, args, { params, result }) {
  try {
    const given = args.map((value, place) => (BITS_TYPE.get(params[place]) === I32 ? Number(BigInt.asIntN(32, value)) : BigInt.asIntN(64, value)));
    const found = BigInt.asUintN(BITS_TYPE.get(result) === I32 ? 32 : 64, BigInt(call(...given)));
    return FORMATS.has(result) && isNan(result, found) ? 'NaN' : found;
  } catch (error) {
    if (!(error instanceof WebAssembly.RuntimeError)) throw error;
    return 'trap';
  }
}

/** The instructions whose NaN has its bits too: they are bit operations. */
const ON_BITS = new Set([0x8b, 0x8c, 0x98, 0x99, 0x9a, 0xa6]);

export function testSoftFloats({ note, runs }, random) {
  const native = floatModule();
  const instance = (bytes) => new WebAssembly.Instance(new WebAssembly.Module(bytes)).exports;
  const [before, after] = [instance(native), instance(lower(native, { softFloats: true }).bytes)];
  let wrong = 0, nans = 0;
  for (const instruction of INSTRUCTIONS) {
    const { code, params } = instruction;
    const name = nameOf(code);
    const result = ON_BITS.has(code) ? { ...instruction, result: BITS_TYPE.get(instruction.result) } : instruction;
    let difference = null;
    for (let number = 0; number < runs; number++) {
      const args = [];
      for (const type of params) args.push(FORMATS.has(type) ? randomFloat(type, random, args[0] ?? null) : randomInteger(type, random));
      const [one, other] = [before, after].map((exports) => answerOf(exports[name], args, result));
      if (one === 'NaN') nans++;
      if (one !== other) difference ??= `${name}(${args.map((value) => `0x${value.toString(16)}`).join(', ')}): ${one} before, ${other} after`;
    }
    if (difference) { wrong++; note(false, difference); }
  }
  note(!wrong && nans > 0, `${INSTRUCTIONS.length} instructions of floats, ${runs} random operands each: the same bits as in node (NaN: ${nans})`);
}
