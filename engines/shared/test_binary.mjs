/** Tests of the binary format: numbers, and where instructions end. */

import { Reader, s32, skipImmediates, u32 } from './binary.mjs';

/**
 * Numbers with their bytes, without a sign and as the immediate of an `i32.const`.
 *
 * @type {[number, number[]][]}
 */
const UNSIGNED = [
  [0, [0]], [127, [0x7f]], [128, [0x80, 1]], [16_383, [0xff, 0x7f]], [16_384, [0x80, 0x80, 1]], [0xffff_ffff, [0xff, 0xff, 0xff, 0xff, 0x0f]],
];
/** @type {[number, number[]][]} */
const SIGNED = [
  [0, [0]], [63, [0x3f]], [64, [0xc0, 0]], [-1, [0x7f]], [-64, [0x40]], [-65, [0xbf, 0x7f]], [8_191, [0xff, 0x3f]], [8_192, [0x80, 0xc0, 0]],
  [0x7fff_ffff, [0xff, 0xff, 0xff, 0xff, 7]], [-0x8000_0000, [0x80, 0x80, 0x80, 0x80, 0x78]], [0xffff_ffff, [0x7f]],
];

function testNumbers({ note }) {
  const isRead = ([value, bytes]) => {
    const reader = new Reader(Uint8Array.from([...bytes, 5]));
    return reader.u32() === value && reader.at === bytes.length;
  };
  const isPassed = ([, bytes]) => {
    const reader = new Reader(Uint8Array.from([...bytes, 5]));
    reader.skipNumber();
    return reader.at === bytes.length;
  };
  const unsigned = UNSIGNED.filter((row) => u32(row[0]).join() !== row[1].join() || !isRead(row) || !isPassed(row));
  const signed = SIGNED.filter((row) => s32(row[0]).join() !== row[1].join() || !isPassed(row));
  note(!unsigned.length && !signed.length, `${UNSIGNED.length + SIGNED.length} numbers of up to five bytes`, `${unsigned.join(' ')}; ${signed.join(' ')}`);
}

/** A number of two bytes. */
const NUMBER = [0x85, 0x00];

/** Instructions by their immediates. */
const IMMEDIATES = [
  [[], [0x00, 0x01, 0x05, 0x0b, 0x0f, 0x1a, 0x1b, 0x45, 0x8a, 0xa7, 0xad, 0xc0, 0xc4]],
  [NUMBER, [0x02, 0x03, 0x04, 0x0c, 0x0d, 0x10, 0x20, 0x21, 0x22, 0x23, 0x24, 0x41, 0x42]],
  [[0], [0x3f, 0x40]],
  [[2, ...NUMBER, 1, 3], [0x0e]],
];

function testImmediates({ note }) {
  const wrong = IMMEDIATES.flatMap(([bytes, codes]) => codes.filter((code) => {
    const reader = new Reader(Uint8Array.from([...bytes, 0x85, 0x85]));
    skipImmediates(reader, code);
    return reader.at !== bytes.length;
  }));
  note(!wrong.length, 'the immediates of instructions are passed over', wrong.map((code) => code.toString(16)).join());
}

export function testBinary(context) {
  testNumbers(context);
  testImmediates(context);
}
