/** Small modules that record themselves: each access, traps, arguments and calls, beside the log of the mode locked. */

import { moduleOf } from '../lowering/test_modules.mjs';
import { json } from '../shared/document.mjs';
import { UserError } from '../shared/errors.mjs';
import { parseStart } from '../shared/starts.mjs';
import { ADDRESSED, ADDRESSES, COUNTING, IMPORTED, PLACES, allAccesses, runAlone } from '../shared/test_modes.mjs';
import { readRecording } from './region.mjs';
import { recordingModule } from './rewrite.mjs';
import { runInOrder } from './test_recordings.mjs';

const I32 = 0x7f, I64 = 0x7e;
const MOST_EVENTS = 400;

/** A compare-exchange of fewer bytes than its type has is not taken by `wmlab`. */
const isTaken = ({ access: { code: [prefix, code] } }) => prefix !== 0xfe || code < 0x4a;
const TAKEN = PLACES.filter(isTaken);

/** Functions with arguments and results of both types, whose arguments are also in the memory. */
const TYPED = moduleOf({
  types: [[0x60, 2, I32, I64, 1, I64], [0x60, 2, I64, I32, 1, I32], [0x60, 1, I64, 0]],
  functions: [
    { code: [0x41, 0, 0x20, 0, 0x36, 2, 0, 0x20, 1], exported: 'long' },
    { code: [0x41, 8, 0x20, 0, 0x37, 3, 0, 0x20, 1], type: 1, exported: 'short' },
    { code: [0x41, 8, 0x20, 0, 0x37, 3, 0], type: 2, exported: 'none' },
  ],
});

const STARTS = /** @type {[Uint8Array, string][]} */ ([
  ...[{}, IMPORTED].map((more) => [allAccesses(TAKEN, more), 'a']),
  ...ADDRESSES.map(([word]) => [ADDRESSED, word]),
  ...['long:-1:-2', 'short:-3:-4', 'none:9'].map((word) => [TYPED, word]),
  ...['calls:255', 'calls:256'].map((word) => [COUNTING, word]),
]);

/** Whether a start has the same document as in the mode locked, and the same end if it was done. */
async function isSame([bytes, word]) {
  const start = parseStart(word);
  const { document, ends: [end] } = readRecording(bytes, runInOrder(bytes, [start], MOST_EVENTS));
  const hooked = await runAlone(bytes, start, 'locked', { events: MOST_EVENTS });
  return document === hooked.document && (end ? json(end) === hooked.end : !hooked.end.startsWith('["done"'));
}

/** Modules that cannot be made to record themselves, and what the refusal says. */
const one = (code, more = {}) => moduleOf({ functions: [{ code, exported: 'a' }], ...more });
const parameters = (count) => [[0x60, count, ...Array(count).fill(I32), 0]];
/** @type {[Uint8Array, RegExp][]} */
const REFUSED = [
  [one([], { memory: [0, 1] }), /^a memory that is not there, or not shared: lower the module first/],
  [one([], { memory: null }), /^a memory that is not there, or not shared: lower/],
  [one([], { imports: [[1, 101, 1, 102, 0, 0]] }), /^an import that is not a memory: lower/],
  [one([0xfe, 3, 0]), /^function 0 instruction 0: atomic\.fence: lower/],
  [one([0x41, 0, 0xc0, 0x1a]), /^function 0 instruction 1: i32\.extend8_s: lower/],
  [one([0x41, 0, 0x40, 0, 0x1a]), /^function 0 instruction 1: memory\.grow: lower/],
  [one([0x41, 0, 0x41, 0, 0x41, 0, 0xfc, 11, 0]), /^function 0 instruction 3: memory\.fill: lower/],
  [one([0x43, 0, 0, 0, 0, 0x1a]), /^function 0 instruction 0: f32\.const: lower/],
  [one([], { types: parameters(15) }), /^export a: 15 arguments; expected at most 14$/],
];

function refusalOf(bytes) {
  try {
    recordingModule(bytes, { capacity: 1 });
    return 'nothing';
  } catch (error) {
    return error instanceof UserError ? error.message : `a fault: ${error.stack}`;
  }
}

export async function testAccesses({ note }) {
  const wrong = [];
  for (const start of STARTS) if (!(await isSame(start))) wrong.push(start[1]);
  note(!wrong.length, `${TAKEN.length} accesses, ${ADDRESSES.length} traps and ends, arguments and calls: the log is that of the hooks`, wrong.join('; '));
  const others = REFUSED.filter(([bytes, pattern]) => !WebAssembly.validate(bytes) || !pattern.test(refusalOf(bytes)));
  note(!others.length, `${REFUSED.length} modules are refused`, others.map(([bytes]) => refusalOf(bytes)).join('; '));
  note(refusalOf(one([], { types: parameters(14) })) === 'nothing', '14 arguments are taken');
}
