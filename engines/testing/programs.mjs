/**
 * The threads with which a program of examples/ is recorded: those listed here, and else one for each exported function that
 * takes no argument.
 */

import { readFileSync, readdirSync } from 'node:fs';
import { join } from 'node:path';
import { UserError } from '../shared/errors.mjs';
import { rewrite } from '../shared/rewrite.mjs';
import { examine } from '../shared/wmlab.mjs';

const STARTS = {
  'spin-lock.wasm': ['work:2', 'work:2'],
  'ticket-lock.wasm': ['work:2', 'work:2'],
  'peterson.wasm': ['work:0', 'work:1'],
  'peterson-plain.wasm': ['work:0', 'work:1'],
  'lock-free-stack.wasm': ['push2:10', 'push2:20', 'pop2'],
  'own-store.wasm': ['f:0', 'f:4'],
  'data-segment.wasm': ['a', 'a'],
  'mixed-widths.wasm': ['a', 'a'],
  'c/spin.wasm': ['work:2', 'work:2'],
  'c/mailbox.wasm': ['put:7', 'get:20'],
  'c/ring.wasm': ['produce:3', 'consume:3'],
  'c/stack.wasm': ['own_stack:0:2', 'own_stack:1:2'],
};

const sum = (ends) => ends.reduce((total, end) => total + end, 0n);
const isCounting = (ends) => ends.some((end) => end === 6n) && ends.every((end) => end >= 3n && end <= 6n);

/** What the results of a whole run are, as the source of a program describes them. Each of these runs has results that hold. */
export const RESULTS = {
  'c/futex-mutex.wasm': isCounting,
  'c/condition-variable.wasm': ([, digits]) => digits === 123n,
  'c/growing-allocator.wasm': (ends) => ends.every((end) => end === 11n),
  'c/thread-locals.wasm': (ends) => sum(ends) === 206n,
  'c/averages.wasm': ([, tenths]) => [0n, 15n, 30n, 45n].includes(tenths),
  'rust/std-mutex.wasm': isCounting,
  'rust/channel.wasm': ([sent, digits]) => sent === 2n && digits === 12n,
  'rust/shared-list.wasm': ([made, taken]) => (made === 1n ? [0n, 2n].includes(taken) : made === 2n && taken === 1n),
  'rust/thread-locals.wasm': (ends) => ends.every((end) => end % 100n === 2n) && ends.some((end) => end === 402n),
};

/** Programs whose logs have no events. */
export const WITHOUT_EVENTS = new Set(['every-trap.wasm']);

/** The words of the starts of a program, by its path below examples/. */
export function startsOf(program, bytes) {
  const { parameters } = rewrite(bytes, 'hooked');
  const starts = STARTS[program] ?? [...parameters].filter(([, types]) => types.length === 0).map(([name]) => name);
  if (!starts.length) throw new UserError(`${program}: each exported function takes arguments; list its starts in programs.mjs`);
  return starts;
}

/** Whether the program reads a module. */
async function isRead(program, path) {
  try {
    await examine(program, path);
    return true;
  } catch (error) {
    if (error instanceof UserError && /: refused (decode|valid) /.test(error.message)) return false;
    throw error;
  }
}

/** The modules below a folder that wmlab reads, each with the words of its starts. */
export async function programsOf(folder, wmlab) {
  const names = readdirSync(folder, { recursive: true }).filter((name) => name.endsWith('.wasm')).sort();
  const found = [];
  for (const name of names) {
    const path = join(folder, name);
    if (await isRead(wmlab, path)) found.push({ name, path, starts: startsOf(name, readFileSync(path)) });
  }
  return found;
}
