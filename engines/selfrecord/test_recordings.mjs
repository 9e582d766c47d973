/** Records programs by themselves and by the recorder's hooks, and compares the logs. */

import { readFileSync } from 'node:fs';
import { fileURLToPath } from 'node:url';
import { Worker } from 'node:worker_threads';
import { parse } from '../shared/document.mjs';
import { programsOf } from '../testing/programs.mjs';
import { rewrite } from '../shared/rewrite.mjs';
import { argumentsOf, parseStart } from '../shared/starts.mjs';
import { verdictOn } from './command.mjs';
import { readRecording } from './region.mjs';
import { recordingModule } from './rewrite.mjs';
import { EVENTS, hookedBySchedule, hookedInOrder } from './test_hooks.mjs';
import { hasInterpreter, runInInterpreter } from './test_interpreter.mjs';

export const EXAMPLES = fileURLToPath(new URL('../../examples', import.meta.url));

/** A run of the module that records itself, with the threads one after the other. Answers the bytes of its memory. */
export function runInOrder(bytes, starts, capacity = EVENTS) {
  const made = recordingModule(bytes, { capacity });
  const { parameters } = rewrite(bytes, 'hooked');
  const memory = memoryOf(made);
  const module = new WebAssembly.Module(made.bytes);
  const instances = starts.map(() => new WebAssembly.Instance(module, { [made.memory.module]: { [made.memory.name]: memory } }));
  for (const [thread, start] of starts.entries()) {
    try {
      instances[thread].exports[start.name](...argumentsOf(start, parameters.get(start.name)));
    } catch (error) {
      if (!(error instanceof WebAssembly.RuntimeError) && !(error instanceof RangeError)) throw error;
    }
  }
  return Buffer.from(memory.buffer);
}

const memoryOf = ({ layout }) => new WebAssembly.Memory({ initial: layout.allPages, maximum: layout.allPages, shared: true });

/** The same with a worker for each thread, all at once. */
async function runAtOnce(bytes, starts) {
  const made = recordingModule(bytes, { capacity: EVENTS });
  const { parameters } = rewrite(bytes, 'hooked');
  const memory = memoryOf(made);
  const shared = {
    module: new WebAssembly.Module(made.bytes), memory, importedAs: made.memory, gate: new SharedArrayBuffer(4), threads: starts.length,
  };
  await Promise.all(starts.map((start) => new Promise((resolve, reject) => {
    const args = argumentsOf(start, parameters.get(start.name));
    const worker = new Worker(new URL('./test_worker.mjs', import.meta.url), { workerData: { ...shared, start: start.name, args } });
    worker.once('message', resolve);
    worker.once('error', reject);
  })));
  return Buffer.from(memory.buffer);
}

/** Whether the threads that were done have the results that the hooks saw, and no other thread was done. */
const haveSameEnds = (own, hooked) => own.every((end, thread) => (
  end ? end.join() === hooked[thread].join() : hooked[thread][0] !== 'done'));

/** Compares both logs of the threads one after the other, and the results of the threads that were done. */
async function isSameInOrder(bytes, starts) {
  const hooked = await hookedInOrder(bytes, starts);
  const own = readRecording(bytes, runInOrder(bytes, starts));
  const holds = own.document === hooked.document && haveSameEnds(own.ends, hooked.ends);
  return { holds, document: hooked.document, events: parse(own.document)[3].length };
}

/** Compares the log of threads that ran at once with that of the hooks, which are held to the same order of accesses. */
async function isSameBySchedule(bytes, recording) {
  const hooked = await hookedBySchedule(bytes, recording.document);
  return recording.document === hooked.document && haveSameEnds(recording.ends, hooked.ends);
}

async function testProgram({ note, wmlab }, { name, path, starts: words }) {
  const bytes = readFileSync(path);
  const starts = words.map(parseStart);
  const orders = await Promise.all([starts, [...starts].reverse()].map((order) => isSameInOrder(bytes, order)));
  note(orders.every(({ holds }) => holds), `${name}: the threads one after the other: the log is that of the hooks, in two orders`);
  const recording = readRecording(bytes, await runAtOnce(bytes, starts));
  const isSame = await isSameBySchedule(bytes, recording);
  const line = await verdictOn(wmlab, path, recording);
  const isAllowed = line.startsWith(`allowed threads=${starts.length} `);
  note(isAllowed && isSame, `${name}: the threads at once: the log is ${isSame ? '' : 'not '}that of the hooks; ${line}`);
  if (hasInterpreter) {
    const { document } = readRecording(bytes, runInInterpreter(bytes, starts));
    note(document === orders[0].document, `${name}: the log that wabt's interpreter records is that of the hooks`);
  }
  return orders[0].events + orders[1].events;
}

export async function testRecordings({ note, leftOut, wmlab }) {
  const programs = await programsOf(EXAMPLES, wmlab);
  let events = 0;
  for (const program of programs) events += await testProgram({ note, wmlab }, program);
  if (!hasInterpreter) leftOut('recordings by an engine without JavaScript', 'wast2json or spectest-interp is not installed');
  note(programs.length > 20 && events > 500, `${programs.length} programs, ${events} events of threads one after the other`);
}
