/** Programs that wait and notify, on threads of node before and after the lowering: what they answer and leave in memory. */

import { readFileSync } from 'node:fs';
import { fileURLToPath } from 'node:url';
import { setFlagsFromString } from 'node:v8';
import { Worker, isMainThread, parentPort, workerData } from 'node:worker_threads';
import { lower } from './lower.mjs';
import { randomFrom } from './test_semantics.mjs';

const HERE = fileURLToPath(import.meta.url);
const PROGRAM = fileURLToPath(new URL('./programs/threads.wasm', import.meta.url));
const STARTS = ['produce', 'consume'];
const MOST_NUMBERS = 12;

/** A thread: it answers each list of arguments with what the function answers on them. */
function work({ module, memory, start }) {
  parentPort.on('message', (args) => {
    const { exports } = new WebAssembly.Instance(module, { env: { memory } });
    parentPort.postMessage(/** @type {Function} */ (exports[start])(...args));
  });
}

/** A module on threads, one for each start. */
class Threads {
  constructor(bytes, pages) {
    const module = new WebAssembly.Module(bytes);
    this.memory = new WebAssembly.Memory({ initial: pages, maximum: pages, shared: true });
    this.workers = STARTS.map((start) => new Worker(HERE, { workerData: { module, memory: this.memory, start } }));
    new WebAssembly.Instance(module, { env: { memory: this.memory } });
    this.initial = new Uint8Array(this.memory.buffer).slice();
  }

  /** What the threads answer on these arguments, and the memory that they leave. */
  async run(args) {
    const bytes = new Uint8Array(this.memory.buffer);
    bytes.set(this.initial);
    const answers = this.workers.map((worker) => new Promise((resolve) => { worker.once('message', resolve); }));
    for (const worker of this.workers) worker.postMessage(args);
    return { results: await Promise.all(answers), memory: Buffer.from(bytes.slice()) };
  }

  async close() {
    await Promise.all(this.workers.map((worker) => worker.terminate()));
  }
}

export async function testThreads({ note, runs }) {
  // V8 11.3 compiles waits wrong in its first compiler: a local beside them is overwritten.
  setFlagsFromString('--no-liftoff');
  const original = readFileSync(PROGRAM);
  const random = randomFrom(13);
  const both = [original, lower(original).bytes].map((bytes) => new Threads(bytes, 2));
  let agreed = 0, difference = null;
  for (let number = 0; number < runs; number++) {
    const args = [random() | 0, random() % MOST_NUMBERS];
    const [one, other] = await Promise.all(both.map((threads) => threads.run(args)));
    if (one.results.join() === other.results.join() && one.memory.equals(other.memory)) agreed++;
    else difference ??= `${args}: ${one.results} before, ${other.results} after`;
  }
  await Promise.all(both.map((threads) => threads.close()));
  note(agreed === runs, `threads that wait and notify: ${agreed} of ${runs} runs are the same before and after${difference ? `; ${difference}` : ''}`);
}

if (!isMainThread && workerData?.start) work(workerData);
