/** One thread of a run of a module that records itself: it makes its instance, waits until all have, and calls a function. */

import { parentPort, workerData } from 'node:worker_threads';

const { module, start, args, memory, importedAs, gate, threads } = workerData;
const waiting = new Int32Array(gate);
const { exports } = new WebAssembly.Instance(module, { [importedAs.module]: { [importedAs.name]: memory } });
Atomics.add(waiting, 0, 1);
while (Atomics.load(waiting, 0) < threads);
try {
  /** @type {Function} */ (exports[start])(...args);
  parentPort.postMessage('done');
} catch (error) {
  if (!(error instanceof WebAssembly.RuntimeError) && !(error instanceof RangeError)) throw error;
  parentPort.postMessage(error.message);
}
