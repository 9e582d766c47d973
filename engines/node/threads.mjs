/** Starts the threads of a recording as node's workers. */

import { Worker } from 'node:worker_threads';

/** A thread that `ask` sends a round, and `close` ends. */
export function startThread(workerData) {
  const worker = new Worker(new URL('./worker.mjs', import.meta.url), { workerData });
  const ask = (question) => new Promise((resolve, reject) => {
    worker.removeAllListeners();
    worker.once('message', resolve);
    worker.once('error', reject);
    worker.postMessage(question);
  });
  return { ask, close: () => worker.terminate() };
}
