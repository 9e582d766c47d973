// @ts-check
/** The harness in node itself. */

import { Worker } from 'node:worker_threads';
import { Mailbox } from './mailbox.mjs';
import { Pins } from './pinning.mjs';
import { Pool, runTest } from './runner.mjs';
import { testOf } from './tasks.mjs';

/**
 * Starts workers, of which number k is pinned to the k-th processor.
 *
 * @param {Pins} pins
 */
function spawner(pins) {
  let count = 0;
  return () => {
    const thread = count++;
    const worker = new Worker(new URL('./node_worker.mjs', import.meta.url));
    const mailbox = new Mailbox();
    worker.on('message', (word) => (word.system === undefined ? mailbox.post(word) : pins.pin(word.system, thread)));
    worker.on('error', (error) => mailbox.post(`failed: ${error.message}`));
    return {
      send: (/** @type {object} */ task) => worker.postMessage(task),
      receive: () => mailbox.receive(),
      close: () => { worker.terminate(); },
    };
  };
}

/**
 * @param {{ pin: number[] }} given
 */
export function openNode({ pin }) {
  const pins = new Pins(pin);
  const pool = new Pool(spawner(pins));
  return {
    version: `node ${process.versions.node} (V8 ${process.versions.v8})`,
    pins,
    run: (/** @type {any} */ task, /** @type {any} */ options) => runTest(pool, testOf(task), options),
    close: async () => pool.close(),
  };
}
