// @ts-check
/** The worker of the page that may block: it asks the server for tests, runs each, and posts what came. */

import { Mailbox } from './mailbox.mjs';
import { Pool, runTest } from './runner.mjs';
import { testOf } from './tasks.mjs';

/**
 * @param {string} path
 * @param {object} value
 */
async function post(path, value) {
  const response = await fetch(`/litmus/${path}${location.search}`, { method: 'POST', body: JSON.stringify(value) });
  return response.json();
}

/**
 * The workers that were started and have not yet said that they are there.
 *
 * @type {Promise<void>[]}
 */
let started = [];

function spawn() {
  const worker = new Worker('/litmus/harness/browser_worker.mjs', { type: 'module' });
  const mailbox = new Mailbox();
  /** @type {() => void} */
  let isThere = () => {};
  started.push(new Promise((/** @type {(value: void) => void} */ resolve) => { isThere = resolve; }));
  worker.onmessage = ({ data }) => (data === 'there' ? isThere() : mailbox.post(data));
  worker.onerror = (event) => {
    isThere();
    mailbox.post(`failed: ${event.message ?? 'a worker was not loaded'}`);
  };
  return {
    send: (/** @type {object} */ task) => worker.postMessage(task), receive: () => mailbox.receive(), close: () => worker.terminate(),
  };
}

const pool = new Pool(spawn);

/**
 * Starts the workers of a test, and has the new ones pinned.
 *
 * @param {number} threads
 */
async function prepare(threads) {
  pool.grow(threads);
  if (!started.length) return;
  await Promise.all(started);
  started = [];
  await post('pin', { workers: pool.workers.length });
}

/**
 * @param {{ test: any, options: any }} task
 */
async function answerTo({ test: given, options }) {
  let isStopped = false;
  const tell = (/** @type {number} */ done) => { post('progress', { done }).then(({ stop }) => { isStopped = isStopped || stop; }); };
  try {
    const test = testOf(given);
    await prepare(test.threads.length);
    return { result: await runTest(pool, test, { ...options, tell, isStopped: () => isStopped }) };
  } catch (error) {
    return { failed: /** @type {Error} */ (error).message };
  }
}

for (let answer = {}; ;) {
  const task = await post('task', answer);
  if (task.end) break;
  answer = await answerTo(task);
}
