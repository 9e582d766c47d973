// @ts-check
/** Gives threads processors of their own, so that no two of them take turns on one. */

import { spawnSync } from 'node:child_process';
import { readFileSync, readdirSync } from 'node:fs';

/** What came of the wish to pin threads: how many were, and why one was not. */
export class Pins {
  /**
   * @param {number[]} processors the processor of each thread; none if they are not pinned
   */
  constructor(processors) {
    this.processors = processors;
    this.pinned = 0;
    /** @type {string | null} */
    this.problem = processors.length ? null : 'not asked for';
  }

  /**
   * Pins a thread by its number for the system.
   *
   * @param {number | null} system
   * @param {number} thread
   */
  pin(system, thread) {
    if (!this.processors.length) return;
    if (system === null) {
      this.problem = 'this system does not tell the number of a thread';
      return;
    }
    const processor = String(this.processors[thread % this.processors.length]);
    const { error, status, stderr } = spawnSync('taskset', ['-pc', processor, String(system)], { encoding: 'utf8' });
    if (error) this.problem = 'taskset is not installed (Debian: util-linux)';
    else if (status !== 0) this.problem = stderr.trim().split('\n').at(-1) || `taskset ended with status ${status}`;
    else this.pinned++;
  }
}

const WORKER_NAME = /^(DedicatedWorker|DOM Worker|WebCore: Worker)/;

const numbersIn = (/** @type {string} */ path) => {
  try {
    return readdirSync(path).filter((name) => /^\d+$/.test(name)).map(Number);
  } catch {
    return [];
  }
};
const textOf = (/** @type {string} */ path) => {
  try {
    return readFileSync(path, 'utf8');
  } catch {
    return '';
  }
};

/**
 * The processes of a browser: the one that was given an address with this token, and all that they started.
 *
 * @param {string} token
 */
function processesOf(token) {
  const parents = new Map(numbersIn('/proc').map((id) => [id, Number(textOf(`/proc/${id}/stat`).split(') ').at(-1)?.split(' ')[1])]));
  const found = new Set([...parents.keys()].filter((id) => textOf(`/proc/${id}/cmdline`).includes(token)));
  for (let isGrown = true; isGrown;) {
    isGrown = false;
    for (const [id, parent] of parents) {
      if (found.has(id) || !found.has(parent)) continue;
      found.add(id);
      isGrown = true;
    }
  }
  // The pages are in processes that the browser started, which do not have the address.
  return [...found].filter((id) => !textOf(`/proc/${id}/cmdline`).includes(token));
}

/**
 * The workers of a browser's page, the oldest first: those of the process that has at least so many.
 *
 * @param {string} token
 * @param {number} least
 * @returns {number[]}
 */
export function workersOf(token, least) {
  const each = processesOf(token).map((id) => numbersIn(`/proc/${id}/task`)
    .filter((task) => WORKER_NAME.test(textOf(`/proc/${id}/task/${task}/comm`))).sort((one, other) => one - other));
  return each.find((workers) => workers.length >= least) ?? [];
}
