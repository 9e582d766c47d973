// @ts-check
/** A thread of a harness in node. It first posts its number for the system, by which it can be given a processor. */

import { readlinkSync } from 'node:fs';
import { parentPort } from 'node:worker_threads';
import { threadOf } from './thread.mjs';

function systemNumber() {
  try {
    return Number(readlinkSync('/proc/thread-self').split('/').at(-1));
  } catch {
    return null; // not Linux
  }
}

parentPort?.postMessage({ system: systemNumber() });
parentPort?.on('message', threadOf((word) => parentPort?.postMessage(word)));
