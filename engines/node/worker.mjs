/** A thread of a recording in node. */

import { parentPort, workerData } from 'node:worker_threads';
import { threadOf } from '../shared/thread.mjs';

const round = threadOf(workerData);
parentPort.on('message', (question) => parentPort.postMessage(round(question)));
