// @ts-check
/** A thread of a harness in a browser. It first posts that it is there, so that it can be given a processor. */

import { threadOf } from './thread.mjs';

const run = threadOf((word) => self.postMessage(word));
self.onmessage = (event) => run(event.data);
self.postMessage('there');
