/** A thread of a recording in a browser. */

import { threadOf } from '../shared/thread.mjs';

let round = null;
self.onmessage = ({ data }) => {
  if (round) self.postMessage(round(data));
  else round = threadOf(data);
};
