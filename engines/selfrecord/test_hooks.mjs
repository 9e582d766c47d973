/** The logs that the recorder's hooks make in the mode locked, by a given schedule. */

import { parse } from '../shared/document.mjs';
import { Recorder } from '../shared/recorder.mjs';
import { startThread } from '../node/threads.mjs';

/** The most events of a run. */
export const EVENTS = 96;

/** The item of a schedule by which a thread makes its next access, or comes to its end. */
const turnOf = (thread) => 2 * thread;

/** The log and the ends of one run by a schedule. */
async function hookedRun(bytes, starts, schedule) {
  const recorder = new Recorder(bytes, starts, { mode: 'locked', events: EVENTS }, startThread);
  try {
    return await recorder.round(0, schedule);
  } finally {
    await recorder.close();
  }
}

/** The run of the threads one after the other. */
export function hookedInOrder(bytes, starts) {
  // Turns of a thread that has ended are passed over.
  return hookedRun(bytes, starts, starts.flatMap((_, thread) => Array(EVENTS + 1).fill(turnOf(thread))));
}

/** The run of the same threads as a recording, with the accesses in the order of the recording. */
export function hookedBySchedule(bytes, document) {
  const [, , rows, order] = parse(document);
  const starts = rows.map(([name, args]) => ({ name, args }));
  // One more turn for each thread: to its end, or to the access at which it traps or is cut.
  const schedule = [...order.map(([thread]) => turnOf(Number(thread))), ...starts.map((_, thread) => turnOf(thread))];
  return hookedRun(bytes, starts, schedule);
}
