/** The most events of a run, for users who give none: enough that most runs end. */

import { isTired } from './document.mjs';
import { MOST_TURNS } from './rewrite.mjs';

export const LEAST_EVENTS = 128;
const MOST_EVENTS = 4_096;
const TRIALS = 6;

/** Whether a thread of a run was cut. */
export const isCut = (ends) => ends.some(([kind]) => kind === 'cut');

/** Whether a thread of a run was cut by the bound on events: a larger one may let it end. */
const isBounded = (ends) => ends.some((end) => isCut([end]) && !isTired(end));

/** How many of some runs are cut at the bound that a recorder has. */
async function cutRuns(recorder, seed, stop) {
  let count = 0;
  for (let number = 0; number < TRIALS && !stop.requested; number++) {
    const { ends } = await recorder.round(seed + number);
    if (isBounded(ends)) count++;
  }
  return count;
}

/**
 * Gives a recorder the least bound, doubled from 128 up to 4,096, at which at most half of six runs are cut; it stays at 128
 * if there is none. Answers what there is to tell, in lines.
 */
export async function fitEvents(recorder, seed, stop = {}) {
  const first = await cutRuns(recorder, seed, stop);
  if (2 * first <= TRIALS) return [];
  const cut = `of ${TRIALS} runs with at most ${LEAST_EVENTS} events ${first} were cut`;
  for (let events = 2 * LEAST_EVENTS; events <= MOST_EVENTS; events *= 2) {
    recorder.setEvents(events);
    if (2 * await cutRuns(recorder, seed, stop) <= TRIALS) return [`${cut}, so runs have at most ${events}; --events sets the bound`];
  }
  recorder.setEvents(LEAST_EVENTS);
  return [`${cut}, and most with ${MOST_EVENTS} too: a thread may not end; --events sets the bound`];
}

/**
 * What there is to tell of a recording of which some runs were cut: a line, and whether it is no success.
 *
 * @param {number} cut how many were cut
 * @param {number} tired in how many a thread was cut for its loops and calls
 * @param {number} runs how many there were
 */
export function cutComplaint(cut, tired, runs) {
  if (!runs || 2 * cut <= runs) return null;
  const hint = 2 * tired > cut ? `a thread is cut when it has entered ${MOST_TURNS} loops and functions, whatever --events is`
    : 'a larger --events may let their threads end';
  if (cut < runs) return { line: `${cut} of ${runs} runs were cut; ${hint}`, fails: false };
  return { line: `each run was cut, so that no log is of a whole run; ${hint}`, fails: true };
}
