// @ts-check
/** What threads do between iterations: they meet, so that their next iterations overlap. */

import {
  ADD, AND, BLOCK, DROP, END, EQZ, GE_S, IF, LOOP, LT_S, LT_U, SUB, atomicLoad, atomicStore, bodyOf, branch, branchIf, call, get, i32, i64,
  set, tee, wait32,
} from './code.mjs';
import { MEETING, MEETING_STRIDE } from './layout.mjs';

/** How often a thread looks for another one before it lets the processor go, and how long it then waits, in nanoseconds. */
const SPINS = 20_000;
const SPINS_LATER = 100;
const WAIT_NANOSECONDS = 50_000;

const placeOf = (/** @type {number} */ thread) => MEETING + MEETING_STRIDE * thread;

/**
 * Waits for another thread.
 *
 * @param {number} place
 * @param {{ turn: number, spin: number }} locals
 * @param {number} pause
 */
function waiting(place, { turn, spin }, pause) {
  return [
    ...i32(0), ...set(spin),
    ...BLOCK, ...LOOP,
    ...i32(0), ...atomicLoad(place), ...get(turn), ...SUB, ...i32(0), ...GE_S, ...branchIf(1),
    ...get(spin), ...i32(1), ...ADD, ...tee(spin), ...i32(SPINS), ...LT_U, ...branchIf(0),
    ...i32(place), ...get(turn), ...call(pause), // the other thread is not running: let it
    ...i32(SPINS - SPINS_LATER), ...set(spin), ...branch(0),
    ...END, ...END,
  ];
}

/**
 * The code before an iteration. Each thread stores the number of the meeting in a line of its own, and waits until the others
 * have too. `chunk` is how many iterations lie between two meetings, a power of two; 0 is one meeting a batch.
 *
 * @param {{ thread: number, threads: number, chunk: number, pause: number, locals: { i: number, turn: number, spin: number } }} given
 */
export function meetingCode({ thread, threads, chunk, pause, locals }) {
  const others = Array.from({ length: threads }, (_, k) => k).filter((k) => k !== thread);
  const code = [
    ...i32(0), ...get(locals.turn), ...i32(1), ...ADD, ...tee(locals.turn), ...atomicStore(placeOf(thread)),
    ...others.flatMap((other) => waiting(placeOf(other), locals, pause)),
  ];
  if (chunk === 1) return code;
  const isMeeting = chunk === 0 ? [...get(locals.i), ...EQZ] : [...get(locals.i), ...i32(chunk - 1), ...AND, ...EQZ];
  return [...isMeeting, ...IF, ...code, ...END];
}

/**
 * The body of a function that waits a little if a word is less than expected. It is a function of its own, since V8 11.3 overwrites
 * a local of the function that has the wait (docs/FOUND.md).
 */
export function pauseBody() {
  const [address, least] = [0, 1];
  return bodyOf([], [
    ...get(address), ...atomicLoad(0), ...get(least), ...SUB, ...i32(0), ...LT_S, ...IF,
    ...get(address), ...get(least), ...i32(1), ...SUB, ...i64(WAIT_NANOSECONDS), ...wait32, ...DROP, ...END,
  ]);
}
