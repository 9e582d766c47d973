/** Records every program of examples/, and plays engines that are wrong on purpose. */

import { readFileSync } from 'node:fs';
import { availableParallelism } from 'node:os';
import { fileURLToPath } from 'node:url';
import { openRecorder } from '../node/engines.mjs';
import { parse } from '../shared/document.mjs';
import { fitEvents, isCut } from '../shared/bound.mjs';
import { RESULTS, WITHOUT_EVENTS, programsOf } from './programs.mjs';
import { WRONG } from '../shared/recorder.mjs';
import { recordWith } from '../shared/rounds.mjs';
import { parseStart } from '../shared/starts.mjs';
import { NO_WITNESS } from '../shared/verdict.mjs';
import { Judge } from '../shared/wmlab.mjs';

const EXAMPLES = fileURLToPath(new URL('../../examples', import.meta.url));

/**
 * What is weak: an outcome that no interleaving gives.
 *
 * @param {bigint[]} ends
 */
const bothAreZero = ([a, b]) => a === 0n && b === 0n;
/** @param {bigint[]} ends */
const someTimeBothAreZero = ([a, b]) => (~(a | b) & 0xffffn) !== 0n;
const WEAK = {
  'store-buffering.wasm': bothAreZero,
  'store-buffering-atomic.wasm': bothAreZero,
  'many-store-buffers.wasm': someTimeBothAreZero,
  'many-store-buffers-atomic.wasm': someTimeBothAreZero,
};

/** Whether a program has outcomes that are known as weak. */
export const isClassic = (name) => name in WEAK;

/** Whether the outcome of a completed document is weak. */
function isWeak(name, document) {
  if (!WEAK[name]) return false;
  const ends = parse(document)[2].map((thread) => thread[2]);
  return ends.every(([kind]) => kind === 'done') && WEAK[name](ends.map(([, results]) => results[0]));
}

/** Whether a log has the threads that were started, at least two, and events, if the program makes some. */
function isWhole({ name, starts }, document) {
  const threads = parse(document)[2];
  const events = threads.reduce((sum, thread) => sum + thread[4].length, 0);
  return threads.length >= 2 && threads.length === starts.length && (events > 0 || WITHOUT_EVENTS.has(name));
}

/** Whether the results of a completed document are those that the program describes; null if a thread was cut, or it describes none. */
function hasItsResults(name, document) {
  const ends = parse(document)[2].map((thread) => thread[2]);
  if (!RESULTS[name] || isCut(ends)) return null;
  return ends.every(([kind]) => kind === 'done') && RESULTS[name](ends.map(([, results]) => results[0]));
}

/** Records rounds of a program, and has `seen` called for each. What describes its results has events enough to end. */
async function record({ name, path, starts }, wmlab, { rounds, seen, stop, ...options }) {
  const judge = await Judge.open(wmlab, path);
  const recorder = await openRecorder(readFileSync(path), { ...options, starts: starts.map(parseStart) });
  try {
    if (RESULTS[name]) await fitEvents(recorder, 1);
    await recordWith(recorder, judge, { rounds, seen, stop });
  } finally {
    judge.close();
    await recorder.close();
  }
}

/** Records a program, and reports how many logs were allowed, whole and weak, and the other verdicts. */
export async function run(program, wmlab, options) {
  const { rounds } = options;
  let allowed = 0, weak = 0, whole = 0, right = 0, wrong = 0;
  const others = new Map();
  const seen = ({ document, line }) => {
    if (isWeak(program.name, document)) weak++;
    if (isWhole(program, document)) whole++;
    const results = hasItsResults(program.name, document);
    if (results) right++;
    else if (results === false) wrong++;
    if (line.startsWith('allowed')) allowed++;
    else others.set(line, (others.get(line) ?? 0) + 1);
  };
  await record(program, wmlab, { ...options, seen });
  const parts = [
    `${allowed} of ${rounds} allowed${weak ? `, ${weak} weak` : ''}`,
    ...(whole < rounds ? [`${rounds - whole} logs without threads or events`] : []),
    ...(RESULTS[program.name] ? [`${right} with the results described, ${wrong} with others`] : []),
    ...[...others].slice(0, 3).map(([line, count]) => `${count}: ${line}`),
  ];
  const isDescribed = !RESULTS[program.name] || (right > 0 && wrong === 0);
  return { holds: allowed === rounds && whole === rounds && isDescribed, allowed, weak, others, text: parts.join('; ') };
}

/** What each engine that is wrong on purpose runs: loops in which two threads meet (races.wat). */
const RACES = fileURLToPath(new URL('./races.wasm', import.meta.url));
const WRONG_STARTS = {
  'plain-atomics': ['pairs:0:50', 'pairs:64:50'],
  'torn-store': ['halves:1:50', 'halves:2:50'],
  'stale-load': ['numbers:0:50', 'numbers:64:50'],
};

/** Whether the rules do not permit what the engine answered. */
const isCaught = (line) => line.startsWith(NO_WITNESS);

/** The first round in which a wrong engine is caught, with its answer, or null after the given number of rounds. */
async function firstCaught(how, wmlab, mode, rounds) {
  /** @type {{ number: number, line: string }[]} */
  const caught = [];
  const stop = { requested: false };
  const seen = ({ number, line }) => {
    if (isCaught(line)) caught.push({ number, line });
    stop.requested = caught.length > 0;
  };
  await record({ name: 'races.wasm', path: RACES, starts: WRONG_STARTS[how] }, wmlab, { mode, events: 512, wrong: how, rounds, seen, stop });
  return caught[0] ?? null;
}

/** Plays the engines that are wrong on purpose until they are caught. In the mode free the threads have to meet. */
export async function testWrongEngines({ note, leftOut, wmlab, wrong }) {
  for (const how of WRONG) {
    for (const mode of ['buffered', 'free']) {
      if (mode === 'free' && availableParallelism() === 1) leftOut(`an engine with ${how}, free`, 'there is one processor');
      else {
        const first = await firstCaught(how, wmlab, mode, wrong);
        note(
          first,
          `an engine with ${how}, ${mode}: ${first ? `caught in round ${first.number}: ${first.line}` : `not caught in ${wrong} rounds`}`,
        );
      }
    }
  }
}

/** Records every program of examples/ in a mode. Each log has to be allowed. */
export async function testPrograms({ note, wmlab, rounds }, mode) {
  const programs = await programsOf(EXAMPLES, wmlab);
  for (const program of programs) {
    const { holds, text } = await run(program, wmlab, { mode, rounds });
    note(holds, `${program.name} ${program.starts.join(' ')}, ${mode}: ${text}`);
  }
  note(programs.length > 20, `${mode}: ${programs.length} programs, ${programs.length * rounds} logs`);
}
