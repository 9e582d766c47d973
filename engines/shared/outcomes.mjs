/** Outcomes of runs, in the form that `wmlab run` prints, and conditions on them. */

import { UserError } from './errors.mjs';

/** The end of a thread in one string: what it returned, or how else it ended. */
const endText = ([kind, what]) => (kind === 'done' ? `${what[0] ?? '-'}` : kind === 'cut' ? 'cut' : `${kind}:${what}`);

/** The outcome of a run in one string. */
export const outcomeOf = (ends) => ends.map(endText).join(' ');

const TRAPS = ['unreachable', 'divide-by-zero', 'overflow', 'out-of-bounds', 'unaligned', 'exhausted'];
const VALUE = /^(\d+|0x[\da-f]+)$/i;
const MOST = 2n ** 64n;
const NAMED = new RegExp(`^(-|cut|trap:(\\*|${TRAPS.join('|')}))$`);
const EXPECTED = 'expected a value such as 5 or 0x5, -, cut, trap:NAME, trap:*, a set of these such as {0,1}, ! before one of them, or *';

/** The options of conditions, each with what it asks: that no run has the outcome, that one has it, or that all do. */
const KINDS = /** @type {const} */ ({ forbid: 'never', '~exists': 'never', want: 'some', exists: 'some', forall: 'all' });
export const CONDITIONS = Object.keys(KINDS);

/**
 * An end as outcomes have it, with its value in decimal.
 *
 * @param {string} word
 * @param {(word: string) => never} refuse
 */
function endOf(word, refuse) {
  if (VALUE.test(word) && BigInt(word) < MOST) return `${BigInt(word)}`;
  return NAMED.test(word) ? word : refuse(word);
}

/**
 * What a word of a condition says of a thread's end.
 *
 * @param {string} word
 * @param {(word: string) => never} refuse
 * @returns {wmlab.Pattern}
 */
function patternOf(word, refuse) {
  if (word === '*') return { isAny: true, isNegated: false, ends: [] };
  const isNegated = word.startsWith('!');
  const [, set] = /^!?\{(.*)\}$/.exec(word) ?? [];
  const members = set === undefined ? [isNegated ? word.slice(1) : word] : set.split(',');
  return { isAny: false, isNegated, ends: members.map((member) => endOf(member, () => refuse(word))) };
}

/**
 * A condition of an option: a pattern for each thread.
 *
 * @returns {wmlab.Condition}
 */
function conditionOf(option, given, threads) {
  const text = given.replace(/\{[^}]*\}/g, (set) => set.replace(/\s+/g, '')).trim().replace(/\s+/g, ' ');
  const refuse = (word) => {
    const sign = /-\d/.test(word) ? '; values have no sign: an i32 of -1 is 0xffffffff' : '';
    throw new UserError(`--${option} "${given}": "${word}" is not an end; ${EXPECTED}${sign}`);
  };
  const ends = text.split(' ').map((word) => patternOf(word, refuse));
  if (ends.length !== threads) throw new UserError(`--${option} "${given}": ${ends.length} ends for ${threads} threads`);
  return { option, kind: KINDS[option], text, ends };
}

/** Whether a pattern has an end among its own. */
const has = ({ ends }, end) => ends.includes(end) || (end.startsWith('trap:') && ends.includes('trap:*'));

/** Whether an outcome fits the pattern of each thread. */
export function satisfies(outcome, { ends }) {
  const found = outcome.split(' ');
  return ends.length === found.length && ends.every((pattern, thread) => pattern.isAny || has(pattern, found[thread]) !== pattern.isNegated);
}

/** Whether a condition looks for an outcome: for one that it forbids or wants, or for one that is not what all have to be. */
export const looksFor = (condition, outcome) => satisfies(outcome, condition) !== (condition.kind === 'all');

/**
 * Whether a smaller run may stand for one that a condition looks for: it looks for both, and no thread of which the condition says
 * something is cut in the smaller run alone.
 */
export function standsFor(outcome, condition, first) {
  const [ends, before] = [outcome, first].map((each) => each.split(' '));
  return looksFor(condition, outcome)
    && condition.ends.every((pattern, thread) => pattern.isAny || ends[thread] !== 'cut' || before[thread] === 'cut');
}

/** The conditions of a command line, each option any number of times. */
export const conditionsOf = (given, threads) => CONDITIONS.flatMap(
  (option) => (given[option] ?? []).map((text) => conditionOf(option, text, threads)),
);

/** What was seen, for the line of a condition. */
function sightingOf({ kind }, found) {
  if (kind === 'all') return found ? `not in ${found.place}, which has ${found.outcome}` : 'seen in each round';
  return found ? `seen in ${found.place}` : 'never seen';
}

/**
 * What came of conditions: for each its line, whether it failed, and the first outcome of a list that it looks for. Each item of
 * the list has an `outcome` and a `place`, which is printed.
 */
export function judgeConditions(conditions, list) {
  return conditions.map((condition) => {
    const found = list.find(({ outcome }) => looksFor(condition, outcome)) ?? null;
    const fails = condition.kind === 'some' ? found === null : found !== null;
    const { option, text } = condition;
    return { condition, found, fails, line: `${fails ? 'FAILED' : 'ok'} --${option} "${text}": ${sightingOf(condition, found)}` };
  });
}

/** Whether a condition that failed looks for an outcome, which no run should have. */
export const isFault = (judged, outcome) => judged.some(
  ({ condition, fails }) => fails && condition.kind !== 'some' && looksFor(condition, outcome),
);

/**
 * The traps that no condition names, each with its thread, how many rounds end so, and the first of them if that is known.
 *
 * @param {wmlab.Condition[]} conditions
 * @param {{ outcome: wmlab.Outcome, count: number, number?: number }[]} list the first rounds first
 */
export function unnamedTraps(conditions, list) {
  /** @type {Map<string, { thread: number, trap: string, count: number, number?: number }>} */
  const traps = new Map();
  for (const { outcome, count, number } of list) {
    for (const [thread, trap] of outcome.split(' ').entries()) {
      if (!trap.startsWith('trap:') || conditions.some(({ ends }) => has(ends[thread], trap))) continue;
      const key = `${thread} ${trap}`;
      const known = traps.get(key) ?? { thread, trap, count: 0, number };
      traps.set(key, { ...known, count: known.count + count });
    }
  }
  return [...traps.values()];
}

/**
 * The line of a trap that no condition names.
 *
 * @param {{ thread: number, trap: string, count: number, number?: number }} found
 */
export function trapLine({ thread, trap, count, number }) {
  const first = number === undefined ? '' : `, first in round ${number}`;
  return `thread ${thread} ends with ${trap} in ${count} ${count === 1 ? 'round' : 'rounds'}${first}; no condition names it`;
}
