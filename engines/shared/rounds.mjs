/** Records rounds, has each log judged, and counts outcomes and verdicts. */

import { isCut } from './bound.mjs';
import { isTired } from './document.mjs';
import { logsOfRound } from './logs.mjs';
import { outcomeOf } from './outcomes.mjs';
import { Table, kindOf } from './table.mjs';
import { GAVE_UP, verdictOf } from './verdict.mjs';
import { isUsersStop } from './wmlab.mjs';

const AT_ONCE = 4;

/** Whether a verdict comes before another as the one to show: faults before searches that gave up, then by round. */
function comesFirst(one, other) {
  const rank = ({ line }) => (line.startsWith(GAVE_UP) ? 1 : 0);
  return rank(one) - rank(other) || one.number - other.number;
}

/**
 * The tables of outcomes and verdicts; `bad`, the log to look at first, if one is not allowed: the first by round (a search
 * that gave up is shown only if no log is at fault); `first`, the first round of each outcome; how many rounds were cut, and in how
 * many a thread was `tired`.
 */
export class Results {
  outcomes = new Table();
  verdicts = new Table();
  /** @type {Map<wmlab.Outcome, wmlab.Found>} */
  first = new Map();
  checked = 0;
  cut = 0;
  tired = 0;
  /** @type {wmlab.Found | null} */
  bad = null;

  /** @param {wmlab.Found} found */
  add(found) {
    const { number, outcome, line, ends } = found;
    this.checked++;
    if (isCut(ends)) this.cut++;
    if (ends.some(isTired)) this.tired++;
    this.outcomes.add(outcome);
    this.verdicts.add(kindOf(line));
    const first = this.first.get(outcome);
    if (!first || first.number > number) this.first.set(outcome, found);
    if (!line.startsWith('allowed') && (!this.bad || comesFirst(found, this.bad) < 0)) this.bad = found;
  }

  /** The first rounds of all outcomes, in their order. */
  firstRounds() {
    return [...this.first.values()].sort((a, b) => a.number - b.number);
  }

  lines(more) {
    return ['outcomes', ...this.outcomes.lines(more), 'verdicts', ...this.verdicts.lines()];
  }
}

/**
 * The verdict on a round of a recorder; null if it was stopped before.
 *
 * @param {Pick<wmlab.Judge, 'judge' | 'settle'>} judge
 * @param {Omit<wmlab.Round, 'turns'>} round
 * @param {Uint8Array} initial
 * @param {wmlab.Limits} limits
 * @returns {Promise<wmlab.Answer | null>}
 */
export function judgeRound(judge, round, initial, { seconds, stop } = {}) {
  const logs = round.logs ?? logsOfRound(round, initial, { seconds });
  const settle = (document) => judge.settle(document, round.ends, { seconds });
  return verdictOf((document) => judge.judge(document, round.ends), settle, logs, stop);
}

/**
 * Records the given number of rounds of a recorder, and has each log judged. `seen` is called with what was found in each round:
 * its number, outcome, document, line and turns, in the order of the answers. `stop.requested` ends it before the next round.
 *
 * @param {Pick<wmlab.Recorder, 'round' | 'initial'>} recorder
 * @param {Pick<wmlab.Judge, 'judge' | 'settle'>} judge
 * @param {{ rounds: number, seed?: number, seconds?: number, seen?: (found: wmlab.Found) => void, stop?: wmlab.Stop }} options
 */
export async function recordWith(recorder, judge, { rounds, seed = 1, seconds, seen = () => {}, stop = {} }) {
  const results = new Results();
  const note = (number, { ends, turns }, answer) => {
    const found = { number, outcome: outcomeOf(ends), ends, turns, ...answer };
    results.add(found);
    seen(found);
  };
  let failure = null;
  const fail = (error) => {
    if (isUsersStop(error)) stop.requested = true;
    else failure ??= error;
  };
  /** @type {Set<Promise<unknown>>} */
  const asked = new Set();
  // A search that is under way when the user stops is not waited for.
  const tick = () => new Promise((resolve) => { setTimeout(resolve, 200); });
  const fewerThan = async (count) => { while (asked.size >= count && !stop.requested) await Promise.race([...asked, tick()]); };
  for (let number = 0; number < rounds && !stop.requested && !failure; number++) {
    const round = await recorder.round(seed + number);
    const question = judgeRound(judge, round, recorder.initial, { seconds, stop })
      .then((answer) => { if (answer) note(number, round, answer); })
      .catch(fail)
      .finally(() => asked.delete(question));
    asked.add(question);
    await fewerThan(AT_ONCE);
  }
  await fewerThan(1);
  if (failure) throw failure;
  return results;
}
