/**
 * Shrinks the schedule of a round of the modes locked and buffered while something holds for its run: fewer turns, that is runs
 * of one item, and then fewer items.
 */

/**
 * A schedule as runs of one item, each as [item, count].
 *
 * @param {wmlab.Turn[]} items
 */
export function runsOf(items) {
  /** @type {[wmlab.Turn, number][]} */
  const runs = [];
  for (const item of items) {
    const last = runs.at(-1);
    if (last?.[0] === item) last[1]++;
    else runs.push([item, 1]);
  }
  return runs;
}

const itemsOf = (runs) => runs.flatMap(([item, count]) => Array(count).fill(item));

/** A schedule in the form of the script of `drive`, but of accesses instead of steps: `0*3,d0,1`. */
export const scheduleText = (items) => runsOf(items)
  .map(([item, count]) => `${item & 1 ? 'd' : ''}${item >> 1}${count > 1 ? `*${count}` : ''}`).join(',');

const isSmaller = (one, other) => (
  runsOf(one).length - runsOf(other).length || one.length - other.length) < 0;

/** Schedules without a part, from halves down to single items. */
function* withoutParts(items) {
  for (let size = Math.ceil(items.length / 2); size >= 1; size = size === 1 ? 0 : Math.ceil(size / 2)) {
    for (let at = items.length - size; at >= 0; at -= size) yield [...items.slice(0, at), ...items.slice(at + size)];
  }
}

/** Schedules in which two turns that follow each other are exchanged. */
function* exchanged(items) {
  const runs = runsOf(items);
  for (let at = 0; at + 1 < runs.length; at++) {
    yield itemsOf([...runs.slice(0, at), runs[at + 1], runs[at], ...runs.slice(at + 2)]);
  }
}

/**
 * The smallest run that was found, as `attempt` answered it, or null if there is none that is smaller. `attempt(items)` makes a
 * run by a schedule and answers it with the `turns` made, or null if what has to hold does not.
 *
 * @template {{ turns: wmlab.Turn[] }} Run
 * @param {wmlab.Turn[]} items
 * @param {(items: wmlab.Turn[]) => Run | null | Promise<Run | null>} attempt
 * @param {wmlab.Limits} limits
 * @returns {Promise<Run | null>}
 */
export async function shrink(items, attempt, { tries = 1_000, seconds = 20, stop = {} } = {}) {
  const end = performance.now() + 1000 * seconds;
  /** @type {{ turns: wmlab.Turn[] }} */
  let best = { turns: items };
  /** @type {Run | null} */
  let found = null;
  let left = tries;
  const improve = async (candidates) => {
    for (const candidate of candidates) {
      if (left-- <= 0 || performance.now() > end || stop.requested) return false;
      const made = await attempt(candidate);
      if (made && isSmaller(made.turns, best.turns)) {
        best = found = made;
        return true;
      }
    }
    return false;
  };
  while (await improve(withoutParts(best.turns)) || await improve(exchanged(best.turns)));
  return found;
}
