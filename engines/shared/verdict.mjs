/**
 * The verdict on a round: that on its log, or on the logs of its events that a search finds, one after the other. If a rule refuses
 * each, or there is none, `wmlab witness` is asked: it alone says that the rules do not permit the values.
 */

/** The beginning of the line of a round whose search ended at a limit. The line says nothing about the engine. */
export const GAVE_UP = 'no witness found';

/** The beginning of the line of a round whose values the rules do not permit, whatever the writers and the order: as `witness` prints it. */
export const NO_WITNESS = 'no witness threads=';

/** Whether a rule refuses a log with its witness. Another witness of the same events may be allowed. */
const isBrokenByRule = (line) => /^broken V\d/.test(line);

/**
 * The answer to a round that another witness cannot change; null if it was stopped before. `logs` yields documents of the same
 * events, and at its end answers a document of the events alone if there is none, else null.
 *
 * `judge` answers a document and its line. `settle` does the same for a document whose witness does not count: it asks the rules. The
 * first log that a rule refuses is what is kept of events without a witness, since it can be explained.
 */
export async function verdictOf(judge, settle, logs, stop = {}) {
  let broken = null;
  while (!stop.requested) {
    const { value, done } = await logs.next();
    if (stop.requested) break;
    if (done) return settle(broken ? broken.document : value);
    const answer = await judge(value);
    if (!isBrokenByRule(answer.line)) return answer;
    broken ??= answer;
  }
  return null;
}
