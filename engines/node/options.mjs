/** The command line of record.mjs. */

import { HELP, SEVERAL, TEXT, countOf, fileOf, wordsOf } from '../shared/command_line.mjs';
import { LEAST_EVENTS } from '../shared/bound.mjs';
import { UserError } from '../shared/errors.mjs';
import { CONDITIONS, conditionsOf } from '../shared/outcomes.mjs';
import { campaignName } from '../shared/report.mjs';
import { MODES, WRONG } from '../shared/recorder.mjs';
import { parseStart } from '../shared/starts.mjs';

export const USAGE = `Records runs of an engine's WebAssembly, and checks each with wmlab.

USAGE
    engines/node/record.mjs [OPTIONS] MODULE.wasm START..

    START is an exported function with its arguments, such as work:0:-7, one for each thread.

OPTIONS
    --engine ENGINE   node, or a browser without a window: chromium, firefox or webkit (node)
    --mode MODE       how accesses are recorded: locked, buffered or free (locked); free is for logs of whole programs, and
                      litmus/run for weak outcomes of small tests
    --rounds N        the number of runs (100)
    --events N        the most events of a run, up to 16384 (128; up to 4096 if most of six runs would be cut)
    --turn N          the most accesses that a thread makes in one turn; locked and buffered (4)
    --seed N          what the turns are chosen by: the first run has the seed N, the next one N + 1 (1)
    --seconds N       the longest search for a witness of one run, or for a smaller run (20)
    --~exists OUTCOME, --forbid OUTCOME
                      fail if a run has this outcome: an end for each thread, such as "0 *"; repeatable
    --exists OUTCOME, --want OUTCOME
                      fail if no run has this outcome; repeatable
    --forall OUTCOME  fail if a run has another outcome; repeatable
    --wrong HOW       be an engine that is wrong on purpose: plain-atomics, torn-store or stale-load; buffered and free
    --wmlab PROGRAM   the program that checks (the one that ./wmlab --which names)
    --keep FILE       where the first log that is not allowed is kept (not-allowed.json; with --report, among its logs)
    --kept FOLDER     where the first log of each outcome is kept (if there are conditions, recorded/NAME, with another NAME for
                      another module, other starts, another mode or engine, or other conditions)
    --report FOLDER   write a page there, index.html, with outcomes, verdicts and kept logs; campaigns with other such NAMEs and
                      the same FOLDER are on one page
    --out FOLDER      keep every log there, as ROUND.json
    --answers FILE    write the answer to each round there, as a line ROUND ANSWER, in the order of the answers
    --help            print this text

    An end is a value (5, 0xbad), - for none, cut, trap:NAME or trap:*, one of a set ({0,1}), not such a one (!0, !{0,cut}), or
    any end (*). A trap that no condition names is counted in a line.

    N is an integer of at least 1. In the modes locked and buffered a seed gives the same log, byte for byte.

It prints a table of outcomes and one of verdicts. A log that is kept has its explanation (.txt) and its picture (.svg, or .dot
if Graphviz makes none) beside it, and in the modes locked and buffered a smaller run with the same fault or outcome (-shrunk.json).
Ctrl-C and SIGTERM print the tables so far.

EXIT STATUS
    0    every log is allowed
    1    a log is not allowed, no witness of a run was found, a condition failed, or each run was cut
    2    the command line, a file or the module is refused, in one line on standard error
    3    a fault of the recorder
    130  stopped by Ctrl-C or SIGTERM
`;

export const ENGINES = ['node', 'chromium', 'firefox', 'webkit'];
const DEFAULTS = {
  engine: 'node', mode: 'locked', rounds: '100', turn: '4', seed: '1', seconds: '20',
};
const MOST_EVENTS = 16_384;
const MOST_THREADS = 16;

const WORDS = {
  engine: TEXT, mode: TEXT, rounds: TEXT, events: TEXT, turn: TEXT, seed: TEXT, seconds: TEXT, wmlab: TEXT, keep: TEXT, kept: TEXT,
  report: TEXT, out: TEXT, answers: TEXT, wrong: TEXT, ...Object.fromEntries(CONDITIONS.map((option) => [option, SEVERAL])), ...HELP,
};

/** Refuses a word that is not one of a list. */
function oneOf(option, word, words) {
  if (!words.includes(word)) throw new UserError(`--${option} ${word}: the ${option}s are ${words.join(', ')}`);
}

/** What the words of a command line ask for, or null for `--help`. */
export function optionsOf(args) {
  const { values, positionals } = wordsOf({ args, allowPositionals: true, options: WORDS });
  if (values.help) return null;
  /** @type {Record<string, any>} */
  const given = { wrong: null, ...DEFAULTS, ...values };
  const [word, ...starts] = positionals;
  if (word === undefined) throw new UserError('no module is given; --help prints the usage');
  const module = fileOf(word);
  if (starts.length === 0) throw new UserError(`no start is given: name an exported function of ${module} for each thread`);
  if (starts.length > MOST_THREADS) throw new UserError(`${starts.length} starts: a log has at most ${MOST_THREADS} threads`);
  oneOf('engine', given.engine, ENGINES);
  oneOf('mode', given.mode, MODES);
  if (given.wrong !== null && !WRONG.includes(given.wrong)) {
    throw new UserError(`--wrong ${given.wrong}: expected ${WRONG.join(', ')}`);
  }
  const { engine, mode, wrong, wmlab, report, out, answers } = given;
  const counts = ['rounds', 'turn', 'seed', 'seconds'].map((name) => [name, countOf(name, given[name])]);
  const fits = given.events === undefined; // the recorder finds a bound
  const events = fits ? LEAST_EVENTS : countOf('events', given.events, MOST_EVENTS);
  const conditions = conditionsOf(given, starts.length);
  const { keep, kept } = given;
  return {
    module, starts: starts.map(parseStart), engine, mode, wrong, wmlab, keep, kept, report, out, answers, events, fits, conditions,
    ...Object.fromEntries(counts),
  };
}

/** The options with the campaign's name and the places of its logs, which depend on the bytes of its module. */
export function withPlaces(options, bytes) {
  const { report, conditions } = options;
  const name = campaignName(options, bytes);
  const kept = options.kept ?? (report ? `${report}/logs/${name}` : conditions.length ? `recorded/${name}` : undefined);
  const keep = options.keep ?? (report ? `${kept}/not-allowed.json` : 'not-allowed.json');
  return { ...options, name, bytes, kept, keep };
}
