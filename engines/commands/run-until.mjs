#!/bin/sh
':' //; command -v node >/dev/null || { echo "${0##*/}: node is not installed (Debian: nodejs)" >&2; exit 2; }; exec node "$0" "$@"
/** Runs `wmlab run` with conditions on its outcomes, and keeps a log of each outcome. `--help` prints the usage. */

import { readFileSync } from 'node:fs';
import { join } from 'node:path';
import { HELP, SEVERAL, TEXT, countOf, endOnLostOutput, fileOf, wordsOf } from '../shared/command_line.mjs';
import { UserError, withFile } from '../shared/errors.mjs';
import { keep, missingPictures, prepareFolder } from '../shared/kept.mjs';
import { CONDITIONS, conditionsOf, judgeConditions, trapLine, unnamedTraps } from '../shared/outcomes.mjs';
import { campaignName } from '../shared/report.mjs';
import { parseStart } from '../shared/starts.mjs';
import { Judge, STOPPED, Stopped, ask, examine, findProgram, isUsersStop, onStop } from '../shared/wmlab.mjs';

const USAGE = `Runs a module on threads by wmlab run, with conditions on the outcomes, and keeps a log of each outcome.

USAGE
    engines/run-until [OPTIONS] MODULE ROUNDS START..

    MODULE, ROUNDS and START are those of wmlab run.

OPTIONS
    --~exists OUTCOME, --forbid OUTCOME
                      fail if a run has this outcome: an end for each thread, such as "0 *"; repeatable
    --exists OUTCOME, --want OUTCOME
                      fail if no run has this outcome; repeatable
    --forall OUTCOME  fail if a run has another outcome; repeatable
    --kept FOLDER     where the logs are kept (recorded/NAME, with another NAME for another module, other starts or conditions)
    --tries N         the most scripts that are tried for the logs (400)
    --seed N          what the scripts are chosen by (1)
    --wmlab PROGRAM   the program (the one that ./wmlab --which names)
    --help            print this text

An end is a value (5, 0xbad), - for none, cut, trap:NAME or trap:*, one of a set ({0,1}), not such a one (!0, !{0,cut}), or any
end (*). A trap that no condition names is counted in a line.

wmlab run prints no logs. So each outcome's log is made by wmlab drive, with scripts that a seed gives, until one has the outcome.

EXIT STATUS
    0    the conditions hold
    1    a condition failed
    2    a word or the module is refused, in one line on standard error
    3    a fault of this command
    130  stopped by Ctrl-C or SIGTERM
`;

function optionsOf(args) {
  const options = {
    ...Object.fromEntries(CONDITIONS.map((option) => [option, SEVERAL])), kept: TEXT, tries: TEXT, seed: TEXT, wmlab: TEXT, ...HELP,
  };
  const { values, positionals } = wordsOf({ args, allowPositionals: true, options });
  if (values.help) return null;
  const [word, rounds, ...starts] = positionals;
  if (!starts.length) {
    throw new UserError('expected MODULE, ROUNDS and at least one START; --help prints the usage');
  }
  const [tries, seed] = [countOf('tries', values.tries ?? '400'), countOf('seed', values.seed ?? '1')];
  const { kept, wmlab } = values;
  return { module: fileOf(word), rounds, starts, tries, seed, kept, wmlab, conditions: conditionsOf(values, starts.length) };
}

/** The folder of the logs, unless the command line names one: another one for another module, other starts or other conditions. */
function folderOf({ module, starts, conditions }) {
  const bytes = withFile(`read ${module}`, () => readFileSync(module));
  const name = campaignName({ module, starts: starts.map(parseStart), mode: 'run', engine: 'wmlab', conditions }, bytes);
  return join('recorded', name);
}

/** Numbers below `n` that look random, the same ones for the same seed. */
function randomFrom(seed) {
  let state = Math.imul(seed, 0x9e3779b1) >>> 0;
  return (n) => {
    state = (Math.imul(state, 1_664_525) + 1_013_904_223) >>> 0;
    return Math.floor((state / 2 ** 32) * n);
  };
}

/** A script of `drive`: turns and drains by chance, and then turns of all threads until they have had many. */
function scriptOf(random, threads) {
  const chance = Array.from({ length: 5 + random(60) }, () => {
    const thread = random(threads);
    return random(4) === 0 ? `d${thread}` : `${thread}*${1 + random(8)}`;
  });
  const round = Array.from({ length: threads }, (_, thread) => [`${thread}*200`, `d${thread}*64`]).flat();
  return [...chance, ...Array(20).fill(round).flat()].join(',');
}

/** The outcomes of the table that `run` prints, each with its count. */
const rowsOf = (text) => [...text.matchAll(/^ *(\d+) {2}(.+)$/gm)].map(([, count, outcome]) => ({ count: Number(count), outcome }));

/** A log of each outcome, made by scripts. */
async function logsOf(program, { module, starts, tries, seed }, outcomes) {
  const random = randomFrom(seed);
  const missing = new Set(outcomes);
  const logs = new Map();
  for (let left = tries; left > 0 && missing.size; left--) {
    const script = scriptOf(random, starts.length);
    const { text } = await ask(program, ['drive', module, script, ...starts], '');
    const [first, line, document] = text.split('\n');
    if (!first.startsWith('outcome ')) throw new UserError(`${module}: ${first}`);
    const outcome = first.slice('outcome '.length);
    if (missing.delete(outcome)) logs.set(outcome, { outcome, line, document });
  }
  return logs;
}

/** Keeps the logs. Answers the path of each outcome's log, and a line on pictures that are missing (or null). */
async function keepAll(judge, folder, outcomes, logs) {
  const paths = new Map();
  const kept = [];
  for (const [number, outcome] of outcomes.entries()) {
    const path = join(folder, `outcome-${number + 1}.json`);
    if (logs.has(outcome)) kept.push(await keep(judge, path, logs.get(outcome)));
    paths.set(outcome, logs.has(outcome) ? path : 'no script was found that gives it');
  }
  return { paths, warning: missingPictures(kept) };
}

async function main(args) {
  const options = optionsOf(args);
  if (!options) {
    process.stdout.write(USAGE);
    return 0;
  }
  const { module, rounds, starts, conditions } = options;
  const program = findProgram(options.wmlab);
  await examine(program, module);
  const { text, status } = await ask(program, ['run', module, rounds, ...starts], '');
  if (status !== 0) throw new UserError(`wmlab run: ${text.split('\n')[0]}`);
  const rows = rowsOf(text);
  if (!rows.length) throw new UserError(`--wmlab ${program}: this is not wmlab; its table of outcomes is empty`);
  const kept = options.kept ?? folderOf(options);
  prepareFolder(kept);
  const judge = new Judge(program, module);
  const outcomes = rows.map(({ outcome }) => outcome);
  const { paths, warning } = await keepAll(judge, kept, outcomes, await logsOf(program, options, outcomes));
  const counted = rows.map(({ count, outcome }) => ({ outcome, count, place: `${count} of ${rounds} rounds` }));
  const judged = judgeConditions(conditions, counted);
  const traps = unnamedTraps(conditions, counted).map(trapLine);
  const table = rows.map(({ count, outcome }) => `${String(count).padStart(8)}  ${outcome}  ${paths.get(outcome)}`);
  console.log([...table, text.split('\n').at(-1), ...judged.map(({ line }) => line), ...traps].join('\n'));
  if (warning) console.error(`run-until: ${warning}`);
  return judged.some(({ fails }) => fails) ? 1 : 0;
}

endOnLostOutput('run-until');
onStop(() => process.exit(STOPPED));
try {
  process.exitCode = await main(process.argv.slice(2));
} catch (error) {
  const isExpected = error instanceof UserError || error instanceof Stopped;
  console.error(isExpected ? `run-until: ${error.message}` : error);
  process.exit(isUsersStop(error) ? STOPPED : isExpected ? 2 : 3);
}
