#!/bin/sh
':' //; command -v node >/dev/null || { echo "${0##*/}: node is not installed (Debian: nodejs)" >&2; exit 2; }; exec node "$0" "$@"
/** The tests of everything in engines/, in parts that run side by side. `--help` prints the usage. */

import { availableParallelism } from 'node:os';
import { fileURLToPath } from 'node:url';
import { HELP, SEVERAL, TEXT, countOf, wordsOf } from './shared/command_line.mjs';
import { UserError } from './shared/errors.mjs';
import { examine, findProgram } from './shared/wmlab.mjs';
import { COUNTS, PARTS } from './testing/parts.mjs';
import { runParts } from './testing/processes.mjs';

/** Words in lines of at most 110 columns. */
const inLines = (words) => words.join(', ').replace(/(.{1,110})( |$)/g, '$1\n    ').trim();

const USAGE = `Tests the recorders, the lowering and the commands of engines/.

USAGE
    engines/test.mjs [OPTIONS]

OPTIONS
    --wmlab PROGRAM   the program that checks (the one that ./wmlab --which names)
    --part NAME       only this part; repeatable
    --jobs N          how many parts run at once (the number of processors)
    --rounds N        the rounds of each example in each mode (${COUNTS.rounds})
    --wrong N         the most rounds of each engine that is wrong on purpose (${COUNTS.wrong})
    --runs N          the runs of the programs before and after the lowering (${COUNTS.runs})
    --help            print this text

PARTS
    ${inLines(Object.keys(PARTS))}

What needs a tool that is not installed is left out, and named. The last line is \`N passed, N failed\`.

EXIT STATUS
    0    everything that was tested passed, and something was
    1    a test failed, or nothing was tested
    2    the command line is refused, or there is no program
`;

/** A module that the program has to read. */
const MODULE = fileURLToPath(new URL('./testing/races.wasm', import.meta.url));

const WORDS = { wmlab: TEXT, part: SEVERAL, jobs: TEXT, rounds: TEXT, wrong: TEXT, runs: TEXT, ...HELP };

/** Runs the parts that the words of the command line name. Answers the exit status. */
async function main(args) {
  const { values } = wordsOf({ args, options: WORDS });
  if (values.help) {
    process.stdout.write(USAGE);
    return 0;
  }
  const names = values.part ?? Object.keys(PARTS);
  const unknown = names.find((name) => !Object.hasOwn(PARTS, name));
  if (unknown !== undefined) throw new UserError(`--part ${unknown}: the parts are ${Object.keys(PARTS).join(', ')}`);
  const jobs = countOf('jobs', values.jobs ?? `${availableParallelism()}`, 64);
  const counts = Object.entries(COUNTS).map(([name, usual]) => [name, countOf(name, values[name] ?? `${usual}`)]);
  const wmlab = findProgram(values.wmlab);
  await examine(wmlab, MODULE);
  const { passed, failed } = await runParts(names, { wmlab, ...Object.fromEntries(counts) }, jobs);
  console.log(`${passed} passed, ${failed} failed`);
  return failed || !passed ? 1 : 0;
}

try {
  process.exitCode = await main(process.argv.slice(2));
} catch (error) {
  console.error(error instanceof UserError ? `test.mjs: ${error.message}` : error);
  process.exitCode = error instanceof UserError ? 2 : 3;
}
