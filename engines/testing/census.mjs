#!/bin/sh
':' //; command -v node >/dev/null || { echo "${0##*/}: node is not installed (Debian: nodejs)" >&2; exit 2; }; exec node "$0" "$@"
/** Counts the verdicts on many logs of each program of examples/, in each mode of an engine. `--help` prints the usage. */

import { fileURLToPath } from 'node:url';
import { UserError } from '../shared/errors.mjs';
import { MODES } from '../shared/recorder.mjs';
import { Table } from '../shared/table.mjs';
import { findProgram } from '../shared/wmlab.mjs';
import { ENGINES } from '../node/options.mjs';
import { HELP, TEXT, countOf, wordsOf } from '../shared/command_line.mjs';
import { programsOf } from './programs.mjs';
import { isClassic, run } from './test_programs.mjs';

const EXAMPLES = fileURLToPath(new URL('../../examples', import.meta.url));

const USAGE = `Records every program of examples/ in each mode, and counts the verdicts and the weak outcomes.

USAGE
    engines/testing/census.mjs [--engine ENGINE] [--rounds N] [--wmlab PROGRAM]

    ENGINE is node, chromium, firefox or webkit (node); N the rounds of each program and mode (80).

The number of programs so far is on standard error. The status is 0 if each log is allowed, 1 if not, 2 for a mistake.
`;

async function main() {
  const { values } = wordsOf({ options: { engine: TEXT, rounds: TEXT, wmlab: TEXT, ...HELP } });
  if (values.help) return process.stdout.write(USAGE);
  const engine = values.engine ?? 'node';
  if (!ENGINES.includes(engine)) throw new UserError(`--engine ${engine}: the engines are ${ENGINES.join(', ')}`);
  const rounds = countOf('rounds', values.rounds ?? '80');
  const wmlab = findProgram(values.wmlab);
  let logs = 0, allowed = 0;
  const others = new Table();
  const programs = await programsOf(EXAMPLES, wmlab);
  for (const [number, program] of programs.entries()) {
    for (const mode of MODES) {
      const seen = await run(program, wmlab, { engine, mode, rounds });
      logs += rounds;
      allowed += seen.allowed;
      for (const [line, count] of seen.others) for (let k = 0; k < count; k++) others.add(`${program.name}, ${mode}: ${line}`);
      if (isClassic(program.name)) console.log(`${engine}, ${program.name}, ${mode}: ${seen.weak} weak of ${rounds}`);
    }
    console.error(`${number + 1} of ${programs.length} programs: ${allowed} of ${logs} logs allowed`);
  }
  console.log([...others.lines(), `${engine}: ${allowed} of ${logs} logs allowed`].join('\n'));
  process.exitCode = allowed === logs ? 0 : 1;
  return null;
}

try {
  await main();
} catch (error) {
  console.error(error instanceof UserError ? `census.mjs: ${error.message}` : error);
  process.exit(error instanceof UserError ? 2 : 3);
}
