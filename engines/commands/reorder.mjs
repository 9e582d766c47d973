#!/bin/sh
':' //; command -v node >/dev/null || { echo "${0##*/}: node is not installed (Debian: nodejs)" >&2; exit 2; }; exec node "$0" "$@"
/** Looks for another witness of a log that a memory rule refuses. `--help` prints the usage. */

import { readFileSync } from 'node:fs';
import { HELP, TEXT, countOf, endOnLostOutput, fileOf, wordsOf } from '../shared/command_line.mjs';
import { UserError, withFile } from '../shared/errors.mjs';
import { logsOf } from '../shared/logs.mjs';
import { initialOf } from '../shared/recorder.mjs';
import { GAVE_UP, NO_WITNESS } from '../shared/verdict.mjs';
import { Judge, STOPPED, Stopped, ask, findProgram, isUsersStop, onStop } from '../shared/wmlab.mjs';

const USAGE = `Looks for writers and an order of a log's events that the memory rules allow, if a rule refuses the log.

USAGE
    engines/reorder [OPTIONS] MODULE DOC

    DOC is a log, or the events of a run alone as the recorder keeps them; - is standard input.

OPTIONS
    --steps N         the most choices of a search on a machine with store buffers (2000000)
    --nodes N         the most nodes of the search by the rules, wmlab witness (100000)
    --seconds N       the longest of the searches (20)
    --wmlab PROGRAM   the program that checks (the one that ./wmlab --which names)
    --help            print this text

It prints the log with the witness found, or with its own if that is allowed. Steps and ends are those that the module gives, as
by wmlab complete. The machine is quick on long logs of engines that are right; wmlab witness decides the others.

EXIT STATUS
    0    the printed log is allowed
    1    no witness: no writers and no order make the values allowed; or the module does not make the events; one line
    2    the search gave up, which says nothing about the log; or a file or word is refused; one line on standard error
    3    a fault of this command
    130  stopped by Ctrl-C or SIGTERM
`;

function optionsOf(args) {
  const options = { steps: TEXT, nodes: TEXT, seconds: TEXT, wmlab: TEXT, ...HELP };
  const { values, positionals } = wordsOf({ args, allowPositionals: true, options });
  if (values.help) return null;
  if (positionals.length !== 2) {
    throw new UserError('expected MODULE and DOC; --help prints the usage');
  }
  const [module, path] = positionals.map(fileOf);
  const usual = { steps: '2000000', nodes: '100000', seconds: '20' };
  const [steps, nodes, seconds] = Object.keys(usual).map((name) => countOf(name, values[name] ?? usual[name]));
  return { module, path, steps, nodes, seconds, wmlab: values.wmlab };
}

const read = (path) => withFile(`read ${path}`, () => readFileSync(path === '-' ? 0 : path, 'utf8'));

/** The document in version 2. Events without a witness have a form that the program refuses as a log, so they stay as they are. */
async function migrated(program, text) {
  const { text: line, status } = await ask(program, ['migrate', '-'], text);
  if (status === 0) return line;
  throw new UserError(`the log is not read: ${line}`);
}

/** Whether an answer of `check` can change with another witness. */
const dependsOnWitness = (line) => /^(broken V\d|refused shape )/.test(line);

/** The engine's ends are not known, so none is compared. */
const NO_ENDS = [];

/** Prints a line, and answers the status. */
function end(line, status) {
  (status === 2 ? console.error : console.log)(status === 2 ? `reorder: ${line}` : line);
  return status;
}

/** Looks through the witnesses that a search on a machine finds, and then asks the rules. */
async function search(judge, document, { module, steps, nodes, seconds }) {
  const initial = initialOf(withFile(`read ${module}`, () => readFileSync(module)));
  for await (const log of logsOf(document, initial, { steps, seconds, isStrict: true })) {
    const answer = await judge.judge(log, NO_ENDS);
    if (answer.line.startsWith('allowed')) return end(answer.document, 0);
    if (!dependsOnWitness(answer.line)) return end(answer.line, answer.line.startsWith('broken') ? 1 : 2);
  }
  const { document: settled, line } = await judge.settle(document, NO_ENDS, { seconds, nodes });
  if (line.startsWith('allowed')) return end(settled, 0);
  if (line.startsWith(GAVE_UP)) return end(line, 2);
  return end(line, line.startsWith(NO_WITNESS) || line.startsWith('broken') ? 1 : 2);
}

async function main(args) {
  const options = optionsOf(args);
  if (!options) {
    process.stdout.write(USAGE);
    return 0;
  }
  const judge = await Judge.open(findProgram(options.wmlab), options.module);
  try {
    const document = await migrated(judge.program, read(options.path));
    const { document: completed, line } = await judge.judge(document, NO_ENDS);
    if (line.startsWith('allowed')) return end(completed, 0);
    if (!dependsOnWitness(line)) {
      if (line.startsWith('broken')) return end(line, 1);
      throw new UserError(line);
    }
    return await search(judge, document, options);
  } finally {
    judge.close();
  }
}

endOnLostOutput('reorder');
onStop(() => process.exit(STOPPED));
try {
  process.exitCode = await main(process.argv.slice(2));
} catch (error) {
  const isExpected = error instanceof UserError || error instanceof Stopped;
  console.error(isExpected ? `reorder: ${error.message}` : error);
  process.exit(isUsersStop(error) ? STOPPED : isExpected ? 2 : 3);
}
