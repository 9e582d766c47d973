/** The command line of engines/self. */

import { readFileSync, writeFileSync } from 'node:fs';
import { UserError, withFile } from '../shared/errors.mjs';
import { endsOf, json } from '../shared/document.mjs';
import { HELP, TEXT, countOf, endOnLostOutput, wordsOf } from '../shared/command_line.mjs';
import { ask, examine, findProgram } from '../shared/wmlab.mjs';
import { readRecording } from './region.mjs';
import { recordingModule } from './rewrite.mjs';

export const USAGE = `Makes a module record itself, so that engines without JavaScript can run it, and reads what it recorded.

USAGE
    engines/self module MODULE.wasm -o OUT.wasm [--events N]
    engines/self log MODULE.wasm MEMORY
    engines/self check MODULE.wasm MEMORY [--wmlab PROGRAM]

    module    writes the module that records itself. Run its exports, each in a thread with an instance of its own, over one
              shared memory of zeros that each instance imports; then copy all of that memory to a file
    log       prints the log that is in the copy, with the steps and ends left to \`wmlab complete\`
    check     has the log completed and checked, compares the results, and prints the verdict

    MODULE.wasm is the module as wmlab takes it, MEMORY the copy of the memory, or - for the standard input.

OPTIONS
    -o, --out FILE      the module that records itself
    --events N          the most events of a run (16384, the most that a log has)
    --wmlab PROGRAM     the program that checks (the one that ./wmlab --which names)
    --help              print this text

EXIT STATUS
    0    done; of check: the log is allowed
    1    of check: the log is not allowed, or an end differs
    2    the command line, a file or the module is refused, in one line on standard error
    3    a fault of this program
`;

const MOST_EVENTS = 16_384;
const read = (path) => withFile(`read ${path}`, () => readFileSync(path === '-' ? 0 : path));

/** The bytes of a file that has to be a module. */
function readModuleFile(path) {
  const bytes = read(path);
  if (!WebAssembly.validate(bytes)) throw new UserError(`${path}: it is not a WebAssembly module`);
  return bytes;
}

function writeModule([path], { out, events }) {
  if (out === undefined) throw new UserError('no output is given; write -o OUT.wasm');
  const { bytes, layout, memory } = recordingModule(readModuleFile(path), { capacity: countOf('events', events, MOST_EVENTS) });
  if (!WebAssembly.validate(bytes)) throw new Error(`${path}: the module that records itself is not valid`);
  withFile(`write ${out}`, () => writeFileSync(out, bytes));
  const imported = `${memory.module}.${memory.name}, a shared memory of ${layout.allPages} pages`;
  console.log(`it imports ${imported}; its recording begins at byte ${layout.base}`);
  return 0;
}

function printLog([path, memory]) {
  const { document, isFull } = readRecording(readModuleFile(path), read(memory));
  if (isFull) console.error('self: all events are used up, so that threads were cut; a longer run needs more --events');
  console.log(document);
  return 0;
}

async function checkLog([path, memory], { wmlab }) {
  const recording = readRecording(readModuleFile(path), read(memory));
  const program = findProgram(wmlab);
  await examine(program, path);
  const line = await verdictOn(program, path, recording);
  console.log(line);
  return line.startsWith('allowed ') ? 0 : 1;
}

/** The line of `wmlab check` on a recording that was completed, or how an end differs. */
export async function verdictOn(program, path, { document, ends }) {
  const completed = await ask(program, ['complete', path, '-'], document);
  if (completed.status !== 0) return completed.text;
  const ran = endsOf(completed.text);
  const other = ends.findIndex((end, thread) => end && json(end) !== ran[thread]);
  if (other >= 0) return `thread ${other} ended with ${json(ends[other])}, and its run with ${ran[other]}`;
  return (await ask(program, ['check', path, '-'], completed.text)).text;
}

/** The commands, each with how many files it takes. */
const COMMANDS = { module: [writeModule, 1], log: [printLog, 2], check: [checkLog, 2] };

async function run(args) {
  const { values, positionals } = wordsOf({
    args,
    allowPositionals: true,
    options: { out: { ...TEXT, short: 'o' }, events: TEXT, wmlab: TEXT, ...HELP },
  });
  if (values.help) {
    process.stdout.write(USAGE);
    return 0;
  }
  const [command, ...files] = positionals;
  if (!Object.hasOwn(COMMANDS, command ?? '')) {
    throw new UserError(`command ${command ?? '(none)'}: expected module, log or check; --help prints the usage`);
  }
  const [action, count] = COMMANDS[command];
  if (files.length !== count) {
    throw new UserError(`${command}: ${files.length} files are given; expected ${count}; --help prints the usage`);
  }
  return action(files, { events: String(MOST_EVENTS), ...values });
}

/** Does what the words of the command line ask. Answers the exit status. */
export async function main(args) {
  endOnLostOutput('self');
  try {
    return await run(args);
  } catch (error) {
    console.error(error instanceof UserError ? `self: ${error.message}` : error);
    return error instanceof UserError ? 2 : 3;
  }
}
