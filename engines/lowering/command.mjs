/** The command line of engines/lower. */

import { readFileSync, writeFileSync } from 'node:fs';
import { UserError, withFile } from '../shared/errors.mjs';
import { HELP, TEXT, countOf, endOnLostOutput, wordsOf } from '../shared/command_line.mjs';
import { Refused, lower } from './lower.mjs';

export const USAGE = `Brings a module that a compiler made into the part of WebAssembly that wmlab takes.

USAGE
    engines/lower MODULE.wasm -o OUT.wasm [OPTIONS]

OPTIONS
    -o, --out FILE      the lowered module
    --stacks each       each exported function starts with a stack of its own
    --stacks N          each exported function NAME becomes NAME.0 to NAME.N-1, each with a stack of its own
    --stacks auto       each, if the program uses the stack; with --tls N as many
    --stacks none       all threads start with the one stack of the module; this is the default
    --stack-bytes N     the size of such a stack, a multiple of 16 (4096)
    --tls WORD          the same words for thread-local variables: each start has a block of them with their initial values
    --soft-floats       arithmetic of floats becomes integer functions; the bits of a NaN may differ
    --no-growth         memory.grow always fails; else the module has the pages up to its maximum, of at most 16
    --quiet             print no changes
    --help              print this text

It prints each change in a line. docs/LOWERING.md describes them.

EXIT STATUS
    0    the lowered module is written
    2    the command line, a file or the module is refused, with each part that has no lowering in a line on standard error
    3    a fault of this program
`;

const MOST_COPIES = 16;
const MOST_STACK_BYTES = 1_048_576;

/** What the words of a command line ask for, or null for `--help`. */
function optionsOf(args) {
  const { values, positionals } = wordsOf({
    args,
    allowPositionals: true,
    options: {
      out: { ...TEXT, short: 'o' }, stacks: TEXT, 'stack-bytes': TEXT, tls: TEXT, 'no-growth': { type: 'boolean' },
      'soft-floats': { type: 'boolean' },
      quiet: { type: 'boolean' }, ...HELP,
    },
  });
  if (values.help) return null;
  if (positionals.length !== 1) {
    throw new UserError(`${positionals.length} modules are given; expected one; --help prints the usage`);
  }
  if (values.out === undefined) throw new UserError('no output is given; write -o OUT.wasm');
  const { stacks = 'none', tls = 'none', quiet = false, out } = values;
  const stackBytes = countOf('stack-bytes', values['stack-bytes'] ?? '4096', MOST_STACK_BYTES);
  if (stackBytes % 16) throw new UserError(`--stack-bytes ${stackBytes}: expected a multiple of 16`);
  if (values['stack-bytes'] !== undefined && stacks === 'none') {
    throw new UserError('--stack-bytes needs --stacks, without which all threads have the one stack of the module');
  }
  return {
    module: positionals[0], out, quiet, stackBytes,
    stacks: copiesOf('stacks', stacks), tls: copiesOf('tls', tls), growth: !values['no-growth'],
    softFloats: values['soft-floats'] ?? false,
  };
}

/** What `--stacks` or `--tls` is: null, `each`, `auto` or a number. */
function copiesOf(name, word) {
  if (word === 'none') return null;
  return word === 'each' || word === 'auto' ? word : countOf(name, word, MOST_COPIES);
}

/** Refuses what is not a module, in V8's words. */
function requireModule(path, bytes) {
  try {
    return new WebAssembly.Module(bytes);
  } catch (error) {
    if (!(error instanceof WebAssembly.CompileError)) throw error;
    throw new UserError(`${path}: ${error.message.replace(/^.*?: /, '')}; expected a WebAssembly module`);
  }
}

function run({ module, out, quiet, ...options }) {
  const bytes = withFile(`read ${module}`, () => readFileSync(module));
  requireModule(module, bytes);
  const lowered = lower(bytes, options);
  if (!WebAssembly.validate(lowered.bytes)) throw new Error(`${module}: the lowered module is not valid`);
  withFile(`write ${out}`, () => writeFileSync(out, lowered.bytes));
  if (!quiet) for (const change of lowered.changes) console.log(change);
}

/** What is printed for an error, and its status. */
function complaint(error) {
  if (error instanceof Refused) {
    const lines = error.refusals.map(({ feature, place, what, reason }) => `lower: ${place}: ${what} (${feature}): ${reason}`);
    return [lines.join('\n'), 2];
  }
  return error instanceof UserError ? [`lower: ${error.message}`, 2] : [error, 3];
}

/** Lowers as the words of the command line ask. Answers the exit status. */
export function main(args) {
  endOnLostOutput('lower');
  try {
    const options = optionsOf(args);
    if (options) run(options);
    else process.stdout.write(USAGE);
    return 0;
  } catch (error) {
    const [text, status] = complaint(error);
    console.error(text);
    return status;
  }
}
