/** What the command lines share. */

import { parseArgs } from 'node:util';
import { UserError, reasonOf } from './errors.mjs';

/** The number that an option has: an integer from 1 to `most`. */
export function countOf(option, text, most = 999_999_999) {
  if (!/^\d+$/.test(text) || Number(text) < 1 || Number(text) > most) {
    throw new UserError(`--${option} ${text}: expected an integer from 1 to ${most}`);
  }
  return Number(text);
}

/** What begins with a hyphen and is no option, as the outcome `- 0` and the number -1. */
const isPlain = (word) => /^-(?!-)/.test(word) && !/^-[a-z]+$/i.test(word);

/** The words with each `--option - 0` as `--option=- 0`, which `parseArgs` takes for the option's text. */
function withJoinedTexts(args, options) {
  const joined = [];
  const end = args.includes('--') ? args.indexOf('--') : args.length;
  for (let at = 0; at < args.length; at++) {
    const isText = at + 1 < end && args[at].startsWith('--') && options[args[at].slice(2)]?.type === 'string';
    joined.push(isText && isPlain(args[at + 1]) ? `${args[at]}=${args[++at]}` : args[at]);
  }
  return joined;
}

/**
 * The words of a command line as `parseArgs` answers them; its complaints become a `UserError`.
 *
 * @param {{ args?: string[], options: Record<string, import('node:util').Option>, allowPositionals?: boolean }} config
 */
export function wordsOf({ args = process.argv.slice(2), ...config }) {
  try {
    return parseArgs({ args: withJoinedTexts(args, config.options), ...config });
  } catch (error) {
    if (!error.code?.startsWith('ERR_PARSE_ARGS')) throw error;
    throw new UserError(error.message.split(/\n|\. To /)[0].replace('argument is ambiguous.', 'has no argument'));
  }
}

/** A file's name that no program takes for an option. */
export const fileOf = (word) => (/^-./.test(word) ? `./${word}` : word);

/** Ends the program if its output cannot be written: without a word if its reader ended early, as `head` does. */
export function endOnLostOutput(program) {
  process.stdout.on('error', (error) => {
    if (error.code !== 'EPIPE') console.error(`${program}: cannot write the output: ${reasonOf(error)}`);
    process.exit(3);
  });
}

/** Options of `parseArgs`: a word, a word that can be repeated, and `--help`. */
/** @type {import('node:util').Option} */
export const TEXT = { type: 'string' };
/** @type {import('node:util').Option} */
export const SEVERAL = { type: 'string', multiple: true };
/** @type {Record<string, import('node:util').Option>} */
export const HELP = { help: { type: 'boolean', short: 'h' } };
