/** The starts of a recording: exported functions with their arguments. */

import { UserError } from './errors.mjs';

/** A start in the form `name` or `name:argument:argument`; an argument is a decimal integer, or 0x and hexadecimal digits. */
export function parseStart(word) {
  const [name, ...args] = word.split(':');
  const wrong = args.find((arg) => !/^(-?\d+|0x[0-9a-f]+)$/i.test(arg));
  if (wrong !== undefined) {
    throw new UserError(`start ${word}: the argument "${wrong}" is not an integer; write one as in work:7 or work:-1`);
  }
  return { name, args: args.map(BigInt) };
}

/** A name as it is shown in one line. */
const shown = (name) => (/[\u0000-\u001f\u007f-\u009f\u2028\u2029]/.test(name) ? JSON.stringify(name) : name);

const counted = (count) => `${count} ${count === 1 ? 'argument' : 'arguments'}`;

/** A start of an exported function, with its arguments as unsigned integers, as a log has them. */
export function unsignedStart({ name, args }, functions) {
  const parameters = functions.get(name);
  if (!parameters) {
    const known = [...functions.keys()].map(shown).join(', ') || 'none';
    throw new UserError(`start ${name}: no function is exported under this name; exported are ${known}`);
  }
  const usage = [name, ...parameters.map((type) => type.toUpperCase())].join(':');
  if (parameters.length !== args.length) {
    const counts = `${name} takes ${counted(parameters.length)}, and ${args.length} ${args.length === 1 ? 'is' : 'are'} given`;
    throw new UserError(`start ${[name, ...args].join(':')}: ${counts}; write ${usage}`);
  }
  return { name, args: args.map((value, k) => unsigned(value, parameters[k], name)) };
}

/** An argument without a sign: a negative one wraps. */
function unsigned(value, type, name) {
  const bits = type === 'i64' ? 64 : 32;
  const least = -(1n << BigInt(bits - 1)), most = (1n << BigInt(bits)) - 1n;
  if (value < least || value > most) {
    throw new UserError(`start ${name}: the argument ${value} does not fit ${type}; write an integer from ${least} to ${most}`);
  }
  return BigInt.asUintN(bits, value);
}

/** The arguments of a start in the form that JavaScript hands to WebAssembly. */
export const argumentsOf = (start, parameters) => start.args.map((value, k) => (
  parameters[k] === 'i64' ? BigInt.asIntN(64, value) : Number(BigInt.asIntN(32, value))));
