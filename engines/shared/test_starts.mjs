/** Tests of starts and options: what is refused, and in which form arguments come into a log and to an engine. */

import { moduleOf } from '../lowering/test_modules.mjs';
import { UserError } from './errors.mjs';
import { refuseOptions, startsOf } from './recorder.mjs';
import { argumentsOf, parseStart, unsignedStart } from './starts.mjs';

const TAKING = moduleOf({
  types: [[0x60, 0, 0], [0x60, 2, 0x7f, 0x7e, 0]], functions: [{ code: [], exported: 'none' }, { code: [], type: 1, exported: 'two' }],
});

const ODDLY_NAMED = moduleOf({ functions: [{ code: [], exported: 'a\nb' }, { code: [], exported: 'c' }] });

/** What cannot be recorded, or is not there, and what the refusal says. */
const REFUSED = /** @type {[() => unknown, RegExp][]} */ ([
  [() => startsOf(moduleOf({ functions: [], types: [], memory: null }), [parseStart('a')]), /no function is exported under this name; exported are none$/],
  [() => startsOf(TAKING, [parseStart('none:1:2')]), /^start none:1:2: none takes 0 arguments, and 2 are given; write none$/],
  [() => startsOf(TAKING, [parseStart('two:1')]), /^start two:1: two takes 2 arguments, and 1 is given; write two:I32:I64$/],
  [() => startsOf(TAKING, [parseStart('other')]), /^start other: no function is exported under this name; exported are none, two$/],
  [() => startsOf(ODDLY_NAMED, [parseStart('b')]), /^start b: no function is exported under this name; exported are "a\\nb", c$/],
  [() => refuseOptions({ mode: 'fast' }, ['a']), /^mode fast: the modes are locked, buffered, free$/],
  [() => refuseOptions({ mode: 'free', wrong: 'fence' }, ['a']), /^--wrong fence: expected plain-atomics, torn-store, stale-load$/],
  [() => refuseOptions({ mode: 'locked', wrong: 'stale-load' }, ['a']), /^--wrong needs --mode buffered or --mode free$/],
  [() => refuseOptions({ mode: 'free' }, []), /^no start is given/],
  ...[[0x11, 0, 0], [0x43, 0, 0, 0, 0], [0x44, ...Array(8).fill(0)], [0xc5], [0xfd, 12], [0xfe, 3, 0]].map((code) => (
    [() => startsOf(moduleOf({ functions: [{ code, exported: 'a' }] }), []), /^opcode [0-9a-f ]+ cannot be recorded$/])),
  ...[[0, 0], [1, 0x70, 0, 1], [3, 0x7f, 0]].map((item) => (
    [() => startsOf(moduleOf({ functions: [], imports: [[1, 101, 1, 116, ...item]] }), []), /^an import that is not a memory cannot be recorded$/])),
]);

function testRefused({ note }) {
  const saysSo = ([action, pattern]) => {
    try {
      action();
      return false;
    } catch (error) {
      return error instanceof UserError && pattern.test(error.message);
    }
  };
  const wrong = REFUSED.filter((one) => !saysSo(one)).map(([, pattern]) => pattern.source);
  note(!wrong.length, `${REFUSED.length} starts, options and modules are refused`, wrong.join('; '));
}

/** Arguments as words, as a log has them, and as a WebAssembly function takes them. */
const ARGUMENTS = [
  ['i32', '-1', 4294967295n, -1], ['i32', '4294967295', 4294967295n, -1], ['i32', '-2147483648', 2147483648n, -2147483648],
  ['i32', '0x7fffffff', 2147483647n, 2147483647], ['i64', '-1', 2n ** 64n - 1n, -1n], ['i64', '18446744073709551615', 2n ** 64n - 1n, -1n],
  ['i64', '-9223372036854775808', 2n ** 63n, -(2n ** 63n)], ['i64', '0xFF', 255n, 255n],
];
const TOO_LARGE = [['i32', '4294967296'], ['i32', '-2147483649'], ['i64', '18446744073709551616'], ['i64', '-9223372036854775809']];

function testArguments({ note }) {
  const made = (type, word) => unsignedStart(parseStart(`f:${word}`), new Map([['f', [type]]]));
  const wrong = ARGUMENTS.filter(([type, word, logged, handed]) => {
    const start = made(type, word);
    return start.args[0] !== logged || argumentsOf(start, [type])[0] !== handed;
  });
  const taken = TOO_LARGE.filter(([type, word]) => {
    try {
      return made(type, word);
    } catch (error) {
      return !(error instanceof UserError);
    }
  });
  note(!wrong.length && !taken.length, 'arguments up to the limits of their types', `${wrong} ${taken}`);
}

export function testStarts(context) {
  testRefused(context);
  testArguments(context);
}
