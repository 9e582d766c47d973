/** Runs one part of the tests: its words are the part's name, and its options as JSON. The last line has its counts. */

import { PARTS } from './parts.mjs';
import { Tally } from './tally.mjs';

const [name, options] = process.argv.slice(2);
const tally = new Tally();
try {
  await PARTS[name]({ note: tally.note, leftOut: tally.leftOut, ...JSON.parse(options) });
} catch (error) {
  tally.note(false, `${name} runs to its end`, `${error.stack ?? error}`);
}
// Some tests leave timers and searches that would go on.
process.stdout.write(`${tally.line}\n`, () => process.exit(tally.failed ? 1 : 0));
