/** Runs parts of the tests in processes, several at once, and adds up what they count. */

import { spawn } from 'node:child_process';
import { fileURLToPath } from 'node:url';

const RUN_PART = fileURLToPath(new URL('./run_part.mjs', import.meta.url));

/** A part that takes longer is killed, and has failed. */
const MOST_SECONDS = 1_200;

/** What a part printed before the line with its counts, and those; a part without this line, or without a test, has failed. */
function countsOf(name, text, ending) {
  const counts = /^([^]*?)(\d+) passed, (\d+) failed, (\d+) left out\n$/.exec(text);
  const [before, passed, failed, leftOut] = counts ? [counts[1], ...counts.slice(2).map(Number)] : [text, 0, 0, 0];
  if (counts && passed + failed + leftOut > 0) return { text: before, passed, failed };
  const problem = counts ? 'it tested nothing' : `it ended with ${ending}, without its counts`;
  return { text: `${before}FAILED ${name}: ${problem}\n`, passed, failed: failed + 1 };
}

/** Runs a part to its end, and prints all of its lines at once. */
async function runPart(name, options) {
  const start = performance.now();
  const child = spawn(process.execPath, [RUN_PART, name, JSON.stringify(options)], { stdio: ['ignore', 'pipe', 'pipe'] });
  const printed = [];
  for (const stream of [child.stdout, child.stderr]) stream.on('data', (bytes) => printed.push(bytes));
  const late = setTimeout(() => child.kill('SIGKILL'), 1_000 * MOST_SECONDS);
  const ending = await new Promise((resolve) => { child.on('close', (status, signal) => resolve(signal ?? `status ${status}`)); });
  clearTimeout(late);
  const { text, passed, failed } = countsOf(name, Buffer.concat(printed).toString(), ending);
  const seconds = ((performance.now() - start) / 1_000).toFixed(1);
  process.stdout.write(`${text}       ${name}: ${passed} passed, ${failed} failed, ${seconds} s\n`);
  return { name, passed, failed, seconds };
}

const sumOf = (parts, count) => parts.reduce((sum, part) => sum + part[count], 0);

/**
 * Runs the parts of these names, at most `jobs` at once, and then prints how long each took. Answers how many tests passed and
 * failed.
 */
export async function runParts(names, options, jobs) {
  const start = performance.now();
  const waiting = [...names];
  const parts = [];
  const work = async () => {
    for (let name = waiting.shift(); name !== undefined; name = waiting.shift()) parts.push(await runPart(name, options));
  };
  await Promise.all(Array.from({ length: jobs }, work));
  parts.sort((one, other) => other.seconds - one.seconds);
  for (const { name, seconds } of parts) console.log(`part: ${name} ${seconds} s`);
  const seconds = ((performance.now() - start) / 1_000).toFixed(1);
  console.log(`parts: ${parts.length}, at most ${jobs} at once, ${seconds} s`);
  return { passed: sumOf(parts, 'passed'), failed: sumOf(parts, 'failed') };
}
