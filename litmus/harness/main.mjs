#!/bin/sh
':' //; command -v node >/dev/null || { echo "${0##*/}: node is not installed (Debian: nodejs)" >&2; exit 2; }; exec node "$0" "$@"
// @ts-check
/**
 * The part of litmus/run that runs tests in an engine. Standard input has a line of JSON with the engine and the options, and then one
 * for each test, until it ends. Each line of standard output is JSON: `engine` with its version, `progress`, `result`, `failed`, or
 * `again` if the engine ended in a test, which is tried once more.
 */

import { text } from 'node:stream/consumers';
import { UserError } from '../../engines/shared/errors.mjs';
import { openNode } from './node.mjs';

/** After so many tests in which the engine ended twice the rest is left out. */
const MOST_LOST = 2;

const print = (/** @type {object} */ value) => process.stdout.write(`${JSON.stringify(value)}\n`);

/**
 * @param {any} given
 */
async function open(given) {
  if (given.engine === 'node') return openNode(given);
  const { openBrowserHarness } = await import('./browser.mjs');
  return openBrowserHarness(given);
}

/** An engine that is opened again if it ends in a test: that test has a second try, and the next one goes on. */
class Session {
  /**
   * @param {any} given
   * @param {() => boolean} isStopped
   */
  constructor(given, isStopped) {
    this.given = given;
    this.options = { ...given.options, isStopped };
    /** How many tests one after the other had no engine left after their second try. */
    this.lost = 0;
    /** @type {any} */
    this.engine = null;
  }

  async open() {
    this.engine = await open(this.given);
    print({ engine: this.engine.version });
  }

  /**
   * Runs a test and prints what came. Answers whether the engine is still there.
   *
   * @param {any} task
   * @param {boolean} isLast whether an engine that ends in it is a failure of the test
   */
  async try(task, isLast) {
    const { engine } = this;
    const tell = (/** @type {number} */ done) => print({ progress: { name: task.name, done } });
    try {
      const result = await engine.run(task, { ...this.options, ...task.options, tell });
      print({ result: { name: task.name, ...result, pinned: engine.pins.pinned, pinProblem: engine.pins.problem } });
      return true;
    } catch (error) {
      const { message } = /** @type {Error} */ (error);
      const isGone = engine.isGone?.() ?? false;
      print(isGone && !isLast ? { again: { name: task.name, message } } : { failed: { name: task.name, message } });
      return !isGone;
    }
  }

  /**
   * Runs a test. Answers whether the next one may follow.
   *
   * @param {any} task
   */
  async run(task) {
    for (const isLast of [false, true]) {
      if (await this.try(task, isLast)) {
        this.lost = 0;
        return true;
      }
      if (this.options.isStopped()) return false;
      if (isLast && ++this.lost === MOST_LOST) {
        print({ failed: { name: null, message: `the engine ended in ${MOST_LOST} tests one after the other` } });
        return false;
      }
      await this.engine.close();
      await this.open();
    }
    return true;
  }
}

async function main() {
  let isStopped = false;
  process.on('SIGINT', () => { isStopped = true; });
  process.stdout.on('error', () => process.exit(3));
  const [head, ...tasks] = (await text(process.stdin)).trim().split('\n');
  const session = new Session(JSON.parse(head), () => isStopped);
  await session.open();
  for (const task of tasks) if (isStopped || !await session.run(JSON.parse(task))) break;
  if (isStopped) print({ failed: { name: null, message: 'the harness had an interrupt' } });
  await session.engine.close();
  process.exit(0);
}

try {
  await main();
} catch (error) {
  const { message } = /** @type {Error} */ (error);
  print({ failed: { name: null, message: error instanceof UserError ? message : `${error}` } });
  process.exit(2);
}
