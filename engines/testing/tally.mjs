/** What tests share: counting, and running commands. */

import { spawnSync } from 'node:child_process';
import { existsSync, readFileSync } from 'node:fs';

const MOST_SHOWN = 1_000;
const inOneLine = (text) => text.trim().replaceAll(/\s*\n\s*/g, ' | ').slice(0, MOST_SHOWN);

/** Runs a command to its end. Answers its status (or the signal, or why it was not started) and what it printed. */
export function run(command, args, options = {}) {
  const { status, signal, error, stdout, stderr } = spawnSync(command, args, { encoding: 'utf8', ...options });
  return { status: status ?? signal ?? error?.code, out: stdout ?? '', err: stderr ?? '' };
}

/** The text of a file, or nothing if it is not there. */
export const textOf = (path) => (existsSync(path) ? readFileSync(path, 'utf8') : '');

/** Whether a tool can be started. */
export const isThere = (tool) => !spawnSync(tool, ['--version']).error;

/** What a command did, in one line. */
const shown = ({ status, out, err }) => `status ${status}, standard error "${inOneLine(err)}", standard output "${inOneLine(out)}"`;

export class Tally {
  passed = 0;
  failed = 0;
  notTested = 0;

  /**
   * Counts whether something holds, and prints a line. If it does not, the line has what the command did: `ran` is an answer of
   * `run`, several of them, or a string.
   */
  note = (holds, what, ...ran) => {
    if (holds) this.passed++;
    else this.failed++;
    const reasons = ran.map((each) => (typeof each === 'string' ? inOneLine(each) : shown(each)));
    console.log(holds ? `ok     ${what}` : ['FAILED ' + what, ...reasons].join(': '));
  };

  /** Prints what is not tested, and why. */
  leftOut = (what, reason) => {
    this.notTested++;
    console.log(`       ${what}: left out, since ${reason}`);
  };

  get line() {
    return `${this.passed} passed, ${this.failed} failed, ${this.notTested} left out`;
  }
}
