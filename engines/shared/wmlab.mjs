/** Finds `wmlab`, and asks it. A log is one question: a line for the one process of `wmlab stream`. */

import { spawn, spawnSync } from 'node:child_process';
import { accessSync, constants, realpathSync, statSync } from 'node:fs';
import { homedir } from 'node:os';
import { join, resolve } from 'node:path';
import { createInterface } from 'node:readline';
import { fileURLToPath } from 'node:url';
import { endInLog, isTired, isWithoutWitness, json, parse, withSomeWitness } from './document.mjs';
import { UserError } from './errors.mjs';
import { GAVE_UP, NO_WITNESS } from './verdict.mjs';

const place = (path) => fileURLToPath(new URL(path, import.meta.url));

/** The launcher of the repository, and the programs that it may name. */
const LAUNCHER = '../../wmlab';
const BUILT = ['../../.built/wmlab', '../../crates/wmlab/out/wmlab', '../../.built/quick'];
/** The same of a clone that cannot be written: they are below the folder for caches. */
function builtInCaches() {
  const clone = realpathSync(place('../..')).replaceAll('/', '%');
  const folder = join(process.env.XDG_CACHE_HOME || join(homedir(), '.cache'), 'wmlab', 'built', clone);
  return ['wmlab', 'quick'].map((name) => join(folder, name));
}
/** The program beside an installed recorder, which is in share/wmlab/engines/shared. */
const INSTALLED = '../../../../lib/wmlab/wmlab';

function isProgram(path) {
  try {
    accessSync(path, constants.X_OK);
    return statSync(path).isFile();
  } catch {
    return false;
  }
}

/** The path of the program: the one given, else the one that the launcher names, else the installed one. */
export function findProgram(given) {
  if (given !== undefined) {
    if (!isProgram(given)) throw new UserError(`--wmlab ${given}: no program is there`);
    return resolve(given);
  }
  if (isProgram(place(LAUNCHER)) && [...BUILT.map(place), ...builtInCaches()].some(isProgram)) {
    // A program that is older than its sources is built again here, as for any other command.
    const answer = spawnSync(place(LAUNCHER), ['--which'], { stdio: ['ignore', 'pipe', 'inherit'] });
    const path = answer.stdout.toString().trim();
    if (answer.status === 0 && isProgram(path)) return path;
    throw new UserError('./wmlab --which names no program');
  }
  if (isProgram(place(INSTALLED))) return place(INSTALLED);
  throw new UserError('there is no program wmlab yet: run ./wmlab --which (a quick build) or ./wmlab --prove, or give --wmlab PROGRAM');
}

/**
 * The processes of the program that are under way. They end with this one.
 *
 * @type {Set<import('node:child_process').ChildProcess>}
 */
const CHILDREN = new Set();

/** Starts the program. */
function start(program, words, options = {}) {
  const child = spawn(program, words, options);
  if (!CHILDREN.size) process.on('exit', endChildren);
  CHILDREN.add(child);
  child.on('close', () => {
    CHILDREN.delete(child);
    if (!CHILDREN.size) process.off('exit', endChildren);
  });
  return child;
}

function endChildren() {
  for (const child of CHILDREN) child.kill();
}

/** The signals by which a user or a batch system stops a command, and the status of a command that was stopped. */
const SIGNALS = /** @type {const} */ (['SIGINT', 'SIGTERM', 'SIGHUP']);
export const STOPPED = 130;

/** Whether an error is that the user stopped the program, as Ctrl-C in a terminal reaches it too. */
export const isUsersStop = (error) => error instanceof Stopped && SIGNALS.includes(error.signal);

/**
 * Calls a function at the first signal that stops the command. At the next one the command ends, and its processes with it.
 *
 * @param {() => void} stopped
 */
export function onStop(stopped) {
  let count = 0;
  const heard = () => (count++ ? process.exit(STOPPED) : stopped());
  for (const signal of SIGNALS) process.on(signal, heard);
}

/** The program was stopped by a signal before it answered. */
export class Stopped extends Error {
  constructor(program, signal) {
    super(`${program} was stopped by ${signal}`);
    this.signal = signal;
  }
}

/**
 * What a command prints on a document that it reads from its standard input, and its status. `begun` gets its process.
 *
 * @param {string} program
 * @param {string[]} words
 * @param {string} [document]
 * @param {(child: import('node:child_process').ChildProcess) => void} [begun]
 * @returns {Promise<{ text: string, status: number | null }>}
 */
export function ask(program, words, document, begun = () => {}) {
  return new Promise((resolve, reject) => {
    const child = start(program, words);
    begun(child);
    const printed = [], complained = [];
    child.stdout.on('data', (bytes) => printed.push(bytes));
    child.stderr.on('data', (bytes) => complained.push(bytes));
    child.on('error', (error) => reject(new UserError(`cannot run ${program}: ${error.code}`)));
    child.on('close', (status, signal) => {
      if (signal) reject(new Stopped(program, signal));
      const text = (list) => Buffer.concat(list).toString().trim();
      resolve({ text: text(printed) || text(complained), status });
    });
    child.stdin.on('error', () => {}); // the program may refuse its words before it reads
    child.stdin.end(document);
  });
}

const EMPTY_LOG = '["wasm-litmus-log",2,[],[]]';

/** Asks whether the program reads a module, before a round runs. A refusal is reported in the program's own words. */
export async function examine(program, module) {
  const { text, status } = await ask(program, ['check', module, '-'], EMPTY_LOG);
  if (status === 0 && text === 'allowed threads=0 events=0') return;
  const line = text.split('\n')[0];
  if (status === 2 && line.startsWith('refused ')) throw new UserError(`${module}: ${line}`);
  // This line names the module.
  if (status === 3 && line.startsWith('cannot ')) throw new UserError(line);
  throw new UserError(`--wmlab ${program}: this is not wmlab; it answers an empty log with status ${status}`);
}

/** If an access is both unaligned and out of bounds, V8 reports the latter, and the profile the former. */
const agree = (seen, ran) => seen === ran || (seen === '["trap","out-of-bounds"]' && ran === '["trap","unaligned"]');

/** A run without its last step, if that ended it: it is cut there. */
const beforeEnd = ({ end, steps }) => (end[0] === 'cut' ? { end, steps } : { end: ['cut'], steps: steps - 1n });

/** Asks `wmlab stream` for the verdicts on documents of one module. */
class Stream {
  constructor(program, modulePath) {
    this.waiting = [];
    this.ending = null;
    this.child = start(program, ['stream', modulePath], { stdio: ['pipe', 'pipe', 'ignore'] });
    this.child.stdin.on('error', () => {}); // the end of the process is reported by `close`
    createInterface({ input: this.child.stdout }).on('line', (line) => this.waiting.shift()?.resolve(line));
    this.child.on('error', (error) => this.fail(new UserError(`cannot run ${program}: ${error.code}`)));
    this.child.on('close', (status, signal) => this.fail(
      signal ? new Stopped(program, signal) : new UserError(`${program} stream ended with status ${status} before it answered`)));
  }

  fail(error) {
    this.ending = error;
    this.waiting.splice(0).forEach(({ reject }) => reject(error));
  }

  ask(document) {
    return new Promise((resolve, reject) => {
      if (this.ending) reject(this.ending);
      else {
        this.waiting.push({ resolve, reject });
        this.child.stdin.write(`${document}\n`);
      }
    });
  }

  close() {
    this.child.stdin.end();
  }
}

/** How long `witness` may search, in seconds, unless another limit is given. */
const MOST_SECONDS = 20;

/** The commands of the program that judge logs, each with its line of the help. */
const COMMANDS = [{ name: 'stream', line: /^ *stream MODULE /m }, { name: 'witness', line: /^ *witness \[MODULE\] /m }];

/** The most runs of threads that are remembered. */
const MOST_RUNS = 20_000;

/** Judges the logs of one module. */
export class Judge {
  constructor(program, modulePath) {
    this.program = program;
    this.modulePath = modulePath;
    this.runs = new Map();
    this.stream = null;
    /** @type {Set<{ child?: import('node:child_process').ChildProcess }>} */
    this.searches = new Set();
  }

  /** A judge after the program was asked whether it reads the module, and has the commands that judge. */
  static async open(program, modulePath) {
    await examine(program, modulePath);
    const help = await ask(program, ['help']);
    const missing = COMMANDS.find(({ line }) => !line.test(help.text));
    if (missing) {
      throw new UserError(`${program} has no command ${missing.name}: it is older than this recorder; ./wmlab --which builds a current one`);
    }
    return new Judge(program, modulePath);
  }

  /** The one question: the verdict's line on a completed document. The first one starts the process that answers all. */
  lineOf(document) {
    this.stream ??= new Stream(this.program, this.modulePath);
    return this.stream.ask(document);
  }

  /** The first line of the program's version. */
  async version() {
    return (await ask(this.program, ['version'])).text.split('\n')[0];
  }

  /** What a command answers on a document. */
  ask(command, document) {
    return ask(this.program, [command, this.modulePath, '-'], document);
  }

  /**
   * A document with the steps and the end of each thread that the module gives it. They depend on the thread's start and events
   * alone, so the program is asked only about those that it has not seen. A thread that the recorder cut for its many loops and calls
   * is cut before its end.
   */
  async complete(document, ends = []) {
    const value = parse(document);
    const keys = value[2].map(runKey);
    if (!keys.every((key) => this.runs.has(key))) {
      const { text, status } = await this.ask('complete', document);
      if (status !== 0) return { document, fault: text };
      if (this.runs.size > MOST_RUNS) this.runs.clear();
      parse(text)[2].forEach(([, , end, steps], thread) => this.runs.set(keys[thread], { end, steps }));
    }
    value[2].forEach((row, thread) => {
      const run = this.runs.get(keys[thread]);
      const { end, steps } = ends[thread] && isTired(ends[thread]) ? beforeEnd(run) : run;
      [row[2], row[3]] = [end, steps];
    });
    return { document: json(value), ends: value[2].map((row) => json(row[2])) };
  }

  /**
   * Completes a document, and compares the ends that the engine gave with those of the module's runs. Answers the completed document
   * (the one given, if it cannot be completed), and a line if the module makes another run.
   */
  async compare(document, ends) {
    const completed = await this.complete(document, ends);
    if (completed.fault) return { document, line: completed.fault };
    const other = ends.findIndex((end, thread) => !agree(json(endInLog(end)), completed.ends[thread]));
    if (other < 0) return { document: completed.document, line: null };
    const line = `thread ${other} ended with ${json(endInLog(ends[other]))}, and its run with ${completed.ends[other]}`;
    return { document: completed.document, line };
  }

  /** The completed document of a round, and the verdict's line on it. */
  async judge(document, ends) {
    const { document: completed, line } = await this.compare(document, ends);
    return { document: completed, line: line ?? await this.lineOf(completed) };
  }

  /**
   * What the rules say of a document's values, whatever its writers and its order: a document with a witness and the verdict on it,
   * or the document with a line. A line that begins with `NO_WITNESS` is proved; one with `GAVE_UP` says nothing.
   *
   * @param {string} document
   * @param {wmlab.End[]} ends
   * @param {{ seconds?: number, nodes?: number | null }} limits
   * @returns {Promise<wmlab.Answer>}
   */
  async settle(document, ends, { seconds = MOST_SECONDS, nodes = null } = {}) {
    const { document: completed, line } = await this.compare(withSomeWitness(document), ends);
    const kept = isWithoutWitness(document) ? document : completed;
    if (line) return { document: kept, line };
    const words = ['witness', this.modulePath, '-', ...(nodes === null ? [] : [`${nodes}`])];
    const { text, status, isLate } = await this.search(words, completed, seconds);
    if (isLate) return { document: kept, line: `${GAVE_UP}: gave up after ${seconds} seconds` };
    if (status === 0) return { document: text, line: await this.lineOf(text) };
    const gaveUp = /^gave up nodes=(\d+)/.exec(text);
    if (gaveUp) return { document: kept, line: `${GAVE_UP}: gave up after ${gaveUp[1]} nodes` };
    if (!text.startsWith(NO_WITNESS) && !text.startsWith('refused ')) {
      throw new UserError(`${this.program} witness ended with status ${status}: ${text.split('\n')[0]}`);
    }
    return { document: kept, line: text };
  }

  /**
   * What a command answers within a number of seconds; `isLate`, and nothing else, if it does not.
   *
   * @param {string[]} words
   * @param {string} document
   * @param {number} seconds
   */
  async search(words, document, seconds) {
    /** @type {{ child?: import('node:child_process').ChildProcess, isLate: boolean }} */
    const search = { isLate: false };
    this.searches.add(search);
    const timer = setTimeout(() => {
      search.isLate = true;
      search.child?.kill();
    }, 1000 * seconds);
    try {
      const answer = await ask(this.program, words, document, (child) => { search.child = child; });
      return { ...answer, isLate: false };
    } catch (error) {
      if (search.isLate && error instanceof Stopped) return { text: '', status: null, isLate: true };
      throw error;
    } finally {
      clearTimeout(timer);
      this.searches.delete(search);
    }
  }

  close() {
    this.stream?.close();
    for (const { child } of this.searches) child?.kill();
  }
}

/** What decides a thread's run: its start, and its events without their writers. */
function runKey([name, args, , , events]) {
  const values = events.map((event) => (event[0] === 'w' ? event : event.slice(0, -1)));
  return json([name, args, values]);
}
