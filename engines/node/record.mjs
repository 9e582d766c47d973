#!/bin/sh
':' //; command -v node >/dev/null || { echo "${0##*/}: node is not installed (Debian: nodejs)" >&2; exit 2; }; exec node "$0" "$@"
/** Records runs of an engine's WebAssembly, and checks each. The usage is in options.mjs, and printed by `--help`. */

import { accessSync, appendFileSync, constants, readFileSync, realpathSync, statSync } from 'node:fs';
import { dirname } from 'node:path';
import { fileURLToPath } from 'node:url';
import { openRecorder } from './engines.mjs';
import { sharedStarts } from '../lowering/shared_starts.mjs';
import { cutComplaint, fitEvents } from '../shared/bound.mjs';
import { endOnLostOutput } from '../shared/command_line.mjs';
import { isWithoutWitness } from '../shared/document.mjs';
import { UserError, withFile } from '../shared/errors.mjs';
import { keep, keepWithShrunk, missingPictures, prepareFolder, writeTo } from '../shared/kept.mjs';
import { judgeConditions, trapLine, unnamedTraps } from '../shared/outcomes.mjs';
import { writeReport } from '../shared/report.mjs';
import { Results, recordWith } from '../shared/rounds.mjs';
import { Judge, STOPPED, Stopped, findProgram, isUsersStop, onStop } from '../shared/wmlab.mjs';
import { USAGE, optionsOf, withPlaces } from './options.mjs';

/**
 * Shows how many rounds were checked: on a terminal each, else each thousandth. Answers what to call after a round.
 *
 * @param {number} rounds
 * @param {{ isTTY?: boolean, write: (text: string) => void }} stream
 */
export function progress(rounds, stream = process.stderr) {
  let checked = 0;
  return () => {
    checked++;
    if (stream.isTTY) stream.write(`\r${checked} of ${rounds} rounds${checked === rounds ? '\n' : ''}`);
    else if (checked % 1_000 === 0) stream.write(`${checked} of ${rounds} rounds\n`);
  };
}

/** Refuses, before a round runs, places where nothing can be written. */
function preparePlaces({ keep: path, out, answers, kept, report }) {
  [out, kept, report].filter((folder) => folder !== undefined).forEach(prepareFolder);
  if (statSync(path, { throwIfNoEntry: false })?.isDirectory()) throw new UserError(`cannot write ${path}: it is a folder`);
  withFile(`write ${path}`, () => accessSync(dirname(path), constants.W_OK));
  if (answers !== undefined) writeTo(answers, '');
}

/** What is printed on a round whose log is not allowed. */
function keptText(document, path) {
  if (!isWithoutWitness(document)) return `its log is kept in ${path}`;
  return `its events are kept in ${path}, in the form of a log without a witness: each read has [] for its writers, and the order is []`;
}

/** What the mode free is for, which its table begins with. */
const purposeOf = ({ mode }) => (mode === 'free'
  ? ['mode free: logs of whole programs, whose threads seldom overlap; litmus/run runs a small test millions of times'] : []);

/** The most outcomes of which a log is kept. */
const MOST_KEPT = 20;

/** One run of the command: the recorder, the judge and the options, and the logs that it keeps. */
class Campaign {
  constructor(options, recorder, judge, stop) {
    this.options = options;
    this.recorder = recorder;
    this.judge = judge;
    this.stop = stop;
    this.kept = [];
    this.lines = [];
    this.bound = [];
    this.places = new Map(); // outcome: the path of its log
    this.results = new Results();
    /** @type {wmlab.Judged[]} */
    this.conditions = [];
    /** @type {ReturnType<typeof unnamedTraps>} */
    this.traps = [];
  }

  async record() {
    const { rounds, out, answers, fits, seed } = this.options;
    if (fits) this.bound = await fitEvents(this.recorder, seed, this.stop);
    const show = progress(rounds);
    const seen = ({ number, document, line }) => {
      show();
      if (out !== undefined) writeTo(`${out}/${number}.json`, document);
      if (answers !== undefined) withFile(`write ${answers}`, () => appendFileSync(answers, `${number} ${line}\n`));
    };
    this.results = await recordWith(this.recorder, this.judge, { ...this.options, seen, stop: this.stop });
  }

  /** Looks at the conditions, in the order of the rounds, and keeps the first log of each outcome. */
  async keepOutcomes() {
    const { kept, conditions } = this.options;
    const firsts = this.results.firstRounds().map((found) => ({ ...found, place: `round ${found.number}` }));
    this.conditions = judgeConditions(conditions, firsts);
    const counted = firsts.map((found) => ({ ...found, count: this.results.outcomes.counts.get(found.outcome) ?? 0 }));
    this.traps = unnamedTraps(conditions, counted);
    if (kept === undefined) return;
    const conditionsMet = this.conditions.filter(({ found }) => found);
    const isNeeded = ({ outcome }) => conditionsMet.some(({ found }) => found?.outcome === outcome);
    for (const found of [...firsts.filter(isNeeded), ...firsts.filter((each) => !isNeeded(each)).slice(0, MOST_KEPT)]) {
      const path = `${kept}/round-${found.number}.json`;
      this.places.set(found.outcome, path);
      const met = conditionsMet.find((each) => each.found?.outcome === found.outcome);
      if (met) await this.keepSmaller(path, found, met.condition);
      else this.kept.push(await keep(this.judge, path, found));
    }
  }

  async keepSmaller(path, found, condition) {
    const { kept, line } = await keepWithShrunk(this.recorder, this.judge, path, found, condition, { ...this.options, stop: this.stop });
    this.kept.push(...kept);
    if (line) this.lines.push(line);
  }

  /** Keeps the log to look at first, if one is not allowed. */
  async keepBad() {
    const { bad } = this.results;
    if (!bad) return;
    const path = this.options.keep;
    this.lines.push(`round ${bad.number}: ${bad.line}`, keptText(bad.document, path));
    await this.keepSmaller(path, bad, null);
  }

  /** The lines of the tables and of all that is kept. */
  text() {
    const { options: { rounds }, stop, results } = this;
    const stopped = stop.requested ? [`stopped after ${results.checked} of ${rounds} rounds`] : [];
    const place = (outcome) => (this.places.has(outcome) ? `  ${this.places.get(outcome)}` : '');
    const newline = stop.requested && process.stderr.isTTY ? [''] : [];
    return [...newline, ...purposeOf(this.options), ...this.bound, ...results.lines(place), ...stopped,
      ...this.conditions.map(({ line }) => line), ...this.traps.map(trapLine), ...this.lines, ...(this.cutComplaint ? [this.cutComplaint.line] : [])].join('\n');
  }

  get cutComplaint() {
    return cutComplaint(this.results.cut, this.results.tired, this.results.checked);
  }

  get status() {
    if (this.stop.requested) return STOPPED;
    return this.results.bad || this.conditions.some(({ fails }) => fails) || this.cutComplaint?.fails ? 1 : 0;
  }
}

/** Records as the words of the command line ask. Answers the exit status. */
async function main(args) {
  const asked = optionsOf(args);
  if (!asked) {
    process.stdout.write(USAGE);
    return 0;
  }
  const { module } = asked;
  const bytes = withFile(`read ${module}`, () => readFileSync(module));
  const options = withPlaces(asked, bytes);
  preparePlaces(options);
  const stop = { requested: false };
  onStop(() => { stop.requested = true; });
  const judge = await Judge.open(findProgram(options.wmlab), module);
  const recorder = await openRecorder(bytes, options);
  try {
    for (const name of sharedStarts(bytes, options.starts.map((start) => start.name))) {
      console.error(`record.mjs: warning: threads that start with ${name} share its stack or thread-local variables; lower with --stacks N or --tls N`);
    }
    const campaign = new Campaign(options, recorder, judge, stop);
    await campaign.record();
    await campaign.keepOutcomes();
    await campaign.keepBad();
    if (options.report !== undefined) await writeReport(options.report, campaign);
    console.log(campaign.text());
    const warning = missingPictures(campaign.kept);
    if (warning) console.error(`record.mjs: ${warning}`);
    return campaign.status;
  } finally {
    judge.close();
    await recorder.close();
  }
}

if (process.argv[1] && realpathSync(process.argv[1]) === fileURLToPath(import.meta.url)) {
  endOnLostOutput('record.mjs');
  try {
    const status = await main(process.argv.slice(2));
    // A search that was stopped would go on otherwise.
    if (status === STOPPED) process.exit(status);
    process.exitCode = status;
  } catch (error) {
    const isExpected = error instanceof UserError || error instanceof Stopped;
    console.error(isExpected ? `record.mjs: ${error.message}` : error);
    process.exit(isUsersStop(error) ? STOPPED : isExpected ? 2 : 3);
  }
}
