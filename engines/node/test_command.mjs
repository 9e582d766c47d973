/** Tests of record.mjs as a command, and of how it counts and keeps what it finds. */

import { spawn } from 'node:child_process';
import {
  chmodSync, cpSync, existsSync, mkdirSync, mkdtempSync, readFileSync, readdirSync, realpathSync, rmSync, symlinkSync, writeFileSync,
} from 'node:fs';
import { tmpdir } from 'node:os';
import { join } from 'node:path';
import { setTimeout } from 'node:timers/promises';
import { fileURLToPath } from 'node:url';
import { progress } from './record.mjs';
import { recordWith } from '../shared/rounds.mjs';
import { GAVE_UP } from '../shared/verdict.mjs';
import { Judge } from '../shared/wmlab.mjs';
import { MODES } from '../shared/recorder.mjs';
import { COUNTING } from '../shared/test_modes.mjs';
import { programsOf } from '../testing/programs.mjs';
import { run, textOf } from '../testing/tally.mjs';

const HERE = fileURLToPath(new URL('.', import.meta.url));
const example = (name) => fileURLToPath(new URL(`../../examples/${name}.wasm`, import.meta.url));
const BUFFERS = example('store-buffering');

/** Runs the command in a folder, in which it also looks for caches. */
const record = (folder, args, command = join(HERE, 'record.mjs')) => (
  run(process.execPath, [command, ...args], { cwd: folder, env: { ...process.env, XDG_CACHE_HOME: join(folder, 'caches') } }));

/** A program in a folder, made of a shell script. */
function script(folder, name, text) {
  const path = join(folder, name);
  writeFileSync(path, `#!/bin/sh\n${text}\n`);
  chmodSync(path, 0o755);
  return path;
}

/**
 * What is refused: the words, and what the one line on standard error has to say.
 *
 * @type {[string[], RegExp][]}
 */
const MISTAKES = [
  [['--rounds', 'abc', BUFFERS, 'a', 'b'], /--rounds abc: expected an integer from 1/],
  [['--rounds', '0', BUFFERS, 'a', 'b'], /--rounds 0: expected/],
  [['--rounds', '1.5', BUFFERS, 'a', 'b'], /--rounds 1\.5: expected/],
  [['--rounds', '', BUFFERS, 'a', 'b'], /--rounds : expected/],
  [['--events', 'abc', BUFFERS, 'a', 'b'], /--events abc: expected an integer from 1 to 16384/],
  [['--events', '16385', BUFFERS, 'a', 'b'], /--events 16385: expected/],
  [['--seconds', '0', BUFFERS, 'a', 'b'], /--seconds 0: expected/],
  [['--seed', 'x', BUFFERS, 'a', 'b'], /--seed x: expected/],
  [['--turn', '1e3', BUFFERS, 'a', 'b'], /--turn 1e3: expected/],
  [[], /no module is given/],
  [[BUFFERS], /no start is given/],
  [['--speed', '1', BUFFERS, 'a', 'b'], /'--speed'/],
  [['--mode', 'fast', BUFFERS, 'a', 'b'], /--mode fast: the modes are locked, buffered, free/],
  [['--wrong', 'stale-load', BUFFERS, 'a', 'b'], /--wrong needs --mode buffered or --mode free/],
  [['--wrong', 'fence', '--mode', 'free', BUFFERS, 'a', 'b'], /--wrong fence: expected plain-atomics, torn-store, stale-load/],
  [['--engine', 'opera', BUFFERS, 'a', 'b'], /--engine opera: the engines are node, chromium, firefox, webkit/],
  [['--forbid', '0', BUFFERS, 'a', 'b'], /--forbid "0": 1 ends for 2 threads/],
  [['--want', '0 x', BUFFERS, 'a', 'b'], /--want "0 x": "x" is not an end; expected a value/],
  [['--want', '', BUFFERS, 'a', 'b'], /--want "": "" is not an end/],
  [['--want', '- x', BUFFERS, 'a', 'b'], /--want "- x": "x" is not an end/],
  [['--rounds', '-1', BUFFERS, 'a', 'b'], /--rounds -1: expected an integer from 1/],
  [['--want', '--rounds', '1', BUFFERS, 'a', 'b'], /Option '--want' has no argument$/],
  [['--kept', '/dev/full', BUFFERS, 'a', 'b'], /cannot write to the folder \/dev\/full/],
  [['--report', '/dev/full', BUFFERS, 'a', 'b'], /cannot write to the folder \/dev\/full/],
  [[BUFFERS, 'a', 'c'], /start c: no function is exported under this name; exported are a, b/],
  [[BUFFERS, 'a:1', 'b'], /start a:1: a takes 0 arguments, and 1 is given; write a$/],
  [[example('peterson'), 'work:x', 'work:1'], /start work:x: the argument "x" is not an integer/],
  [[example('peterson'), 'work:', 'work:1'], /start work:: the argument "" is not an integer/],
  [[example('peterson'), 'work:4294967296', 'work:1'], /the argument 4294967296 does not fit i32; write an integer from -2147483648 to 4294967295/],
  [[example('peterson'), 'work:-2147483649', 'work:1'], /the argument -2147483649 does not fit i32/],
  [[BUFFERS, ...Array(17).fill('a')], /17 starts: a log has at most 16 threads/],
  [['nothing.wasm', 'a'], /cannot read nothing\.wasm: no such file/],
  [['.', 'a'], /cannot read \.: it is a folder/],
  [['--', '-nothing.wasm', 'a'], /cannot read \.\/-nothing\.wasm: no such file/],
  [['text.wasm', 'a'], /text\.wasm: refused decode Magic at 0/],
  [[example('floats'), 'a'], /floats\.wasm: refused decode Unsupported Floats at 29/],
  [['--wmlab', '/bin/true', BUFFERS, 'a', 'b'], /--wmlab \/bin\/true: this is not wmlab/],
  [['--wmlab', '/bin/cat', BUFFERS, 'a', 'b'], /--wmlab \/bin\/cat: this is not wmlab/],
  [['--wmlab', '/bin/ls', BUFFERS, 'a', 'b'], /--wmlab \/bin\/ls: this is not wmlab; it answers an empty log with status 2$/],
  [['--wmlab', 'nothing', BUFFERS, 'a', 'b'], /--wmlab nothing: no program is there/],
  [['--out', '/dev/full', BUFFERS, 'a', 'b'], /cannot write to the folder \/dev\/full/],
  [['--out', '/proc/wmlab', BUFFERS, 'a', 'b'], /cannot write to the folder \/proc\/wmlab/],
  [['--answers', '/nothing/answers', BUFFERS, 'a', 'b'], /cannot write \/nothing\/answers: no such file or folder/],
  [['--keep', 'nowhere/log.json', BUFFERS, 'a', 'b'], /cannot write nowhere\/log\.json: no such file or folder/],
  [['--keep', '.', BUFFERS, 'a', 'b'], /cannot write \.: it is a folder/],
];

function testMistakes({ note, wmlab, folder }) {
  writeFileSync(join(folder, 'text.wasm'), 'no module\n');
  for (const [args, pattern] of MISTAKES) {
    const words = args.includes('--wmlab') ? args : ['--wmlab', wmlab, ...args];
    const ran = record(folder, words);
    const isLine = /^record\.mjs: [^\n]+\n$/.test(ran.err) && pattern.test(ran.err.trim());
    const shown = args.map((word) => word.replace(/^.*\//, '')).join(' ');
    note(ran.status === 2 && ran.out === '' && isLine, `refused in one line: ${shown}`, ran);
  }
  const help = record(folder, ['--help']);
  note(help.status === 0 && help.out.includes('USAGE') && help.err === '', '--help prints the usage', help);
}

function testSuccess({ note, wmlab, folder }) {
  const one = record(folder, ['--wmlab', wmlab, '--rounds', '2', '--out', 'logs', '--answers', 'answers', BUFFERS, 'a', 'b']);
  const kept = [0, 1].map((round) => textOf(join(folder, `logs/${round}.json`)));
  note(
    one.status === 0 && /2 {2}allowed threads=2\n$/.test(one.out) && kept.every(Boolean),
    'two rounds are recorded and kept',
    one,
  );
  const answers = textOf(join(folder, 'answers')).split('\n').sort().join(' ');
  note(/^ 0 allowed threads=2 events=4 1 allowed threads=2 events=4$/.test(answers), '--answers has a line for each round', answers);
  const negative = record(
    folder,
    ['--wmlab', wmlab, '--rounds', '1', '--out', 'negative', example('own-store'), 'f:-65536', 'f:0x4'],
  );
  const log = textOf(join(folder, 'negative/0.json'));
  note(
    negative.status === 0 && log.includes('["f",[4294901760],') && log.includes('["f",[4],'),
    'negative arguments wrap',
    negative,
    log,
  );
  symlinkSync(join(HERE, 'record.mjs'), join(folder, 'link.mjs'));
  const linked = record(folder, ['--rounds', '0', BUFFERS, 'a'], join(folder, 'link.mjs'));
  note(linked.status === 2, 'a link to the command is the command', linked);
}

/** The recorder looks for the program where the launcher finds it, and where it is installed. */
function testPlaces({ note, wmlab, folder }) {
  const top = join(folder, 'share/wmlab');
  mkdirSync(top, { recursive: true });
  cpSync(join(HERE, '..'), join(top, 'engines'), { recursive: true });
  const copy = (...options) => record(folder, [...options, '--rounds', '1', BUFFERS, 'a', 'b'], join(top, 'engines/node/record.mjs'));
  const none = copy();
  note(
    none.status === 2 && /^record\.mjs: there is no program wmlab yet: run \.\/wmlab --which[^\n]*\n$/.test(none.err),
    'without a program one line says what to run',
    none,
  );
  mkdirSync(join(folder, 'lib/wmlab'), { recursive: true });
  script(join(folder, 'lib/wmlab'), 'wmlab', `exec '${wmlab}' "$@"`);
  const installed = copy();
  note(installed.status === 0, 'the installed program is found', installed);
  rmSync(join(folder, 'lib'), { recursive: true });
  script(top, 'wmlab', `[ "$*" = --which ] && echo '${wmlab}'`);
  const unbuilt = copy();
  note(unbuilt.status === 2, 'a launcher without a program builds none for the recorder', unbuilt);
  const caches = join(folder, 'caches/wmlab/built', realpathSync(top).replaceAll('/', '%'));
  for (const [place, shows] of [[caches, 'in the folder for caches'], [join(top, '.built'), 'in the clone']]) {
    mkdirSync(place, { recursive: true });
    script(place, 'quick', 'exit 3');
    const named = copy();
    note(named.status === 0, `the program that the launcher names is found, with a build ${shows}`, named);
    rmSync(join(place, 'quick'));
  }
}

/** A folder of programs has to have starts for each. */
async function testStarts({ note, wmlab, folder }) {
  mkdirSync(join(folder, 'programs'));
  cpSync(example('own-store'), join(folder, 'programs/other.wasm'));
  const refusal = await programsOf(join(folder, 'programs'), wmlab).then(() => '', (error) => error.message);
  note(/^other\.wasm: each exported function takes arguments/.test(refusal), 'a program without starts is an error', refusal);
}

const logNamed = (name) => `["wasm-litmus-log",2,[["${name}",[],["cut"],0,[]]],[]]`;

/**
 * A round of one thread that has these logs.
 *
 * @returns {wmlab.Round}
 */
const roundOf = (logs) => ({ ends: [['cut']], turns: [], document: '', isOpen: false, logs });

/**
 * A recorder whose rounds have logs of these names; `events`, if it is given, names events for which no witness was found.
 *
 * @param {{ names: string[], events?: string }[]} rounds
 */
function played(rounds) {
  /**
   * @param {{ names: string[], events?: string }} round
   * @returns {AsyncGenerator<string, string | null, void>}
   */
  async function* logs({ names, events }) {
    for (const name of names) yield logNamed(name);
    return events ? logNamed(events) : null;
  }
  const round = async (seed) => roundOf(logs(rounds[seed]));
  return { round, initial: new Uint8Array() };
}

/** A program that answers as the logs' names ask it to: `witness` finds a good one unless there is none, or it is hard to find. */
const PLAYED = `case $1 in
stream)
  while read -r log; do
    case $log in *slow*) sleep 0.3 ;; esac
    case $log in *broken*) echo 'broken V5 case 3 at 0.1' ;; *) echo 'allowed threads=1 events=0' ;; esac
  done ;;
witness)
  read -r log
  case $log in
  *impossible*) echo 'no witness threads=1 events=0'; exit 1 ;;
  *hard*) echo 'gave up nodes=100000'; exit 2 ;;
  *endless*) exec sleep 60 ;;
  *) echo '${logNamed('good')}' ;;
  esac ;;
*) exec cat ;;
esac`;

/** How rounds are judged. */
async function testJudgement({ note, folder }) {
  const program = script(folder, 'played', PLAYED);
  const judged = async (rounds, seconds) => {
    const judge = new Judge(program, 'm.wasm');
    try {
      return await recordWith(played(rounds), judge, { rounds: rounds.length, seed: 0, seconds });
    } finally {
      judge.close();
    }
  };
  const order = await judged([{ names: ['good'] }, { names: ['slow broken impossible'] }, { names: ['broken impossible'] }]);
  note(order.bad?.number === 1, 'the first log that is not allowed is the first by round');
  const other = await judged([{ names: ['broken impossible', 'broken 2', 'good'] }]);
  note(!other.bad, 'a witness that is allowed counts, and not the refused ones before it');
  const another = await judged([{ names: ['broken 1', 'broken 2'] }, { names: [], events: 'some' }]);
  note(!another.bad && another.checked === 2, 'an engine is not blamed for what the rules permit, whatever witnesses were found');
  const all = await judged([{ names: ['broken impossible', 'broken 2'] }]);
  const isNone = all.bad?.line === 'no witness threads=1 events=0' && all.bad.document === logNamed('broken impossible');
  note(isNone, 'a log without a witness is kept with the first one that was refused');
  const open = await judged([{ names: ['broken hard'] }, { names: [], events: 'impossible' }]);
  note(
    open.verdicts.counts.get(`${GAVE_UP}: gave up after 100000 nodes`) === 1 && open.verdicts.counts.get('no witness threads=1') === 1,
    'a search that gave up and a proof are counted apart',
  );
  note(open.outcomes.counts.get('cut') === 2, 'the outcome of a round without a witness is counted');
  note(
    open.bad?.number === 1 && open.bad.document === logNamed('impossible'),
    'its events are what is kept; a proof comes before a search that gave up',
  );
  const late = await judged([{ names: ['broken endless'] }], 0.3);
  note(late.bad?.line === `${GAVE_UP}: gave up after 0.3 seconds`, 'the rules are not asked for longer than the limit', late.bad?.line);
}

/** A search that is under way when the user stops is not waited for. */
async function testStop({ note }) {
  const never = { next: () => new Promise(() => {}) };
  const recorder = { round: async () => roundOf(never), initial: new Uint8Array() };
  const stop = { requested: false };
  const ended = recordWith(recorder, new Judge('', ''), { rounds: 1, stop });
  await setTimeout(50);
  stop.requested = true;
  const first = await Promise.race([ended, setTimeout(5_000)]);
  note(first?.checked === 0, 'a stop does not wait for a search');
}

/** Starts the recorder, stops it by a signal when something holds, and answers its status and what it printed. */
async function stopped(folder, words, signal, isTime) {
  const child = spawn(process.execPath, [join(HERE, 'record.mjs'), ...words], { cwd: folder });
  const printed = [];
  child.stdout.on('data', (bytes) => printed.push(bytes));
  const ended = new Promise((resolve) => { child.on('close', resolve); });
  for (let tries = 0; tries < 300 && !isTime(); tries++) await setTimeout(100);
  child.kill(signal);
  const status = await ended;
  return { status, text: Buffer.concat(printed).toString() };
}

/** Ctrl-C, or the signal of a batch system: the tables so far, and the status 130. */
async function testInterrupt({ note, wmlab, folder }) {
  for (const signal of /** @type {const} */ (['SIGINT', 'SIGTERM'])) {
    const logs = join(folder, `stopped-${signal}`);
    const words = ['--wmlab', wmlab, '--rounds', '100000', '--out', logs, BUFFERS, 'a', 'b'];
    const { status, text } = await stopped(folder, words, signal, () => existsSync(logs) && readdirSync(logs).length > 2);
    note(
      status === 130 && /^outcomes\n[^]*\nverdicts\n *\d+ {2}allowed threads=2\nstopped after \d+ of 100000 rounds\n$/.test(text),
      `${signal} prints the tables so far`,
      `status ${status}: ${text}`,
    );
  }
}

/** The processes whose command line has a word. */
const processesWith = (word) => readdirSync('/proc').filter((name) => /^\d+$/.test(name) && wordsOfProcess(name).includes(word));

/** The command line of a process; none if it has ended. */
function wordsOfProcess(name) {
  try {
    return readFileSync(`/proc/${name}/cmdline`, 'utf8').split('\0');
  } catch {
    return [];
  }
}

/** A search that is under way ends with the recorder. */
async function testStoppedSearch({ note, wmlab, folder }) {
  const place = join(folder, 'searches-for-good');
  const seconds = `600.${process.pid}`;
  writeFileSync(place, `#!/bin/sh\nif [ "$1" = witness ]; then exec sleep ${seconds}; fi\nexec '${wmlab}' "$@"\n`, { mode: 0o755 });
  const words = ['--wmlab', place, '--mode', 'buffered', '--wrong', 'plain-atomics', '--seconds', '500', example('store-buffering-atomic'), 'a', 'b'];
  const { status, text } = await stopped(folder, words, 'SIGTERM', () => processesWith(seconds).length > 0);
  for (let tries = 0; tries < 50 && processesWith(seconds).length; tries++) await setTimeout(100);
  note(
    status === 130 && /^stopped after \d+ of 100 rounds$/m.test(text) && processesWith(seconds).length === 0,
    'SIGTERM leaves no search of a witness',
    `status ${status}: ${text}`,
  );
}

function testProgress({ note }) {
  const shownOn = (isTTY, rounds) => {
    let text = '';
    const show = progress(rounds, { isTTY, write: (more) => { text += more; } });
    for (let k = 0; k < rounds; k++) show();
    return text;
  };
  note(shownOn(true, 2) === '\r1 of 2 rounds\r2 of 2 rounds\n' && shownOn(false, 999) === '', 'progress is shown on a terminal');
}

/** Recordings of which each run is cut, by the bound on events or for its loops; and one of runs that end with the last read of their share. */
function testCutRuns({ note, folder, words, spinning }) {
  const counting = join(folder, 'counting.wasm');
  writeFileSync(counting, COUNTING);
  for (const mode of MODES) {
    const cut = record(folder, [...words, '--mode', mode, '--events', '8', ...spinning]);
    const isTold = /^each run was cut, so that no log is of a whole run; a larger --events may let their threads end$/m.test(cut.out);
    note(cut.status === 1 && isTold, `${mode}: a recording of cut runs alone is no success`, cut);
    const tired = record(folder, [...words, '--mode', mode, counting, 'loops:20001', 'loops:1']);
    const why = /^each run was cut, so that no log is of a whole run; a thread is cut when it has entered 20000 loops and functions, /m;
    const isAllowed = /^ +6 {2}allowed threads=2$/m.test(tired.out) && /^ +6 {2}cut -$/m.test(tired.out) && !/^of 6 runs/m.test(tired.out);
    note(tired.status === 1 && isAllowed && why.test(tired.out), `${mode}: a thread that was cut in its loops, and would end, is not at fault`, tired);
  }
  const share = record(folder, [...words, '--mode', 'free', '--events', '2', BUFFERS, 'a', 'b']);
  note(share.status === 0 && !/cut/.test(share.out), 'free: threads whose last read is the last of their share end', share);
}

/** Programs that spin, on modes and bounds: a bound is found, and a recording of cut runs alone is no success. */
function testBound({ note, wmlab, folder }) {
  const spinning = [example('c/spin'), 'work:20', 'work:20'];
  const words = ['--wmlab', wmlab, '--rounds', '6'];
  const same = [1, 2].map(() => record(folder, [...words, ...spinning]));
  const found = /^of 6 runs with at most 128 events [4-6] were cut, so runs have at most \d+; --events sets the bound$/m.test(same[0].out);
  note(same[0].status === 0 && found && /^ +\d+ {2}\d+ \d+$/m.test(same[0].out), 'without --events a bound is found at which most runs end', same[0]);
  note(same[0].out === same[1].out, 'the same options find the same bound, and the same runs');
  const given = record(folder, [...words, '--events', '1024', ...spinning]);
  note(given.status === 0 && !/were cut/.test(given.out), 'with --events no bound is looked for', given);
  testCutRuns({ note, folder, words, spinning });
  const shared = record(folder, [...words, example('c/thread-locals'), 'first', 'first']);
  note(/^record\.mjs: warning: threads that start with first share its stack /.test(shared.err), 'two threads of a start with thread-local variables of its own are warned of', shared);
  const apart = record(folder, [...words, example('c/thread-locals'), 'first', 'second']);
  note(apart.status === 0 && apart.err === '', 'threads of two starts are not', apart);
  const quick = record(folder, [...words, BUFFERS, 'a', 'b']);
  note(quick.status === 0 && !/cut/.test(quick.out), 'a program that ends soon has no line on cut runs', quick);
  const endless = record(folder, [...words, '--rounds', '2', example('c/condition-variable'), 'consumer']);
  const isTold = /and most with 4096 too: a thread may not end/.test(endless.out);
  note(endless.status === 1 && isTold, 'a thread that waits for good is no success either', endless);
}

export async function testCommand({ note, wmlab }) {
  const folder = mkdtempSync(join(tmpdir(), 'record-'));
  try {
    const context = { note, wmlab, folder };
    testMistakes(context);
    testSuccess(context);
    testBound(context);
    testPlaces(context);
    await testStarts(context);
    await testJudgement(context);
    await testStop(context);
    await testInterrupt(context);
    await testStoppedSearch(context);
    testProgress(context);
  } finally {
    rmSync(folder, { recursive: true });
  }
}
