/** Tests of the commands `reorder` and `run-until`, and of the page of a campaign. */

import { cpSync, existsSync, mkdirSync, mkdtempSync, readFileSync, readdirSync, rmSync, symlinkSync, writeFileSync } from 'node:fs';
import { tmpdir } from 'node:os';
import { join } from 'node:path';
import { fileURLToPath } from 'node:url';
import { isThere, run, textOf } from '../testing/tally.mjs';

const place = (path) => fileURLToPath(new URL(`../../${path}`, import.meta.url));
const module = (name) => place(`examples/${name}.wasm`);

const runIn = (folder, command, args, input = '') => run(place(command), args, { cwd: folder, input });

/** Store buffering in which both threads load 1, with a witness that a rule refuses: each load is listed before the other's store. */
const MISORDERED = '["wasm-litmus-log",2,[["a",[],["cut"],0,[["w","un",0,4,1],["r","un",4,4,1,[[1,0],[1,0],[1,0],[1,0]]]]],'
  + '["b",[],["cut"],0,[["w","un",4,4,1],["r","un",0,4,1,[[0,0],[0,0],[0,0],[0,0]]]]]],[[0,1],[0,0],[1,0],[1,1]]]';

/** Load buffering in which both threads load 1: the rules permit it, and no store buffers give it. */
const BUFFERED_LOADS = '["wasm-litmus-log",2,[["a",[],["cut"],0,[["r","un",0,4,1,[]],["w","un",4,4,1]]],'
  + '["b",[],["cut"],0,[["r","un",4,4,1,[]],["w","un",0,4,1]]]],[]]';

/** Store buffering in which both threads load 1, without a witness. */
const EVENTS_ALONE = '["wasm-litmus-log",2,[["a",[],["cut"],0,[["w","un",0,4,1],["r","un",4,4,1,[]]]],'
  + '["b",[],["cut"],0,[["w","un",4,4,1],["r","un",0,4,1,[]]]]],[]]';

function testReorder({ note, wmlab, folder }) {
  const reorder = (name, document, ...options) => (
    runIn(folder, 'engines/reorder', ['--wmlab', wmlab, ...options, module(name), '-'], document));
  const check = (name, document) => run(wmlab, ['check', module(name), '-'], { input: document }).out;
  const completed = run(wmlab, ['complete', module('store-buffering'), '-'], { input: MISORDERED }).out;
  const before = check('store-buffering', completed);
  const found = reorder('store-buffering', MISORDERED);
  const isRepaired = found.status === 0 && check('store-buffering', found.out) === 'allowed threads=2 events=4\n';
  note(before.startsWith('broken V') && isRepaired, 'reorder finds a witness that the rules allow', before, found);
  const alone = reorder('store-buffering', EVENTS_ALONE);
  note(
    alone.status === 0 && check('store-buffering', alone.out).startsWith('allowed'),
    'reorder finds a witness of events alone',
    alone,
  );
  const weaker = reorder('load-buffering', BUFFERED_LOADS);
  const isPermitted = weaker.status === 0 && check('load-buffering', weaker.out).startsWith('allowed');
  note(isPermitted, 'reorder finds a witness that no machine with store buffers gives', weaker);
  const same = readFileSync(place('examples/store-buffering.json'), 'utf8');
  const kept = reorder('store-buffering', same);
  note(check('store-buffering', kept.out) === check('store-buffering', same), 'an allowed log is printed as it is', kept);
  const none = reorder('load-buffering', readFileSync(place('examples/load-buffering-atomic.json'), 'utf8'));
  const plain = reorder('store-buffering-atomic', readFileSync(place('examples/store-buffering-atomic.json'), 'utf8'));
  note(
    plain.status === 1 && plain.out === 'no witness threads=2 events=4\n',
    'reorder reports that there is no witness',
    plain,
  );
  note(
    none.status === 1 && none.out.startsWith('broken replay '),
    'reorder reports a log that its module does not make',
    none,
  );
  const limited = reorder('two-plus-two-writes', EVENTS_OF_WRITES, '--seconds', '1', '--steps', '1');
  const isFound = limited.status === 0 && check('two-plus-two-writes', limited.out).startsWith('allowed');
  note(isFound, 'the rules find a witness where the search on a machine gave up', limited);
  const short = reorder('spin-lock', EVENTS_OF_A_LOCK, '--steps', '1', '--nodes', '2');
  const isShort = short.out === '' && short.err === 'reorder: no witness found: gave up after 2 nodes\n';
  note(short.status === 2 && isShort, 'reorder reports that it gave up, with its nodes', short);
}

/** Two threads that held a lock and read 0 both: it takes some nodes to see that there is no witness. */
const LOCKED = '["work",[1],["cut"],0,[["x","sc",0,4,0,1,[]],["r","un",64,4,0,[]],["w","un",64,4,1],["w","sc",0,4,0],["r","un",64,4,1,[]]]]';
const EVENTS_OF_A_LOCK = `["wasm-litmus-log",2,[${LOCKED},${LOCKED}],[]]`;

/** Stores of two threads to two places, in an order that takes more than a step to find. */
const EVENTS_OF_WRITES = '["wasm-litmus-log",2,[["a",[],["cut"],0,[["w","un",0,4,1],["w","un",4,4,2]]],'
  + '["b",[],["cut"],0,[["w","un",4,4,1],["w","un",0,4,2]]],["c",[],["cut"],0,[["r","un",0,4,2,[]],["r","un",4,4,1,[]]]]],[]]';

/** @type {[string, string[], RegExp][]} */
const MISTAKES = [
  ['engines/reorder', [], /: expected MODULE and DOC/],
  ['engines/reorder', [module('store-buffering'), 'nothing.json'], /cannot read nothing\.json: no such file/],
  ['engines/reorder', [module('store-buffering'), 'text.json'], /the log is not read: refused /],
  ['engines/reorder', ['nothing.wasm', '-'], /^reorder: cannot read nothing\.wasm$/m],
  ['engines/reorder', ['--seconds', '0', module('store-buffering'), '-'], /--seconds 0: expected/],
  ['engines/run-until', [], /: expected MODULE, ROUNDS and at least one START/],
  ['engines/run-until', [module('store-buffering'), '0', 'a', 'b'], /wmlab run: refused command rounds/],
  ['engines/run-until', ['--want', '1', module('store-buffering'), '5', 'a', 'b'], /--want "1": 1 ends for 2 threads/],
  ['engines/run-until', ['nothing.wasm', '5', 'a', 'b'], /^run-until: cannot read nothing\.wasm$/m],
  ['engines/run-until', ['--wmlab', '/bin/cat', module('store-buffering'), '5', 'a', 'b'], /--wmlab \/bin\/cat: this is not wmlab/],
  ['engines/run-until', ['--kept', '/dev/full', module('store-buffering'), '5', 'a', 'b'], /cannot write to the folder \/dev\/full/],
];

function testMistakes({ note, wmlab, folder }) {
  writeFileSync(join(folder, 'text.json'), 'no log');
  for (const [command, args, pattern] of MISTAKES) {
    const ran = runIn(folder, command, ['--wmlab', wmlab, ...args]);
    const holds = ran.status === 2 && ran.out === '' && /^[a-z-]+: [^\n]+\n$/.test(ran.err) && pattern.test(ran.err);
    note(holds, `${command} refuses in one line: ${pattern.source}`, ran);
  }
  for (const command of ['engines/reorder', 'engines/run-until']) {
    const help = runIn(folder, command, ['--help']);
    note(help.status === 0 && help.out.includes('EXIT STATUS') && help.err === '', `${command} --help prints the usage`, help);
  }
}

/** Each command says in a line that node is missing. */
function testWithoutNode({ note, folder }) {
  const tools = join(folder, 'no-tools');
  mkdirSync(tools);
  for (const command of ['lower', 'reorder', 'run-until', 'self', 'test.mjs', 'node/record.mjs', 'browser/serve.mjs', 'testing/census.mjs']) {
    const ran = run(place(`engines/${command}`), ['--help'], { env: { PATH: tools } });
    const line = `${command.split('/').at(-1)}: node is not installed (Debian: nodejs)\n`;
    note(ran.status === 2 && ran.out === '' && ran.err === line, `engines/${command} without node`, ran);
  }
}

/** A program that answers `run` with these lines and all else as `wmlab` does: which outcomes come is then no chance. */
function programOf(folder, wmlab, lines) {
  const path = join(folder, 'with-a-table');
  const script = `#!/bin/sh\nif [ "$1" != run ]; then exec '${wmlab}' "$@"; fi\ncat <<'END'\n${lines.join('\n')}\nEND\n`;
  writeFileSync(path, script, { mode: 0o755 });
  return path;
}

function testRunUntil({ note, wmlab, folder }) {
  const until = (program, ...words) => runIn(
    folder,
    'engines/run-until',
    ['--wmlab', program, '--kept', 'until', ...words, module('store-buffering'), '200', 'a', 'b'],
  );
  const rowsOf = ({ out }) => [...out.matchAll(/^ +(\d+) {2}(\d \d) {2}(until\/outcome-\d\.json)$/gm)];
  const hasLog = ([, , outcome, path]) => {
    const log = textOf(join(folder, path)) || '[0,0,[]]';
    const isEnd = (value, thread) => JSON.parse(log)[2][thread]?.[2].join() === `done,${value}`;
    return outcome.split(' ').every(isEnd) && existsSync(join(folder, path.replace('.json', '.txt')));
  };
  const ran = until(wmlab, '--want', '* *');
  const isRight = ran.status === 0 && /^ok --want "\* \*": seen in \d+ of 200 rounds$/m.test(ran.out);
  note(isRight && rowsOf(ran).length >= 1 && rowsOf(ran).every(hasLog), 'run-until runs the module', ran);

  const program = programOf(folder, wmlab, ['     120  0 0', '      40  0 1', '      39  1 0', '       1  1 1', 'allowed rounds=200']);
  const kept = until(program, '--forbid', '5 *', '--want', '1 1');
  note(kept.status === 0 && rowsOf(kept).length === 4, 'run-until keeps a log of each outcome', kept);
  note(rowsOf(kept).every(hasLog), 'with its explanation', kept);
  const forbidden = until(program, '--forbid', '0 0', '--want', '* *');
  const saysSo = forbidden.out.includes('FAILED --forbid "0 0": seen in 120 of 200 rounds\n');
  note(forbidden.status === 1 && saysSo, 'a forbidden outcome that came is status 1', forbidden);
  const never = until(program, '--want', '7 7');
  note(
    never.status === 1 && /^FAILED --want "7 7": never seen$/m.test(never.out),
    'a wanted outcome that never came is status 1',
    never,
  );
}

function testReport({ note, leftOut, wmlab, folder }) {
  const record = (...args) => runIn(folder, 'engines/node/record.mjs', ['--wmlab', wmlab, '--report', 'report', ...args]);
  const first = record('--mode', 'buffered', '--rounds', '10', '--want', '9 9', module('store-buffering'), 'a', 'b');
  const second = record('--mode', 'locked', '--rounds', '5', module('store-buffering'), 'a', 'b');
  const races = [place('engines/testing/races.wasm'), 'numbers:0:6', 'numbers:64:6'];
  const wrong = record('--mode', 'buffered', '--rounds', '5', '--wrong', 'stale-load', ...races);
  const page = textOf(join(folder, 'report/index.html'));
  const has = (text) => page.includes(text);
  note(
    has('20 logs of 3 campaigns') && has('store-buffering.wasm, buffered, node') && has('races.wasm, buffered, node'),
    'the page has each campaign',
    first,
    second,
    wrong,
  );
  note(has(`node ${process.versions.node}`) && has('wmlab '), 'it has the versions');
  note(has('FAILED --want &quot;9 9&quot;: never seen') && has('1 condition failed'), 'it has the conditions');
  note(has('on purpose: stale-load'), 'it names a wrong engine');
  const isAlone = !/<(script|link)|src=|https?:\/\/(?!www\.w3\.org)/.test(page);
  const hasFaults = has('broken V3') && has('smaller run') && has('The threads:');
  note(wrong.status === 1 && hasFaults && isAlone, 'it has the faults and explanations, and needs no other file', wrong);
  const links = [...page.matchAll(/href="(logs[^"]+)"/g)];
  note(links.length > 3 && links.every(([, path]) => existsSync(join(folder, 'report', path))), 'its links are logs');
  if (isThere('dot')) note(has('<svg'), 'it has pictures');
  else leftOut('pictures of the page', 'dot is not installed');
}

/** The campaigns of a page that have another module of the same name, other starts or other conditions stay, with what failed. */
function testReportKeys({ note, wmlab, folder }) {
  for (const name of ['x', 'y']) mkdirSync(join(folder, name));
  cpSync(module('store-buffering'), join(folder, 'x/m ü.wasm'));
  cpSync(module('store-buffering-atomic'), join(folder, 'y/m ü.wasm'));
  const record = (...args) => runIn(folder, 'engines/node/record.mjs', ['--wmlab', wmlab, '--report', 'keys', '--mode', 'buffered', '--rounds', '12', ...args]);
  const failing = () => record('--forbid', '0 0', 'x/m ü.wasm', 'a', 'b');
  const first = failing();
  const others = [
    record('x/m ü.wasm', 'a', 'a'), record('--forbid', '0 0', 'y/m ü.wasm', 'a', 'b'), record('--forbid', '7 0xff', 'x/m ü.wasm', 'a', 'b'),
    record('--wrong', 'plain-atomics', 'x/m ü.wasm', 'a', 'b'), record('x/m ü.wasm', 'a', 'b'), failing(),
  ];
  const page = textOf(join(folder, 'keys/index.html'));
  const count = (text) => page.split(text).length - 1;
  note(
    first.status === 1 && page.includes('72 logs of 6 campaigns') && count('FAILED --forbid &quot;0 0&quot;: seen in') === 1,
    'a campaign is replaced by the same one alone',
    first,
    ...others,
  );
  const isRed = page.includes('<code class="bad">0 0</code>') && page.includes('<span class="bad">a condition fails</span>');
  note(isRed && count('class="bad">0 0<') >= 2, 'an outcome that fails a condition is red, and its log too');
  const numbers = runIn(folder, 'engines/node/record.mjs', ['--wmlab', wmlab, '--report', 'hex', '--rounds', '1', module('own-store'), 'f:0', 'f:-16']);
  const trapped = textOf(join(folder, 'hex/index.html'));
  note(trapped.includes('Traps that no condition names</h3><ul><li>thread 1 ends with trap:out-of-bounds in 1 round'), 'the page has traps', numbers);
}

/** Values of more than one digit are shown in hex too. */
function testReportHex({ note, wmlab, folder }) {
  writeFileSync(join(folder, 'big.wasm'), Buffer.from(
    '0061736d010000000105016000017f030201000504010301010707010362696700000a0601040041700b', 'hex'));
  const ran = runIn(folder, 'engines/node/record.mjs', ['--wmlab', wmlab, '--report', 'big', '--rounds', '1', '--forbid', '0xfffffff0', 'big.wasm', 'big']);
  const page = textOf(join(folder, 'big/index.html'));
  const isShown = page.includes('<code class="bad">4294967280</code> <code class="hex">0xfffffff0</code>');
  note(ran.status === 1 && isShown, 'a large value is shown in hex too', ran);
}

/**
 * What stands in for dot, and why it is said to give no picture. The one without a script is not there.
 *
 * @type {[string, string | null, string][]}
 */
const DOTS = [
  ['is-missing', null, 'Graphviz is not installed, there is no program dot'],
  ['fails', "cat >/dev/null; echo 'Error: no rank' >&2; exit 1", 'dot -Tsvg ended with status 1: Error: no rank'],
  ['reads-nothing', 'exit 1', 'dot -Tsvg ended with status 1'],
  ['dies', 'kill -9 $$', 'dot -Tsvg was ended by SIGKILL'],
  ['says-nothing', 'cat >/dev/null', 'dot -Tsvg printed no whole picture'],
  ['does-nothing', 'exit 0', 'dot -Tsvg printed no whole picture'],
  ['is-no-program', 'no interpreter', 'dot -Tsvg cannot be run (EACCES)'],
];

/** An environment whose PATH has only node, what a script needs, and the dot of a script. */
function programsWith(folder, name, script) {
  const place = join(folder, `programs-${name}`);
  mkdirSync(place);
  symlinkSync(process.execPath, join(place, 'node'));
  symlinkSync('/bin/cat', join(place, 'cat'));
  const mode = name === 'is-no-program' ? 0o644 : 0o755;
  if (script !== null) writeFileSync(join(place, 'dot'), `#!/bin/sh\n${script}\n`, { mode });
  return { ...process.env, PATH: place };
}

/** Whether each log of a folder has its explanation and its graph, and no picture. */
function hasGraphs(folder) {
  const names = existsSync(folder) ? readdirSync(folder).sort() : [];
  const logs = names.filter((name) => name.endsWith('.json')).map((name) => name.slice(0, -'.json'.length));
  const isWhole = logs.every((log) => ['.txt', '.dot'].every((ending) => textOf(join(folder, log + ending)).length > 1));
  return logs.length > 0 && isWhole && names.length === 3 * logs.length;
}

/**
 * Each command with its status and its last line. The first is tried with each dot, the others with the first two.
 *
 * @type {[string, string[], number, RegExp][]}
 */
const DRAWING = [
  ['engines/node/record.mjs', ['--mode', 'buffered', '--rounds', '20', '--want', '0 0', module('store-buffering'), 'a', 'b'],
    0, /^a smaller run is kept in \S+\/round-0-shrunk\.json: /],
  ['engines/node/record.mjs', ['--mode', 'buffered', '--wrong', 'plain-atomics', module('store-buffering-atomic'), 'a', 'b'],
    1, /^a smaller run is kept in \S+\/bad-shrunk\.json: /],
  ['engines/run-until', ['--want', '1 0', module('store-buffering'), '20', 'a', 'b'], 0, /^ok --want "1 0": seen in 12 of 20 rounds$/],
];

/** A picture that dot does not make costs the picture alone: logs, tables and status are as ever, and one line says so. */
function testPictures({ note, wmlab, folder }) {
  // Scripts that give these outcomes are found soon.
  const program = programOf(folder, wmlab, ['      12  1 0', '       8  0 1', 'allowed rounds=20']);
  for (const [at, [name, script, fault]] of DOTS.entries()) {
    const env = programsWith(folder, name, script);
    for (const [number, [command, words, status, last]] of DRAWING.slice(0, at < 2 ? DRAWING.length : 1).entries()) {
      const kept = `drawn-${name}-${number}`;
      const bad = command.endsWith('record.mjs') ? ['--keep', `${kept}/bad.json`] : [];
      const ran = run(place(command), ['--wmlab', program, '--kept', kept, ...bad, ...words], { cwd: folder, env });
      const isWarned = /^[a-z.-]+: warning: [^\n]+\n$/.test(ran.err) && ran.err.includes(` not made: ${fault}; `);
      const [, first] = / (\S+\.dot)\n$/.exec(ran.err) ?? [];
      const isKept = hasGraphs(join(folder, kept)) && textOf(join(folder, first ?? 'none')).startsWith('digraph');
      const isSame = ran.status === status && last.test(ran.out.trimEnd().split('\n').at(-1) ?? '');
      note(isWarned && isKept && isSame, `${command} keeps graphs with a dot that ${name.replaceAll('-', ' ')}, status ${status}`, ran);
    }
  }
}

export function testCommands({ note, leftOut, wmlab }) {
  const folder = mkdtempSync(join(tmpdir(), 'record-'));
  try {
    const context = { note, leftOut, wmlab, folder };
    testReorder(context);
    testMistakes(context);
    testWithoutNode(context);
    testRunUntil(context);
    testPictures(context);
    testReport(context);
    testReportKeys(context);
    testReportHex(context);
  } finally {
    rmSync(folder, { recursive: true });
  }
}
