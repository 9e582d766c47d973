/** Tests of recording in real browsers, and of the page for people. A browser that is not installed is named and not counted. */

import { spawn } from 'node:child_process';
import { mkdtempSync, readFileSync, readdirSync, rmSync, writeFileSync } from 'node:fs';
import { tmpdir } from 'node:os';
import { basename, join } from 'node:path';
import { setTimeout } from 'node:timers/promises';
import { fileURLToPath } from 'node:url';
import { openRecorder } from '../node/engines.mjs';
import { recordWith } from '../shared/rounds.mjs';
import { parseStart } from '../shared/starts.mjs';
import { Judge } from '../shared/wmlab.mjs';
import { isThere, run, textOf } from '../testing/tally.mjs';
import { Judges } from './judges.mjs';
import { findBrowser, openPage } from './launch.mjs';
import { handlersOf, moduleOf } from './serve.mjs';
import { serve } from './server.mjs';

const RECORD = fileURLToPath(new URL('../node/record.mjs', import.meta.url));
const SERVE = fileURLToPath(new URL('./serve.mjs', import.meta.url));
const example = (name) => fileURLToPath(new URL(`../../examples/${name}.wasm`, import.meta.url));
const BUFFERS = example('many-store-buffers');
const TRAPS = ['unreachable', 'divide', 'overflow', 'past', 'odd', 'deep'];

/** Records rounds of a module; answers the results and the logs by round. */
async function recorded(wmlab, path, starts, { rounds = 10, ...options }) {
  const judge = await Judge.open(wmlab, path);
  const recorder = await openRecorder(readFileSync(path), { ...options, starts: starts.map(parseStart) });
  try {
    const logs = [];
    const seen = ({ number, document }) => { logs[number] = document; };
    return { results: await recordWith(recorder, judge, { rounds, seen }), logs };
  } finally {
    judge.close();
    await recorder.close();
  }
}

const isAllowed = ({ results }, rounds = 10) => results.checked === rounds && !results.bad;

async function testModes({ note, wmlab }, engine) {
  const traps = await recorded(wmlab, example('every-trap'), TRAPS, { engine, mode: 'locked' });
  note(isAllowed(traps) && traps.results.outcomes.counts.size === 1, `${engine}, locked: each trap is the module's`);
  const buffered = await recorded(wmlab, BUFFERS, ['a', 'b'], { engine, mode: 'buffered' });
  const onNode = await recorded(wmlab, BUFFERS, ['a', 'b'], { mode: 'buffered' });
  note(
    isAllowed(buffered) && buffered.logs.join() === onNode.logs.join(),
    `${engine}, buffered: allowed, and by the same seeds the logs of node`,
  );
  const free = await recorded(wmlab, BUFFERS, ['a', 'b'], { engine, mode: 'free' });
  note(isAllowed(free) && free.logs.every((log) => log.length > 1_000), `${engine}, free: allowed`);
  const wrong = await recorded(wmlab, BUFFERS, ['a', 'b'], { engine, mode: 'buffered', wrong: 'torn-store', rounds: 2 });
  note(wrong.results.checked === 2, `${engine}: an engine that is wrong on purpose is recorded`);
}

/** Whether a process with this word among its arguments or in its environment runs. */
const runs = (word) => readdirSync('/proc').filter((name) => /^\d+$/.test(name)).some((id) => ['cmdline', 'environ'].some((file) => {
  try {
    return readFileSync(`/proc/${id}/${file}`, 'utf8').includes(word);
  } catch {
    return false;
  }
}));

/** The command is killed while a browser records for it: the browser and its profile go too. */
async function testKill({ note, wmlab }, engine) {
  const folder = mkdtempSync(join(tmpdir(), 'record-killed-'));
  const words = [RECORD, '--engine', engine, '--wmlab', wmlab, '--rounds', '100000', '--out', 'logs', BUFFERS, 'a', 'b'];
  const child = spawn(process.execPath, words, { cwd: folder, env: { ...process.env, TMPDIR: folder }, stdio: 'ignore' });
  const hasLogs = () => { try { return readdirSync(join(folder, 'logs')).length > 1; } catch { return false; } };
  for (let tries = 0; tries < 600 && !hasLogs(); tries++) await setTimeout(100);
  const ran = hasLogs() && runs(folder);
  child.kill('SIGKILL');
  const isLeft = () => runs(folder) || readdirSync(folder).some((name) => name.startsWith('wmlab-browser-'));
  for (let tries = 0; tries < 150 && isLeft(); tries++) await setTimeout(100);
  note(ran && !isLeft(), `${engine}: the browser and its profile go with a command that is killed`);
  rmSync(folder, { recursive: true, force: true });
}

/** The page for people, with and without the program, by an address that starts a recording. */
async function testPage({ note, wmlab }, engine, program) {
  for (const isJudged of [true, false]) {
    const judges = isJudged ? new Judges(wmlab) : null;
    const finished = withResolvers();
    const server = await serve(handlersOf(judges, moduleOf(example('store-buffering')), finished.resolve));
    const page = openPage(engine, program, `${server.origin}/#starts=a,b&mode=${isJudged ? 'free' : 'buffered'}&rounds=12&start`);
    const tables = await Promise.race([finished.promise, setTimeout(60_000, null)]);
    await page.close();
    server.close();
    await judges?.close();
    const count = tables?.outcomes.reduce((sum, line) => sum + Number.parseInt(line, 10), 0);
    const verdicts = isJudged ? '      12  allowed threads=2' : '';
    note(
      count === 12 && tables.verdicts.join() === verdicts,
      `${engine}: the page records ${isJudged ? 'with verdicts' : 'without a program'}`,
    );
  }
}

/** What a user sees who drops a module on the page, downloads a log and asks why. */
async function testUse({ note, leftOut, wmlab }, engine, program) {
  const judges = new Judges(wmlab);
  const used = withResolvers();
  const handlers = {
    ...handlersOf(judges, null, () => {}),
    'GET /dropped': async () => [moduleOf(example('store-buffering'))],
    'POST /used': async (body) => { used.resolve(JSON.parse(body)); return {}; },
  };
  const server = await serve(handlers, 0, { '/test': 'browser/test_page.html' });
  const page = openPage(engine, program, `${server.origin}/test`);
  const seen = await Promise.race([used.promise, setTimeout(90_000, { error: 'nothing was posted in 90 s' })]);
  await page.close();
  server.close();
  await judges.close();
  const shown = JSON.stringify(seen);
  note(/^store-buffering\.wasm, \d+ bytes; it exports a, b\.$/.test(seen.module), `${engine}: a module that is dropped is taken`, shown);
  const isLog = /^round-\d+\.json$/.test(seen.file?.name) && seen.file.text.startsWith('["wasm-litmus-log",2,[["a",[],["done",[');
  note(isLog, `${engine}: a log is downloaded`, shown);
  note(/^allowed threads=2 events=4/.test(seen.explanation), `${engine}: an explanation is shown`, shown);
  if (isThere('dot')) note(seen.picture === 'data:image/svg+xml;base64,', `${engine}: a picture is shown`, shown);
  else leftOut(`${engine}: a picture`, 'dot is not installed');
}

/** A promise and the function that fulfils it. */
function withResolvers() {
  const made = {};
  made.promise = new Promise((resolve) => { made.resolve = resolve; });
  return made;
}

/**
 * The command refuses a module in the words and with the status of record.mjs. It is given a port that is in use, so that it ends
 * also if it takes the module.
 */
function testModules({ note, wmlab }, port) {
  const folder = mkdtempSync(join(tmpdir(), 'serve-'));
  try {
    const files = { empty: join(folder, 'empty.wasm'), text: join(folder, 'text.wasm') };
    writeFileSync(files.empty, '');
    writeFileSync(files.text, 'x');
    const ask = (script, ...words) => run(process.execPath, [script, '--wmlab', wmlab, ...words], { cwd: folder });
    for (const path of [files.empty, files.text, example('floats'), 'nothing.wasm']) {
      const served = ask(SERVE, '--port', port, path);
      const recorded = ask(RECORD, path, 'a');
      const isSame = recorded.status === 2 && served.status === 2 && served.err === recorded.err.replace('record.mjs: ', 'serve.mjs: ');
      note(isSame && served.out === '', `serve.mjs refuses what record.mjs refuses: ${basename(path)}`, served, recorded);
    }
    const taken = ask(SERVE, '--port', port, BUFFERS);
    note(taken.status === 2 && taken.err.includes('(EADDRINUSE)'), 'serve.mjs takes a module that the program reads', taken);
    const other = run(process.execPath, [SERVE, '--wmlab', '/bin/true', '--port', port, BUFFERS], { cwd: folder });
    note(other.status === 2 && other.err.includes('this is not wmlab'), 'serve.mjs refuses a program that is not wmlab', other);
  } finally {
    rmSync(folder, { recursive: true });
  }
}

/** Of a log whose picture dot does not make the page gets the explanation and the graph. `explain` asks for them. */
async function testNoPicture({ note }, explain) {
  const folder = mkdtempSync(join(tmpdir(), 'no-picture-'));
  const { PATH } = process.env;
  try {
    writeFileSync(join(folder, 'dot'), '#!/bin/sh\nexit 1\n', { mode: 0o755 });
    process.env.PATH = folder;
    const answer = await explain();
    const isWhole = answer.explanation?.startsWith('allowed') && answer.graph.startsWith('digraph') && answer.svg === null;
    note(isWhole, 'the server explains a log that dot does not draw', JSON.stringify(answer));
  } finally {
    process.env.PATH = PATH;
    rmSync(folder, { recursive: true });
  }
}

/** Requests that the server refuses: other hosts, other files, another page's tasks. */
export async function testServer({ note, wmlab }) {
  const judges = new Judges(wmlab);
  const server = await serve(handlersOf(judges, null, () => {}));
  const status = async (path, options) => (await fetch(`${server.origin}${path}`, options)).status;
  const seen = await Promise.all(['/', '/shared/witness.mjs', '/shared/../../README.md', '/browser/..%2fserver.mjs', '/none'].map((path) => status(path)));
  note(seen.join() === '200,200,404,404,404', `the server gives its scripts and nothing else: ${seen.join()}`);
  const refused = await fetch(`${server.origin}/judge`, { method: 'POST', body: '{"module":"AA=="}' });
  note(
    refused.status === 500 && /Magic|refused|module/i.test((await refused.json()).error),
    'the server reports a module that is not read',
  );
  const module = moduleOf(example('store-buffering')).bytes;
  const document = textOf(example('store-buffering').replace(/wasm$/, 'json'));
  const ask = async (path, value) => (await fetch(`${server.origin}${path}`, { method: 'POST', body: JSON.stringify(value) })).json();
  const judged = await ask('/judge', { module, ends: '[["done",[0]],["done",[0]]]', document, isOpen: false });
  const explain = () => ask('/explain', { module, document, line: judged.line });
  const explained = await explain();
  note(
    judged.line === 'allowed threads=2 events=4' && explained.explanation.startsWith(judged.line) && explained.graph.startsWith('digraph'),
    'the server judges a log, explains it and makes its graph',
    JSON.stringify([judged, explained]),
  );
  await testNoPicture({ note }, explain);
  testModules({ note, wmlab }, new URL(server.origin).port);
  await judges.close();
  server.close();
}

/** All tests of one browser. */
export async function testBrowser(context, engine) {
  const found = findBrowser(engine);
  if (!found) {
    context.leftOut(engine, 'it is not installed');
    return;
  }
  await testModes(context, engine);
  await testPage(context, engine, found.program);
  await testUse(context, engine, found.program);
  await testKill(context, engine);
}
