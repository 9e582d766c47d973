/** The page for people: a module, starts and a mode; a table of outcomes that grows; logs, and verdicts if the server has wmlab. */

import { json } from '../shared/document.mjs';
import { logsOfRound } from '../shared/logs.mjs';
import { outcomeOf } from '../shared/outcomes.mjs';
import { Recorder } from '../shared/recorder.mjs';
import { rewrite } from '../shared/rewrite.mjs';
import { parseStart } from '../shared/starts.mjs';
import { Table, kindOf } from '../shared/table.mjs';
import { base64Of, bytesOf } from './base64.mjs';
import { startThread } from './threads.mjs';

/**
 * A part of the page, which may be an input.
 *
 * @returns {any}
 */
const part = (id) => document.getElementById(id);
const show = (text, isBad = false) => {
  part('status').textContent = text;
  part('status').className = isBad ? 'bad' : '';
};

async function post(path, value) {
  const answer = await (await fetch(path, { method: 'POST', body: JSON.stringify(value) })).json();
  if (answer.error) throw new Error(answer.error);
  return answer;
}

function element(tag, properties, ...children) {
  const made = Object.assign(document.createElement(tag), properties);
  made.append(...children);
  return made;
}

/** The module that was chosen, and what the server can do. */
const state = { name: '', bytes: null, hasJudge: false, stop: { requested: false } };

function takeModule(name, bytes) {
  const { parameters } = rewrite(bytes, 'hooked');
  Object.assign(state, { name, bytes });
  const usages = [...parameters].map(([start, types]) => [start, ...types.map((type) => type.toUpperCase())].join(':'));
  part('module').textContent = `${name}, ${bytes.length} bytes; it exports ${usages.join(', ') || 'no function'}.`;
  part('starts').value = [...parameters].filter(([, types]) => types.length === 0).map(([start]) => start).join('\n');
  show('');
}

async function takeFile(file) {
  try {
    takeModule(file.name, new Uint8Array(await file.arrayBuffer()));
  } catch (error) {
    show(`${file.name}: ${error.message}`, true);
  }
}

/** The log of a round to download: the completed one of the server, or the first witness that a search in the page finds. */
async function logOf(found) {
  if (found.log) return found.log;
  const { value } = await logsOfRound(found.round, found.initial, { seconds: 5 }).next();
  return typeof value === 'string' ? value : value.document;
}

async function download(found) {
  const url = URL.createObjectURL(new Blob([await logOf(found)], { type: 'application/json' }));
  element('a', { href: url, download: `round-${found.number}.json` }).click();
  setTimeout(() => URL.revokeObjectURL(url), 1_000);
}

const pictureOf = (svg) => element('img', {
  alt: 'the execution', src: `data:image/svg+xml;base64,${base64Of(new TextEncoder().encode(svg))}`,
});

async function explain(found) {
  const { explanation, svg } = await post('/explain', { module: base64Of(state.bytes), document: found.log, line: found.line });
  part('details').hidden = false;
  part('title').textContent = `Round ${found.number}: ${found.outcome}`;
  part('explanation').textContent = explanation;
  part('picture').replaceChildren(svg ? pictureOf(svg) : 'No picture.');
  part('details').scrollIntoView();
}

const button = (text, action) => element('button', {
  type: 'button', textContent: text, onclick: () => action().catch((error) => show(error.message, true)),
});

/** The counts of a recording, and the first round of each outcome and verdict. */
class Tables {
  outcomes = new Table();
  verdicts = new Table();
  first = new Map();

  add(found) {
    const keys = [[this.outcomes, found.outcome], ...(found.line ? [[this.verdicts, kindOf(found.line)]] : [])];
    for (const [table, text] of keys) if (table.add(text) === 1) this.first.set(`${table === this.outcomes} ${text}`, found);
  }

  show() {
    this.showOne('outcomes', this.outcomes);
    this.showOne('verdicts', this.verdicts);
  }

  showOne(id, table) {
    const rows = table.rows();
    const most = Math.max(1, ...rows.map(([, count]) => count));
    part(id).replaceChildren(...rows.slice(0, 50).map(([text, count]) => {
      const found = this.first.get(`${id === 'outcomes'} ${text}`);
      const bar = element('div', {});
      bar.style.width = `${(100 * count) / most}%`;
      const tone = id === 'outcomes' ? '' : text.startsWith('allowed') ? 'good' : 'bad';
      const actions = [button('Log', () => download(found)), ...(found.line ? [button('Explain', () => explain(found))] : [])];
      return element('tr', {}, element('td', { className: 'count', textContent: count }), element('td', { className: 'bar' }, bar),
        element('td', { className: tone }, element('code', { textContent: text })), element('td', {}, ...actions));
    }));
  }
}

/** Makes a round, and has its log judged if the server can. */
async function roundOf(recorder, number) {
  const round = await recorder.round(Number(part('seed').value) + number);
  const found = { number, round, initial: recorder.initial, outcome: outcomeOf(round.ends) };
  if (!state.hasJudge) return found;
  const { document: log, isOpen } = round;
  const answer = await post('/judge', { module: base64Of(state.bytes), ends: json(round.ends), document: log, isOpen });
  return { ...found, line: answer.line, log: answer.document };
}

function openRecorder() {
  if (!crossOriginIsolated) throw new Error('this page has no shared memory: open it from engines/browser/serve.mjs');
  if (!state.bytes) throw new Error('choose a module first');
  if (!part('form').checkValidity()) {
    throw new Error('rounds, events and seed are integers of at least 1, and at most 16384 events');
  }
  const starts = part('starts').value.split(/\s+/).filter(Boolean).map(parseStart);
  const options = { mode: part('mode').value, events: Number(part('events').value) };
  return new Recorder(state.bytes, starts, options, startThread);
}

async function record() {
  const recorder = openRecorder();
  const tables = new Tables();
  const rounds = Number(part('rounds').value);
  state.stop.requested = false;
  part('details').hidden = true;
  try {
    let number = 0;
    for (; number < rounds && !state.stop.requested; number++) {
      tables.add(await roundOf(recorder, number));
      if (number % 10 === 0) tables.show();
      show(`${number + 1} of ${rounds} rounds`);
    }
    show(`${number} of ${rounds} rounds${state.stop.requested ? ', stopped' : ', done'}`);
    tables.show();
    await post(
      '/finished',
      { name: state.name, agent: navigator.userAgent, outcomes: tables.outcomes.lines(), verdicts: tables.verdicts.lines() },
    );
  } finally {
    await recorder.close();
  }
}

async function start(event) {
  event?.preventDefault();
  part('start').disabled = true;
  part('stop').disabled = false;
  try {
    await record();
  } catch (error) {
    show(error.message, true);
  } finally {
    part('start').disabled = false;
    part('stop').disabled = true;
  }
}

function listen() {
  part('form').onsubmit = start;
  part('stop').onclick = () => { state.stop.requested = true; };
  part('file').onchange = ({ target }) => target.files[0] && takeFile(target.files[0]);
  const drop = part('drop');
  document.ondragover = (event) => { event.preventDefault(); drop.classList.add('over'); };
  document.ondragleave = () => drop.classList.remove('over');
  document.ondrop = (event) => {
    event.preventDefault();
    drop.classList.remove('over');
    const file = event.dataTransfer?.files[0];
    if (file) takeFile(file);
  };
}

/** The module that the server was started with, if there is one, and what the address asks for: `#mode=free&rounds=50&start`. */
async function begin() {
  listen();
  const about = await (await fetch('/about')).json();
  state.hasJudge = about.hasJudge;
  part('judge').textContent = about.hasJudge ? '' : 'The server has no wmlab, so logs are recorded and not checked.';
  if (about.module) takeModule(about.module.name, bytesOf(about.module.bytes));
  const asked = new URLSearchParams(location.hash.slice(1));
  for (const name of ['mode', 'rounds', 'events', 'seed']) if (asked.has(name)) part(name).value = asked.get(name);
  if (asked.has('starts')) part('starts').value = (asked.get('starts') ?? '').split(',').join('\n');
  if (asked.has('start')) await start();
}

begin().catch((error) => show(error.message, true));
