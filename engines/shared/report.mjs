/** The page of a campaign: one static HTML file with everything in it, made of the data of each campaign in its folder. */

import { createHash } from 'node:crypto';
import { readFileSync, readdirSync, writeFileSync } from 'node:fs';
import { basename, join, relative } from 'node:path';
import { withFile } from './errors.mjs';
import { makeFolder } from './kept.mjs';
import { isFault, trapLine } from './outcomes.mjs';

const ESCAPES = { '&': '&amp;', '<': '&lt;', '>': '&gt;', '"': '&quot;' };
const escaped = (value) => `${value}`.replace(/[&<>"]/g, (character) => ESCAPES[character]);

const startText = ({ name, args }) => [name, ...args].join(':');

/**
 * The name of a campaign's files: its program, mode, engine, and a checksum of all that makes it another campaign: the module's
 * bytes, the starts, the mode, the engine and how it is wrong, and the conditions.
 *
 * @param {Record<string, any>} options
 * @param {Uint8Array} bytes
 */
export function campaignName({ module, starts, mode, engine, wrong = null, conditions }, bytes) {
  const key = [starts.map(startText), mode, engine, wrong, conditions.map(({ kind, text }) => [kind, text])];
  const sum = createHash('sha256').update(JSON.stringify(key)).update('\0').update(bytes);
  return `${basename(module, '.wasm').replace(/[^\w.-]/g, '_')}-${mode}-${engine}-${sum.digest('hex').slice(0, 12)}`;
}

/** What the page has to know of a campaign, as JSON. */
async function dataOf(folder, campaign) {
  const { options, results, recorder, judge, conditions, traps, kept, stop } = campaign;
  const { name, module, bytes, starts, mode, engine, wrong, rounds, events, seed } = options;
  const wmlab = await judge.version();
  return {
    name, program: basename(module), checksum: createHash('sha256').update(bytes).digest('hex'),
    starts: starts.map(startText), mode, engine, wrong, events, seed,
    rounds, checked: results.checked, isStopped: Boolean(stop.requested), version: recorder.version, wmlab,
    date: new Date().toISOString().slice(0, 16).replace('T', ' '), isAllowed: !results.bad,
    outcomes: results.outcomes.rows(), faults: results.outcomes.rows().map(([outcome]) => outcome).filter((outcome) => isFault(conditions, outcome)),
    verdicts: results.verdicts.rows(),
    conditions: conditions.map(({ line, fails }) => ({ line, fails })), traps: traps.map(trapLine),
    kept: kept.map(({ path, number, outcome, line, explanation, svg }) => (
      { path: relative(folder, path), number, outcome, fails: isFault(conditions, outcome), line, explanation, svg })),
  };
}

const STYLE = `
:root { color-scheme: light dark; --line: #8886; --bar: #4a7ebb; --bad: #c03030; --good: #2c7a3f; }
body { font: 16px/1.5 system-ui, sans-serif; margin: 0 auto; max-width: 70rem; padding: 1rem; }
h1 { font-size: 1.5rem; }
h2 { font-size: 1.2rem; border-top: 1px solid var(--line); margin-top: 2rem; padding-top: 1rem; }
h3 { font-size: 1rem; margin-bottom: .3rem; }
table { border-collapse: collapse; width: 100%; }
td, th { padding: .2rem .6rem .2rem 0; text-align: left; vertical-align: top; }
td.count { text-align: right; width: 5rem; }
td.bar { width: 45%; min-width: 5rem; }
code, summary { overflow-wrap: anywhere; }
.wide, pre, .picture { overflow-x: auto; }
.bar div { background: var(--bar); height: 1.1rem; min-width: 1px; }
.bad { color: var(--bad); font-weight: 600; }
.good { color: var(--good); }
.hex { opacity: .7; }
details { border: 1px solid var(--line); border-radius: .3rem; margin: .4rem 0; padding: .3rem .6rem; }
summary { cursor: pointer; }
pre { font-size: .85rem; white-space: pre-wrap; }
.picture { background: white; }
@media (max-width: 40rem) { body { padding: .5rem; } td, th { padding-right: .3rem; } td.count { width: 3rem; } }
.picture svg { max-width: 100%; height: auto; }
`;

const isGood = (line) => line.startsWith('allowed');

/** An outcome with its values in hex beside it, if one of them has another digit there. */
function outcomeText(outcome, isRight = true) {
  const hex = outcome.replace(/\d{2,}/g, (value) => `0x${BigInt(value).toString(16)}`);
  const code = `<code${isRight ? '' : ' class="bad"'}>${escaped(outcome)}</code>`;
  return hex === outcome ? code : `${code} <code class="hex">${escaped(hex)}</code>`;
}
const marked = (isRight, text) => `<span class="${isRight ? 'good' : 'bad'}">${escaped(text)}</span>`;

function bars(rows, textOf) {
  const most = Math.max(1, ...rows.map(([, count]) => count));
  const row = ([text, count]) => {
    const bar = `<div style="width:${(100 * count) / most}%"></div>`;
    return `<tr><td class="count">${count}</td><td class="bar">${bar}</td><td>${textOf(text)}</td></tr>`;
  };
  return `<div class="wide"><table>${rows.map(row).join('\n')}</table></div>`;
}

/** The picture of a kept log without the prologue of its file. */
const pictureOf = (svg) => `<div class="picture">${svg.slice(Math.max(0, svg.indexOf('<svg')))}</div>`;

function keptPart({ path, number, outcome, fails, line, explanation, svg }) {
  const which = /-shrunk\.json$/.test(path) ? ', smaller run' : '';
  const condition = fails ? `, ${marked(false, 'a condition fails')}` : '';
  return `<details><summary>round ${number}${which}: outcome ${outcomeText(outcome, !fails)}${condition}, ${marked(isGood(line), line)}</summary>
<p>Log: <a href="${escaped(encodeURI(path))}">${escaped(path)}</a></p>
<pre>${escaped(explanation)}</pre>
${svg ? pictureOf(svg) : '<p>No picture.</p>'}</details>`;
}

/** The part of the page on one campaign. */
function campaignPart(data) {
  const rounds = `${data.checked} of ${data.rounds} rounds${data.isStopped ? ', stopped' : ''}`;
  const limits = `${rounds}, at most ${data.events} events, seed ${data.seed}`;
  const { faults = [], traps = [] } = data; // earlier pages have none
  const conditions = data.conditions.map(({ line, fails }) => `<li>${marked(!fails, line)}</li>`).join('');
  const trapItems = traps.map((line) => `<li>${escaped(line)}</li>`).join('');
  return `<h2 id="${escaped(data.name)}">${escaped(data.program)}, ${escaped(data.mode)}, ${escaped(data.engine)}</h2>
<p>Threads: ${data.starts.map((start) => `<code>${escaped(start)}</code>`).join(' ')}. ${escaped(limits)}.
${data.wrong ? `<span class="bad">The engine is wrong on purpose: ${escaped(data.wrong)}.</span>` : ''}
Module: SHA-256 <code>${escaped(data.checksum ?? 'unknown')}</code>.
Engine: ${escaped(data.version)}. Checked by ${escaped(data.wmlab)} on ${escaped(data.date)} UTC.</p>
<h3>Outcomes</h3>${bars(data.outcomes, (text) => outcomeText(text, !faults.includes(text)))}
<h3>Verdicts</h3>${bars(data.verdicts, (text) => marked(isGood(text), text))}
${conditions ? `<h3>Conditions</h3><ul>${conditions}</ul>` : ''}
${trapItems ? `<h3>Traps that no condition names</h3><ul>${trapItems}</ul>` : ''}
<h3>Kept logs</h3>${data.kept.map(keptPart).join('\n') || '<p>None.</p>'}`;
}

/** What came of a campaign in a few words: its verdicts, the conditions that failed, and the traps that none names. */
function resultOf({ isAllowed, conditions, traps = [] }) {
  const counted = (count, thing) => `${count} ${thing}${count === 1 ? '' : 's'}`;
  const failed = conditions.filter(({ fails }) => fails).length;
  return [
    marked(isAllowed, isAllowed ? 'all allowed' : 'not all allowed'),
    ...(failed ? [marked(false, `${counted(failed, 'condition')} failed`)] : []),
    ...(traps.length ? [counted(traps.length, 'unnamed trap')] : []),
  ].join(', ');
}

function overview(all) {
  const row = (data) => `<tr><td><a href="#${escaped(data.name)}">${escaped(data.program)}</a></td>`
    + `<td><code>${escaped(data.starts.join(' '))}</code></td><td>${resultOf(data)}</td>`
    + `<td>${escaped(data.mode)}</td><td>${escaped(data.engine)}</td><td>${data.checked}</td><td>${data.outcomes.length}</td></tr>`;
  const heads = ['Program', 'Threads', 'Result', 'Mode', 'Engine', 'Logs', 'Outcomes'].map((head) => `<th>${head}</th>`).join('');
  return `<div class="wide"><table><tr>${heads}</tr>${all.map(row).join('\n')}</table></div>`;
}

/** The page of these campaigns. */
function pageOf(all) {
  const logs = all.reduce((sum, { checked }) => sum + checked, 0);
  return `<!doctype html>
<html lang="en"><head><meta charset="utf-8"><meta name="viewport" content="width=device-width, initial-scale=1">
<title>Recorded runs</title><style>${STYLE}</style></head><body>
<h1>Recorded runs: ${logs} logs of ${all.length} ${all.length === 1 ? 'campaign' : 'campaigns'}</h1>
${overview(all)}
${all.map(campaignPart).join('\n')}
</body></html>
`;
}

/** Adds a campaign to the page of a folder. */
export async function writeReport(folder, campaign) {
  const data = await dataOf(folder, campaign);
  const store = join(folder, 'campaigns');
  withFile(`write to the folder ${store}`, () => {
    makeFolder(store);
    writeFileSync(join(store, `${data.name}.json`), JSON.stringify(data));
    const names = readdirSync(store).filter((name) => name.endsWith('.json')).sort();
    writeFileSync(join(folder, 'index.html'), pageOf(names.map((name) => JSON.parse(readFileSync(join(store, name), 'utf8')))));
  });
}
