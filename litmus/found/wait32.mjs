#!/bin/sh
':' //; command -v node >/dev/null || { echo "${0##*/}: node is not installed (Debian: nodejs)" >&2; exit 2; }; exec node "$0" "$@"
// @ts-check
/**
 * Whether an engine keeps a local over memory.atomic.wait32 (docs/FOUND.md).
 *
 *     litmus/found/wait32.mjs [node | chromium | firefox | webkit]
 *     node --no-liftoff litmus/found/wait32.mjs
 *
 * The status is 0 if it does, 1 if not, and 2 if the engine is not there.
 */

import { randomUUID } from 'node:crypto';
import { readFileSync } from 'node:fs';
import { setTimeout as after } from 'node:timers/promises';
import { openPage, requireBrowser } from '../../engines/browser/launch.mjs';
import { serve } from '../../engines/browser/server.mjs';
import { UserError } from '../../engines/shared/errors.mjs';
import { calls } from './calls.mjs';

const SECONDS = 90;
const FILES = ['calls.mjs', 'page.html'];

/**
 * What the page of a browser answers.
 *
 * @param {string} kind
 */
async function inBrowser(kind) {
  const { program, version } = requireBrowser(kind);
  const token = randomUUID();
  /** @type {(answer: any) => void} */
  let receive = () => {};
  const answer = new Promise((resolve) => { receive = resolve; });
  const pages = Object.fromEntries(FILES.map((file) => [`/found/${file}`, `../litmus/found/${file}`]));
  const server = await serve({
    'POST /found/answer': (body, query) => { if (query.get('token') === token) receive(JSON.parse(body)); return {}; },
  }, 0, { ...pages, '/found/wait32.wasm': '../litmus/found/wait32.wasm' });
  const page = openPage(kind, program, `${server.origin}/found/page.html?token=${token}`);
  const late = after(1000 * SECONDS, null, { ref: false });
  const results = await Promise.race([answer, late, page.ended.then(() => null)]);
  await page.close();
  server.close();
  if (!results) throw new UserError(`${program}: it did not answer`);
  return { version, results };
}

const inNode = () => ({
  version: `node ${process.versions.node} (V8 ${process.versions.v8}) ${process.execArgv.join(' ')}`.trim(),
  results: calls(readFileSync(new URL('wait32.wasm', import.meta.url))),
});

try {
  const kind = process.argv[2] ?? 'node';
  if (!['node', 'chromium', 'firefox', 'webkit'].includes(kind)) throw new UserError(`${kind}: expected node, chromium, firefox or webkit`);
  const { version, results } = kind === 'node' ? inNode() : await inBrowser(kind);
  const isRight = results.every((/** @type {number[]} */ [value, result]) => value === result);
  console.log(`${version}: ${isRight ? 'right' : 'WRONG'}`);
  for (const [value, result] of results) console.log(`  f(${value}) is ${result}`);
  process.exitCode = isRight ? 0 : 1;
} catch (error) {
  console.error(error instanceof UserError ? `wait32.mjs: ${error.message}` : error);
  process.exitCode = error instanceof UserError ? 2 : 3;
}
