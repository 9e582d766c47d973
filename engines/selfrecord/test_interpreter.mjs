/** Runs a module that records itself in wabt's interpreter, an engine without JavaScript, with the threads one after the other. */

import { spawnSync } from 'node:child_process';
import { mkdtempSync, rmSync, writeFileSync } from 'node:fs';
import { tmpdir } from 'node:os';
import { join } from 'node:path';
import { rewrite } from '../shared/rewrite.mjs';
import { EVENT, HEADER, MOST_THREADS, PAGE_BYTES, THREAD } from './layout.mjs';
import { recordingModule } from './rewrite.mjs';
import { EVENTS } from './test_hooks.mjs';

export const hasInterpreter = ['wast2json', 'spectest-interp'].every((tool) => !spawnSync(tool, ['--version']).error);

const escaped = (bytes) => [...bytes].map((byte) => `\\${byte.toString(16).padStart(2, '0')}`).join('');

/** The addresses of the words that hold a recording: the header, the rows of the threads, the events. */
function* addressesOf({ base, events }) {
  for (let at = base; at < base + THREAD.first + MOST_THREADS * THREAD.bytes; at += 4) yield at;
  for (let at = events; at < events + EVENTS * EVENT.bytes; at += 4) yield at;
}

/** A script: a memory, an instance for each thread, their calls, and then the words of the recording. */
function scriptOf({ bytes, layout, memory }, starts, parameters) {
  const limits = `${layout.allPages} ${layout.allPages} shared`;
  const instance = (_, thread) => `(module $thread${thread} binary "${escaped(bytes)}")`;
  const argument = (value, type) => `(${type}.const ${value})`;
  const call = ({ name, args }, thread) => (
    `(invoke $thread${thread} "${name}" ${args.map((value, k) => argument(value, parameters.get(name)[k])).join(' ')})`);
  return [
    `(module $memory (memory (export "${memory.name}") ${limits}))`, `(register "${memory.module}" $memory)`,
    ...starts.map(instance), ...starts.map(call),
    `(module $reader (import "${memory.module}" "${memory.name}" (memory ${limits}))`,
    '  (func (export "word") (param i32) (result i32) (i32.load (local.get 0))))',
    ...[...addressesOf(layout)].map((address) => `(invoke $reader "word" (i32.const ${address}))`),
  ].join('\n');
}

/** The bytes of the memory, as far as they hold the recording. */
export function runInInterpreter(moduleBytes, starts) {
  const made = recordingModule(moduleBytes, { capacity: EVENTS });
  const folder = mkdtempSync(join(tmpdir(), 'interpreter-'));
  try {
    const [script, json] = ['script.wast', 'script.json'].map((name) => join(folder, name));
    writeFileSync(script, scriptOf(made, starts, rewrite(moduleBytes, 'hooked').parameters));
    const converted = spawnSync('wast2json', ['--enable-threads', script, '-o', json], { encoding: 'utf8' });
    if (converted.status !== 0) throw new Error(converted.stderr);
    const { stdout } = spawnSync('spectest-interp', ['--enable-threads', json], { encoding: 'utf8' });
    const bytes = Buffer.alloc(made.layout.allPages * PAGE_BYTES);
    for (const [, address, word] of stdout.matchAll(/^word\(i32:(\d+)\) => i32:(\d+)$/gm)) bytes.writeUInt32LE(Number(word), Number(address));
    if (bytes.readUInt32LE(made.layout.base + HEADER.threads) === 0) throw new Error(`no thread ran: ${stdout.slice(0, 200)}`);
    return bytes;
  } finally {
    rmSync(folder, { recursive: true });
  }
}
