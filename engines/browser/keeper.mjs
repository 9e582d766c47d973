#!/usr/bin/env node
/**
 * Runs a browser with a profile of its own for as long as its standard input is open: whatever ends the process that started it,
 * the browser is killed and the profile removed. Its words are the browser's kind, the program and the address.
 */

import { spawn } from 'node:child_process';
import { mkdtempSync, rmSync } from 'node:fs';
import { tmpdir } from 'node:os';
import { join } from 'node:path';
import { createInterface } from 'node:readline';

const [kind, program, address] = process.argv.slice(2);
const profile = mkdtempSync(join(tmpdir(), 'wmlab-browser-'));
const asRoot = process.getuid?.() === 0 ? ['--no-sandbox'] : [];

/** The words before the address, what is added to the environment, and whether the browser needs a display. */
const BROWSERS = {
  chromium: {
    words: [
      '--headless', ...asRoot, '--disable-gpu', '--disable-dev-shm-usage', '--no-first-run', '--disable-extensions',
      '--disable-background-networking', '--disable-component-update', `--user-data-dir=${profile}`,
    ],
  },
  firefox: {
    words: ['--headless', '--no-remote', '--new-instance', '--profile', profile],
    environment: { MOZ_CRASHREPORTER_DISABLE: '1' },
  },
  // WebKitGTK shares memory between workers only if this option of its engine is set.
  webkit: { words: [], environment: { JSC_useSharedArrayBuffer: '1', NO_AT_BRIDGE: '1' }, needsDisplay: true },
};

/** The processes that were started, each with the signal that ends it. The browser's is its whole group. */
const started = [];

function start(command, words, options, signal) {
  const child = spawn(command, words, { detached: true, ...options });
  const ended = new Promise((resolve) => { child.on('exit', resolve).on('error', resolve); });
  started.push({ child, signal, ended });
  child.on('error', () => end(3));
  child.on('exit', () => end(2));
  return child;
}

let isEnding = false;

/** Ends what was started, removes the profile, and exits. The first call counts. */
async function end(status) {
  if (isEnding) return;
  isEnding = true;
  for (const { child, signal, ended } of started.reverse()) {
    try {
      process.kill(-child.pid, signal);
      await ended;
    } catch {
      // It has ended before.
    }
  }
  for (let tries = 0; tries < 50; tries++) {
    try {
      rmSync(profile, { recursive: true, force: true, maxRetries: 5 });
      break;
    } catch {
      Atomics.wait(new Int32Array(new SharedArrayBuffer(4)), 0, 0, 100); // a process that was killed still writes there
    }
  }
  process.exit(status);
}

/** Starts a display without a screen; answers its name. It removes its lock when it is asked to end. */
async function startDisplay() {
  const words = ['-displayfd', '1', '-nolisten', 'tcp', '-screen', '0', '1024x768x24'];
  const display = start('Xvfb', words, { stdio: ['ignore', 'pipe', 'ignore'] }, 'SIGTERM');
  for await (const line of createInterface({ input: display.stdout })) return `:${line.trim()}`;
  return new Promise(() => {}); // it has ended, and so does this process
}

process.stdin.on('end', () => end(0)).on('error', () => end(0)).resume();
for (const signal of ['SIGINT', 'SIGTERM', 'SIGHUP']) process.on(signal, () => {}); // the end of the input is what counts
const { words, environment, needsDisplay } = BROWSERS[kind];
const display = needsDisplay ? { DISPLAY: await startDisplay() } : {};
const env = { ...process.env, HOME: profile, TMPDIR: profile, ...environment, ...display };
for (const name of ['XDG_CACHE_HOME', 'XDG_CONFIG_HOME', 'XDG_DATA_HOME']) delete env[name];
start(program, [...words, address], { stdio: 'ignore', env }, 'SIGKILL');
