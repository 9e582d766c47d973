// @ts-check
/** The harness in a browser without a window: a server on the loopback hands out tests to a page, whose workers run them. */

import { randomUUID } from 'node:crypto';
import { setTimeout as after } from 'node:timers/promises';
import { openPage, requireBrowser } from '../../engines/browser/launch.mjs';
import { serve } from '../../engines/browser/server.mjs';
import { UserError } from '../../engines/shared/errors.mjs';
import { Pins, workersOf } from './pinning.mjs';

const SECONDS_TO_OPEN = 90;
/** How long a page that runs a test may say nothing: longer than a batch, after which it tells how far it is. */
const SECONDS_OF_SILENCE = 60;
/** How long the threads of new workers may take to be seen by the system, in milliseconds. */
const MILLISECONDS_TO_APPEAR = 3000;

const HARNESS = [
  'page.html', 'page.mjs', 'coordinator.mjs', 'browser_worker.mjs', 'thread.mjs', 'runner.mjs', 'histogram.mjs', 'layout.mjs', 'looped.mjs',
  'code.mjs', 'meeting.mjs', 'wrong.mjs', 'accesses.mjs', 'tasks.mjs', 'mailbox.mjs',
];
const ENGINES = [
  'shared/binary.mjs', 'shared/errors.mjs', 'shared/accesses.mjs', 'lowering/instructions.mjs', 'lowering/module.mjs',
  'lowering/assembly.mjs',
];
const PAGES = Object.fromEntries([
  ...HARNESS.map((file) => [`/litmus/harness/${file}`, `../litmus/harness/${file}`]), ...ENGINES.map((file) => [`/engines/${file}`, file]),
]);

/** A browser whose page asks for one test after the other. */
class BrowserHarness {
  /**
   * @param {{ engine: string, pin: number[] }} given
   */
  constructor({ engine, pin }) {
    const { program, version } = requireBrowser(engine);
    this.kind = engine;
    this.program = program;
    this.version = version;
    this.token = randomUUID();
    this.pins = new Pins(pin);
    this.hasEnded = false;
    this.heard = 0;
    /** @type {any} */
    this.options = {};
    /** @type {(task: object) => void} */
    this.handOut = () => {};
    /** @type {(answer: any) => void} */
    this.receive = () => {};
    this.posted = this.nextPost();
  }

  nextPost() {
    return new Promise((resolve) => { this.receive = resolve; });
  }

  /**
   * What the server does with a post of the page.
   *
   * @param {(value: any) => any} action
   */
  handler(action) {
    return (/** @type {string} */ body, /** @type {URLSearchParams} */ query) => {
      if (query.get('token') !== this.token) throw new Error('this page is not the one that runs tests');
      this.heard = Date.now();
      return action(JSON.parse(body));
    };
  }

  task(/** @type {any} */ answer) {
    const next = new Promise((resolve) => { this.handOut = resolve; });
    this.receive(answer);
    return next;
  }

  progress(/** @type {{ done: number }} */ { done }) {
    this.options.tell?.(done);
    return { stop: this.options.isStopped?.() ?? false };
  }

  /**
   * Pins the youngest workers, of which the page's coordinator is the oldest.
   *
   * @param {{ workers: number }} given
   */
  async pin({ workers }) {
    const end = Date.now() + MILLISECONDS_TO_APPEAR;
    let found = workersOf(this.token, workers + 1);
    while (!found.length && Date.now() < end) {
      await new Promise((resolve) => { setTimeout(resolve, 50); });
      found = workersOf(this.token, workers + 1);
    }
    if (!found.length) this.pins.problem = `the threads of ${this.kind} were not found`;
    else found.slice(-workers).forEach((system, thread) => this.pins.pin(system, thread));
    return {};
  }

  async open() {
    this.server = await serve({
      'POST /litmus/task': this.handler((answer) => this.task(answer)),
      'POST /litmus/progress': this.handler((value) => this.progress(value)),
      'POST /litmus/pin': this.handler((value) => this.pin(value)),
    }, 0, PAGES);
    this.page = openPage(this.kind, this.program, `${this.server.origin}/litmus/harness/page.html?token=${this.token}`);
    await this.answer(SECONDS_TO_OPEN, {
      gone: 'the browser ended before it opened a page; run it by hand to see why',
      silent: `it did not open the page in ${SECONDS_TO_OPEN} seconds`,
    });
    return this;
  }

  /**
   * Ends when nothing was heard of the page for so long.
   *
   * @param {number} seconds
   * @param {AbortSignal} signal
   */
  async silence(seconds, signal) {
    this.heard = Date.now();
    for (let left = 1000 * seconds; left > 0; left = this.heard + 1000 * seconds - Date.now()) {
      await after(left, null, { ref: false, signal });
    }
  }

  /**
   * What the page posts next, other than how far it is.
   *
   * @param {number} seconds how long it may say nothing
   * @param {{ gone: string, silent: string }} errors
   */
  async answer(seconds, { gone, silent }) {
    const waiting = new AbortController();
    const late = this.silence(seconds, waiting.signal).then(() => ({ error: silent }), () => ({ error: silent }));
    const ended = this.page?.ended.then(() => ({ error: gone }));
    const answer = await Promise.race([this.posted, ended, late]);
    waiting.abort();
    this.posted = this.nextPost();
    if (!answer.error) return answer;
    this.hasEnded = true;
    throw new UserError(`${this.program}: ${answer.error}`);
  }

  isGone() {
    return this.hasEnded;
  }

  /**
   * @param {any} task
   * @param {any} options
   */
  async run(task, options) {
    const { tell, isStopped, ...given } = options;
    this.options = { tell, isStopped };
    this.handOut({ test: task, options: given });
    const answer = await this.answer(SECONDS_OF_SILENCE, {
      gone: 'the browser ended', silent: `its page said nothing for ${SECONDS_OF_SILENCE} seconds`,
    });
    if (answer.failed) throw new Error(answer.failed);
    return answer.result;
  }

  async close() {
    if (!this.hasEnded) this.handOut({ end: true });
    await this.page?.close();
    this.server?.close();
  }
}

/**
 * Opens a browser.
 *
 * @param {{ engine: string, pin: number[] }} given
 */
export async function openBrowserHarness(given) {
  const harness = new BrowserHarness(given);
  try {
    return await harness.open();
  } catch (error) {
    await harness.close();
    throw error;
  }
}
