/** A recorder whose rounds run in a page of a browser. It has the methods of the recorder in shared/recorder.mjs. */

import { randomUUID } from 'node:crypto';
import { parse } from '../shared/document.mjs';
import { UserError } from '../shared/errors.mjs';
import { initialOf, refuseOptions, startsOf } from '../shared/recorder.mjs';
import { openPage, requireBrowser } from './launch.mjs';
import { serve } from './server.mjs';

/** How long a browser may take to open the page, and a round to run. */
const SECONDS_TO_OPEN = 90;
const SECONDS_OF_A_ROUND = 120;

/** Hands tasks to a page, one at a time: the page posts the answer to one, and gets the next one as the response. */
class Desk {
  constructor() {
    this.token = randomUUID();
    /**
     * Hands the next task to the page that waits for it.
     *
     * @type {(task: any) => void}
     */
    this.handOut = (task) => { throw new Error(`no page waits for the task ${task.kind}`); };
    /** Takes what the page posts. */
    this.receive = (answer) => {};
    this.posted = this.promised();
  }

  promised() {
    return new Promise((resolve) => { this.receive = resolve; });
  }

  /** What the server does with a post of the page. */
  take(body, query) {
    if (query.get('token') !== this.token) throw new Error('this page is not the one that records');
    const next = new Promise((resolve) => { this.handOut = resolve; });
    this.receive(JSON.parse(body));
    return next;
  }

  /** Hands out a task; the answer is what is posted next. */
  give(task) {
    this.posted = this.promised();
    this.handOut(task);
  }
}

/** A browser with one page, which records for one recorder after the other. */
class Browser {
  constructor({ kind, program, version }) {
    this.kind = kind;
    this.program = program;
    this.version = version;
    this.desk = new Desk();
  }

  async open() {
    this.server = await serve({ 'POST /task': (body, query) => this.desk.take(body, query) });
    this.page = openPage(this.kind, this.program, `${this.server.origin}/auto?token=${this.desk.token}`);
    await this.answer(SECONDS_TO_OPEN, 'did not open the page');
  }

  /** What the page posts next. */
  async answer(seconds, complaint) {
    /** @type {number | undefined} */
    let timer;
    const late = new Promise((resolve) => {
      timer = setTimeout(() => resolve({ problem: `${complaint} in ${seconds} seconds` }), 1000 * seconds);
    });
    const gone = (this.page?.ended ?? Promise.resolve()).then(() => ({ problem: 'ended' }));
    const answer = await Promise.race([this.desk.posted, late, gone]);
    clearTimeout(timer);
    if (answer.problem) throw new UserError(`${this.program}: the browser ${answer.problem}`);
    if (answer.error) throw new UserError(`${this.program}: ${answer.error}`);
    return answer;
  }

  async ask(task) {
    this.desk.give(task);
    return this.answer(SECONDS_OF_A_ROUND, 'did not answer');
  }

  /** A recorder for a module and starts. The page closes the one before it. */
  async openRecorder(bytes, options) {
    const starts = wordsOfStarts(bytes, options);
    const { mode, events, turn, wrong } = options;
    const given = { mode, events, turn, wrong }; // JSON leaves out what is not defined
    await this.ask({ kind: 'open', module: Buffer.from(bytes).toString('base64'), starts, options: given });
    return new BrowserRecorder(this, initialOf(bytes));
  }

  async close() {
    await this.page?.close();
    this.server?.close();
  }
}

class BrowserRecorder {
  constructor(browser, initial) {
    this.browser = browser;
    this.initial = initial;
    this.version = browser.version;
  }

  /** Sets the most events of a round. */
  setEvents(events) {
    this.events = events;
  }

  async round(seed, items = null) {
    const { ends, document, isOpen, turns } = await this.browser.ask({ kind: 'round', seed, items, events: this.events });
    return { ends: parse(ends), document, isOpen, turns };
  }

  /** Ends its threads; the browser stays. */
  async close() {
    await this.browser.ask({ kind: 'close' });
  }
}

/** The starts as words; refuses starts and options that no recorder takes. */
function wordsOfStarts(bytes, options) {
  refuseOptions(options, options.starts);
  return startsOf(bytes, options.starts).map(({ name, args }) => [name, ...args].join(':'));
}

/** Opens a browser. */
export async function openBrowser(kind) {
  const browser = new Browser({ kind, ...requireBrowser(kind) });
  try {
    await browser.open();
    return browser;
  } catch (error) {
    await browser.close();
    throw error;
  }
}

/** Opens a browser for one recorder, which closes it. */
export async function openBrowserRecorder(bytes, options) {
  wordsOfStarts(bytes, options);
  const browser = await openBrowser(options.engine);
  try {
    const recorder = await browser.openRecorder(bytes, options);
    recorder.close = () => browser.close();
    return recorder;
  } catch (error) {
    await browser.close();
    throw error;
  }
}
