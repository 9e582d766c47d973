/** The page of a recording that a command makes: it asks the server for tasks, and posts what came of each. */

import { json } from '../shared/document.mjs';
import { Recorder } from '../shared/recorder.mjs';
import { parseStart } from '../shared/starts.mjs';
import { bytesOf } from './base64.mjs';
import { startThread } from './threads.mjs';

let recorder = null;

const TASKS = {
  async open({ module, starts, options }) {
    await TASKS.close();
    recorder = new Recorder(bytesOf(module), starts.map(parseStart), options, startThread);
    return {};
  },
  async round({ seed, items, events }) {
    if (events !== undefined) recorder.setEvents(events);
    const { ends, document, isOpen, turns } = await recorder.round(seed, items);
    return { ends: json(ends), document, isOpen, turns };
  },
  async close() {
    await recorder?.close();
    recorder = null;
    return {};
  },
};

/** Does a task; an error is an answer too. */
async function answerTo({ kind, ...task }) {
  try {
    return await TASKS[kind](task);
  } catch (error) {
    return { error: `${error.name}: ${error.message}` };
  }
}

const post = async (value) => (await fetch(`/task${location.search}`, { method: 'POST', body: JSON.stringify(value) })).json();

document.body.textContent = 'This page records for a command.';
let answer = crossOriginIsolated ? { agent: navigator.userAgent } : { error: 'the page is not isolated, so that it has no shared memory' };
for (;;) answer = await answerTo(await post(answer));
