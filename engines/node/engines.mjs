/** Opens recorders in an engine. */

import { Recorder } from '../shared/recorder.mjs';
import { startThread } from './threads.mjs';

/** Node itself, with the methods of a browser. */
const NODE = {
  /** @returns {Promise<wmlab.Recorder>} */
  async openRecorder(bytes, options) {
    const recorder = new Recorder(bytes, options.starts, options, startThread);
    return Object.assign(recorder, { version: `node ${process.versions.node} (V8 ${process.versions.v8})` });
  },
  async close() {},
};

/** An engine that opens one recorder after the other, with `openRecorder` and `close`: node, or a browser. */
export async function openEngine(engine) {
  if (engine === 'node') return NODE;
  const { openBrowser } = await import('../browser/recorder.mjs');
  return openBrowser(engine);
}

/** A recorder with `round`, `close`, `initial` and `version`, the engine's name and version. */
export async function openRecorder(bytes, options) {
  const { engine = 'node' } = options;
  if (engine === 'node') return NODE.openRecorder(bytes, options);
  const { openBrowserRecorder } = await import('../browser/recorder.mjs');
  return openBrowserRecorder(bytes, options);
}
