// @ts-check
/** One thread of a harness, in a worker of node or of a browser. */

import { WORD } from './layout.mjs';

/** The commands that a thread finds in the word `command`. */
export const COMMAND = { run: 0, end: 1 };

/**
 * Answers what to do with a message: run a thread of a looped module, batch by batch, until the command to end. `post` gets `ready`
 * before the first batch and `ended` after the last one, or `failed: ..`.
 *
 * @param {(word: string) => void} post
 */
export function threadOf(post) {
  return (/** @type {{ module: WebAssembly.Module, memory: WebAssembly.Memory, thread: number, batch: number }} */ task) => {
    const control = new Int32Array(task.memory.buffer, 0, 256);
    try {
      const { exports } = new WebAssembly.Instance(task.module, { litmus: { memory: task.memory } });
      const run = /** @type {(count: number) => void} */ (exports[`run${task.thread}`]);
      let number = Atomics.load(control, WORD.batch);
      post('ready');
      for (;;) {
        // A wake-up may come late, of a batch that this thread has run: it may not run one twice.
        while (Atomics.load(control, WORD.batch) === number) Atomics.wait(control, WORD.batch, number);
        number = Atomics.load(control, WORD.batch);
        if (Atomics.load(control, WORD.command) === COMMAND.end) break;
        run(task.batch);
        Atomics.add(control, WORD.done, 1);
        Atomics.notify(control, WORD.done);
      }
      post('ended');
    } catch (error) {
      post(`failed: ${error}`);
      Atomics.store(control, WORD.failed, 1);
      Atomics.add(control, WORD.done, 1);
      Atomics.notify(control, WORD.done);
    }
  };
}
