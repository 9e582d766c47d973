/** One thread of a recording: it answers each round with its end, its events and the values that it read. */

import { buffered, endOf, free, locked } from './modes.mjs';
import { CONTROL } from './turns.mjs';

/** Answers what makes one round, of what the recorder sends to a thread when it starts it. */
export function threadOf(data) {
  const { start, mode, module, native, memory, importedAs, threads } = data;
  const control = new Int32Array(data.control);
  const shared = { ...data, control, shadow: new Int32Array(data.shadow), schedule: new Int32Array(data.schedule) };
  shared.native = new WebAssembly.Instance(native, { recorder: { memory } }).exports;
  return ({ args, limit }) => {
    const events = [], values = [];
    const { hooks, finish } = { locked, buffered, free }[mode]({ ...shared, events, values, limit });
    const imports = { recorder: { ...hooks } };
    (imports[importedAs.module] ??= {})[importedAs.name] = memory;
    const run = /** @type {Function} */ (new WebAssembly.Instance(module, imports).exports[start]);
    // All threads begin together.
    Atomics.add(control, CONTROL.ready, 1);
    while (Atomics.load(control, CONTROL.ready) < threads);
    const end = endOf(() => run(...args));
    finish();
    return { end, events, values };
  };
}
