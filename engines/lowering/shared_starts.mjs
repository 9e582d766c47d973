/** Starts that have a stack or thread-local variables of their own in a lowered module, which two threads would share. */

import { CODE } from './instructions.mjs';
import { KIND, readModule } from './module.mjs';

/** Whether a function is one that the lowering added: it sets globals to addresses, and calls the exported function. */
function isEntry({ instructions }) {
  const codes = instructions.map(({ code }) => code);
  let at = 0;
  while (codes[at] === CODE.i32Const && codes[at + 1] === CODE.globalSet) at += 2;
  const rest = codes.slice(at, -1);
  return at > 0 && rest.at(-1) === CODE.call && rest.every((code) => code === CODE.localGet || code === CODE.call);
}

/** The names among the starts, each once, with which several threads start and share a stack or thread-local variables. */
export function sharedStarts(bytes, names) {
  const { exports, bodies } = readModule(bytes);
  const repeated = new Set(names.filter((name, place) => names.indexOf(name) < place));
  return exports.filter(({ kind, name, index }) => kind === KIND.function && repeated.has(name) && isEntry(bodies[index])).map(({ name }) => name);
}
