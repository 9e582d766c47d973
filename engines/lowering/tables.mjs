/** The table of functions that `call_indirect` uses, as far as it is known before the module runs. */

import { CODE } from './instructions.mjs';
import { constantOf } from './module.mjs';

/** The functions of the table by their places; a place without a function is absent. */
export function tableOf(module) {
  const table = new Map();
  for (const { active, offset, functions } of module.elements) {
    const base = active ? constantOf(offset, module.globals) : null;
    if (base === null) continue;
    for (const [index, target] of functions.entries()) {
      const place = Number(BigInt.asUintN(32, base)) + index;
      if (target === null) table.delete(place);
      else table.set(place, target);
    }
  }
  return table;
}

/** Why the table's contents are not known, or null. */
export function unknownTable(module) {
  if (module.tables.length > 1) return `${module.tables.length} tables`;
  const isUnknown = module.elements.some(({ active, offset }) => active && constantOf(offset, module.globals) === null);
  return isUnknown ? 'an element segment whose offset is not known' : null;
}

const sameType = (one, other) => one.params.join() === other.params.join() && one.results.join() === other.results.join();

/** The places and functions of the table that have a type. */
export function targetsOf(module, table, typeIndex) {
  const hasType = ([, target]) => sameType(module.types[module.functionTypes[target]], module.types[typeIndex]);
  return [...table].filter(hasType).sort(([one], [other]) => one - other);
}

/** The functions that a function calls, directly or by the table. */
function calleesOf(module, table, index) {
  return module.bodies[index].instructions.flatMap(({ code, args }) => {
    if (code === CODE.call) return [args[0]];
    if (code === CODE.callIndirect) return targetsOf(module, table, args[0]).map(([, target]) => target);
    return [];
  });
}

/** The functions that can be called: those that are exported, as given, the start function, and what they call. */
export function calledFunctions(module, table, exported, start) {
  const waiting = [...exported.map(({ index }) => index), ...(start === null ? [] : [start])];
  const called = new Set(waiting);
  while (waiting.length) {
    for (const callee of calleesOf(module, table, waiting.pop())) {
      if (callee < module.bodies.length && !called.has(callee)) { called.add(callee); waiting.push(callee); }
    }
  }
  return called;
}
