/** Modules for the tests of the lowering, made of their parts as bytes. */

import { HEADER, SECTION, name, section, u32, vector } from '../shared/binary.mjs';

const NOTHING = [0x60, 0, 0];
const ONE_PAGE = [3, 1, 1];

/** A function without locals, of this code without its last `end`, with its size. */
const bodyOf = ({ locals = [0], code }) => [...u32(locals.length + code.length + 1), ...locals, ...code, 0x0b];

/**
 * A module of functions, each `{ code, type = 0, locals, exported }`. The other parts are lists of items as bytes; `custom` is
 * bytes of custom sections.
 *
 * @param {Record<string, any>} parts
 */
export function moduleOf({ functions, types = [NOTHING], memory = ONE_PAGE, custom = [], ...parts }) {
  const exports = functions.flatMap(({ exported }, index) => (exported ? [[...name(exported), 0, ...u32(index)]] : []));
  const rows = [
    [SECTION.types, types], [SECTION.imports, parts.imports], [SECTION.functions, functions.map(({ type = 0 }) => u32(type))],
    [4, parts.tables], [SECTION.memories, memory ? [memory] : []], [SECTION.globals, parts.globals],
    [SECTION.exports, [...exports, ...(parts.exports ?? [])]], [9, parts.elements],
    [SECTION.dataCount, null], [SECTION.code, functions.map(bodyOf)], [SECTION.data, parts.data],
  ];
  const bytes = rows.flatMap(([id, items]) => {
    if (id === SECTION.dataCount) return parts.data ? section(id, u32(parts.data.length)) : [];
    return items?.length ? section(id, vector(items)) : [];
  });
  return Uint8Array.from([...HEADER, ...bytes, ...custom]);
}

/** A section in which the compiler states features, such as `+atomics`. */
export function featuresSection(...features) {
  const items = features.map((feature) => [feature.charCodeAt(0), ...name(feature.slice(1))]);
  return section(0, [...name('target_features'), ...vector(items)]);
}
