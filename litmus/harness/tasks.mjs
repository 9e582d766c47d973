// @ts-check
/** Tests as the command hands them out, in JSON. */

/**
 * @param {{ name: string, module: string, threads: import('./looped.mjs').Thread[], finals: { address: number, width: number }[] }} task
 */
export function testOf({ name, module, threads, finals }) {
  const bytes = Uint8Array.from(atob(module), (character) => character.charCodeAt(0));
  return { name, module: bytes, threads, finals };
}
