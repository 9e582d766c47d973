// @ts-check
/** Calls the function of wait32.wasm, and posts what it gave: `[[argument, result], ..]`. It runs in a worker, which may wait. */

const VALUES = [1, 2, 12345];

/**
 * @param {BufferSource} bytes
 */
export function calls(bytes) {
  const { f } = /** @type {any} */ (new WebAssembly.Instance(new WebAssembly.Module(bytes)).exports);
  return VALUES.map((value) => [value, f(value)]);
}

if (typeof self !== 'undefined' && typeof location !== 'undefined' && location.search) {
  const bytes = await (await fetch('/found/wait32.wasm')).arrayBuffer();
  await fetch(`/found/answer${location.search}`, { method: 'POST', body: JSON.stringify(calls(bytes)) });
}
