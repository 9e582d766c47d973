// @ts-check
/** The page of the harness in a browser. It may not block, so a worker of its own runs the tests. */

const post = (/** @type {string} */ error) => fetch(`/litmus/task${location.search}`, { method: 'POST', body: JSON.stringify({ error }) });

if (crossOriginIsolated) {
  const worker = new Worker(`/litmus/harness/coordinator.mjs${location.search}`, { type: 'module' });
  worker.onerror = (event) => { post(`the page's worker failed: ${event.message ?? 'it was not loaded'}`); };
} else {
  post('the page is not isolated, so that it has no shared memory');
}
