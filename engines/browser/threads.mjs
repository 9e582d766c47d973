/** Starts the threads of a recording as web workers. */

/** A thread that `ask` sends a round, and `close` ends. */
export function startThread(data) {
  const worker = new Worker(new URL('./worker.mjs', import.meta.url), { type: 'module' });
  worker.postMessage(data);
  const ask = (question) => new Promise((resolve, reject) => {
    worker.onmessage = (event) => resolve(event.data);
    worker.onerror = (event) => reject(new Error(`a worker failed: ${event.message ?? 'it was not loaded'}`));
    worker.postMessage(question);
  });
  return { ask, close: () => worker.terminate() };
}
