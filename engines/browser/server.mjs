/** A server on the loopback for the pages of the recorder, with the headers by which a page gets shared memory. */

import { readFileSync } from 'node:fs';
import http from 'node:http';
import { fileURLToPath } from 'node:url';

const TYPES = { mjs: 'text/javascript', html: 'text/html; charset=utf-8', wasm: 'application/wasm' };
const HEADERS = {
  'Cross-Origin-Opener-Policy': 'same-origin',
  'Cross-Origin-Embedder-Policy': 'require-corp',
  'Cross-Origin-Resource-Policy': 'same-origin',
  'Cache-Control': 'no-store',
};
const PAGES = { '/': 'browser/page.html', '/auto': 'browser/auto.html' };
const MOST_BYTES = 64 * 2 ** 20;

/** The file of a path, which is a script of the recorder or one of these pages; null if it is neither. */
function fileOf(path, pages) {
  const file = pages[path] ?? (/^\/(shared|browser)\/\w+\.mjs$/.test(path) ? path.slice(1) : null);
  if (!file) return null;
  try {
    return { type: TYPES[file.split('.').at(-1)], bytes: readFileSync(fileURLToPath(new URL(`../${file}`, import.meta.url))) };
  } catch {
    return null;
  }
}

async function bodyOf(request) {
  const parts = [];
  let size = 0;
  for await (const part of request) {
    size += part.length;
    if (size > MOST_BYTES) throw new Error('the request is too large');
    parts.push(part);
  }
  return Buffer.concat(parts).toString();
}

/** A name by which the server is asked: other sites' pages, which a DNS name may lead here, are refused. */
const isLocal = ({ host }) => /^(127\.0\.0\.1|localhost)(:\d+)?$/.test(host ?? '');

/**
 * Starts a server. `handlers` has for each path, such as `POST /task`, a function of the body and the query, whose answer is sent
 * as JSON. `morePages` has the files of further pages by their paths. Answers its `origin` and `close`.
 */
export async function serve(handlers, port = 0, morePages = {}) {
  const pages = { ...PAGES, ...morePages };
  const send = (response, status, type, body) => response.writeHead(status, { ...HEADERS, 'Content-Type': type }).end(body);
  const answer = async (request, response) => {
    const { pathname, searchParams } = new URL(request.url, 'http://127.0.0.1');
    if (!isLocal(request.headers)) return send(response, 403, 'text/plain', 'not this host\n');
    const handler = handlers[`${request.method} ${pathname}`];
    if (handler) {
      const value = await handler(await bodyOf(request), searchParams);
      return send(response, 200, 'application/json', JSON.stringify(value));
    }
    const file = request.method === 'GET' ? fileOf(pathname, pages) : null;
    return file ? send(response, 200, file.type, file.bytes) : send(response, 404, 'text/plain', 'not found\n');
  };
  const server = http.createServer((request, response) => {
    answer(request, response).catch((error) => send(response, 500, 'application/json', JSON.stringify({ error: error.message })));
  });
  server.requestTimeout = 0;
  await new Promise((resolve, reject) => {
    server.once('error', reject);
    server.listen(port, '127.0.0.1', resolve);
  });
  const close = () => {
    server.close();
    server.closeAllConnections();
  };
  return { origin: `http://127.0.0.1:${server.address().port}`, close };
}
