/** Uses the page for people as a person would: drops a module, records, downloads a log, asks why. Posts what it saw. */

import { bytesOf } from './base64.mjs';

const MOST_TRIES = 300;

/** Waits until something is there. */
async function until(find) {
  for (let tries = 0; tries < MOST_TRIES; tries++) {
    const found = find();
    if (found) return found;
    await new Promise((resolve) => { setTimeout(resolve, 100); });
  }
  throw new Error(`it never came: ${find}`);
}

function drop(page, name, bytes) {
  const dataTransfer = new DataTransfer();
  dataTransfer.items.add(new File([bytes], name));
  page.dispatchEvent(new DragEvent('drop', { dataTransfer, bubbles: true, cancelable: true }));
}

/** Presses a button of the first row, and answers the text of the file that the page then gives to the browser. */
async function downloaded(view, button) {
  let given = null;
  view.HTMLAnchorElement.prototype.click = function click() { given = { name: this.download, href: this.href }; };
  button.click();
  const { name, href } = await until(() => given);
  return { name, text: await (await fetch(href)).text() };
}

async function use(frame) {
  const { contentDocument: page, contentWindow: view } = frame;
  const part = (id) => page.getElementById(id);
  const [{ name, bytes }] = await (await fetch('/dropped')).json();
  await until(() => part('judge') && view.crossOriginIsolated);
  // The page listens as soon as its script runs; a drop before that is lost.
  await until(() => { drop(page, name, bytesOf(bytes)); return part('starts').value; });
  const { textContent: module } = part('module');
  part('rounds').value = '12';
  part('start').click();
  await until(() => /12 rounds, done$/.test(part('status').textContent));
  const [log, why] = await until(() => { const row = part('outcomes').querySelectorAll('tr:first-child button'); return row.length === 2 && row; });
  const file = await downloaded(view, log);
  why.click();
  await until(() => !part('details').hidden);
  return { module, file, explanation: part('explanation').textContent, picture: part('picture').querySelector('img')?.src.slice(0, 26) };
}

const post = (value) => fetch('/used', { method: 'POST', body: JSON.stringify(value) });
const frame = /** @type {HTMLIFrameElement} */ (document.getElementById('page'));
await until(() => frame.contentDocument?.readyState === 'complete' && frame.contentDocument.getElementById('form'));
use(frame).then(post, (error) => post({ error: error.message }));
