/** The command line of engines/self, and recordings that are not whole. */

import { mkdtempSync, readFileSync, rmSync, writeFileSync } from 'node:fs';
import { tmpdir } from 'node:os';
import { join } from 'node:path';
import { fileURLToPath } from 'node:url';
import { parseStart } from '../shared/starts.mjs';
import { run } from '../testing/tally.mjs';
import { EVENT, HEADER, PAGE_BYTES, THREAD, layoutOf } from './layout.mjs';
import { testAccesses } from './test_accesses.mjs';
import { EXAMPLES, runInOrder } from './test_recordings.mjs';

const COMMAND = fileURLToPath(new URL('../self', import.meta.url));
const MODULE = join(EXAMPLES, 'c', 'treiber-stack.wasm');
const STARTS = ['first', 'second'].map(parseStart);
const NOT_LOWERED = fileURLToPath(new URL('../lowering/programs/blocks.wasm', import.meta.url));

const self = (...words) => run(COMMAND, words);

function testRefusals({ note, file, whole }) {
  const base = layoutOf(1, 1).base;
  const changed = (offset, value) => { const copy = Buffer.from(whole); copy.writeUInt32LE(value, base + offset); return copy; };
  writeFileSync(file('zeros'), Buffer.alloc(whole.length));
  writeFileSync(file('short'), whole.subarray(0, 70_000));
  writeFileSync(file('version'), changed(HEADER.version, 9));
  writeFileSync(file('events'), changed(HEADER.events, 99_999));
  writeFileSync(file('threads'), changed(HEADER.threads, 17));
  writeFileSync(file('start'), changed(THREAD.first + THREAD.bytes + THREAD.start, 99));
  writeFileSync(file('of no thread'), changed(layoutOf(1, 1).events - base + EVENT.thread, 2));
  writeFileSync(file('no page'), whole.subarray(0, base + PAGE_BYTES - 1));
  writeFileSync(file('none.wasm'), 'no module');
  const cases = [
    ['no words', []], ['an unknown command', ['record', MODULE]], ['one file too few', ['log', MODULE]],
    ['no output', ['module', MODULE]], ['no events', ['module', MODULE, '-o', file('a'), '--events', '0']],
    ['a file that is not a module', ['module', file('none.wasm'), '-o', file('a')]], ['a module that is not lowered', ['module', NOT_LOWERED, '-o', file('a')]],
    ['a module that is not there', ['log', file('gone.wasm'), file('zeros')]], ['a memory that is not there', ['log', MODULE, file('gone')]],
    ['a memory of zeros', ['log', MODULE, file('zeros')]], ['a memory that is cut', ['log', MODULE, file('short')]],
    ['another version', ['log', MODULE, file('version')]], ['more events than there is room for', ['log', MODULE, file('events')]],
    ['more threads than there is room for', ['log', MODULE, file('threads')]], ['a start that the module does not have', ['log', MODULE, file('start')]],
    ['an event of a thread that is not there', ['log', MODULE, file('of no thread')]], ['less than the page of the header', ['log', MODULE, file('no page')]],
  ];
  for (const [what, words] of cases) {
    const ran = self(...words);
    const isLine = /^self: [^\n]*\n$/.test(ran.err);
    note(ran.status === 2 && ran.out === '' && isLine, `refused in one line: ${what}: ${ran.err.trim().slice(0, 70)}`, ran);
  }
}

export async function testCommand({ note, wmlab }) {
  await testAccesses({ note });
  const folder = mkdtempSync(join(tmpdir(), 'self-'));
  const file = (name) => join(folder, name);
  try {
    const whole = runInOrder(readFileSync(MODULE), STARTS);
    writeFileSync(file('memory'), whole);
    const log = self('log', MODULE, file('memory'));
    const isLog = log.out.startsWith('["wasm-litmus-log",2,[["first",[],["cut"],0,');
    note(log.status === 0 && isLog, 'the log of a memory is printed', log);
    const checked = self('check', MODULE, file('memory'), '--wmlab', wmlab);
    const isAllowed = /^allowed threads=2 events=\d+\n$/.test(checked.out);
    note(checked.status === 0 && isAllowed, `a recording is checked: ${checked.out.trim()}`, checked);
    const { events } = layoutOf(1, 1);
    const wrong = Buffer.from(whole);
    wrong[events + EVENT.written]++;
    writeFileSync(file('wrong'), wrong);
    const broken = self('check', MODULE, file('wrong'), '--wmlab', wmlab);
    const isFound = /^broken replay thread 0 event 0/.test(broken.out);
    note(broken.status === 1 && isFound, `a value that was changed is found: ${broken.out.trim()}`, broken);
    writeFileSync(file('cut'), runInOrder(readFileSync(MODULE), STARTS, 5));
    const cut = self('check', MODULE, file('cut'), '--wmlab', wmlab);
    const hasFive = cut.out === 'allowed threads=2 events=5\n';
    note(cut.status === 0 && hasFive, `threads are cut when no event is left: ${cut.out.trim()}`, cut);
    const full = self('log', MODULE, file('cut'));
    note(/--events/.test(full.err), 'a recording that is full is noted', full);
    const made = self('module', MODULE, '-o', file('own.wasm'));
    note(made.status === 0 && WebAssembly.validate(readFileSync(file('own.wasm'))), 'a module is written', made);
    testRefusals({ note, file, whole });
  } finally {
    rmSync(folder, { recursive: true });
  }
}
