/** The command line of engines/lower. */

import { existsSync, mkdtempSync, readFileSync, rmSync, writeFileSync } from 'node:fs';
import { tmpdir } from 'node:os';
import { join } from 'node:path';
import { fileURLToPath } from 'node:url';
import { run } from '../testing/tally.mjs';
import { moduleOf } from './test_modules.mjs';

const COMMAND = fileURLToPath(new URL('../lower', import.meta.url));
/** Two roots of floats. */
const NOT_TAKEN = moduleOf({ functions: [{ code: Array(2).fill([0x43, 0, 0, 0, 0, 0x91, 0x1a]).flat(), exported: 'a' }] });
const TAKEN = moduleOf({ functions: [{ code: [0xfe, 3, 0], exported: 'a' }] });

export function testCommand({ note }) {
  const folder = mkdtempSync(join(tmpdir(), 'lower-'));
  const file = (name) => join(folder, name);
  const lower = (...words) => run(COMMAND, words);
  try {
    writeFileSync(file('floats.wasm'), NOT_TAKEN);
    writeFileSync(file('fence.wasm'), TAKEN);
    writeFileSync(file('cut.wasm'), TAKEN.subarray(0, 20));
    const out = file('out.wasm');
    const refused = [
      ['no words', []], ['no output', [file('fence.wasm')]], ['two modules', [file('fence.wasm'), file('fence.wasm'), '-o', out]],
      ['a module that is not there', [file('none.wasm'), '-o', out]], ['a folder', [folder, '-o', out]],
      ['a module that is cut', [file('cut.wasm'), '-o', out]], ['no stacks', [file('fence.wasm'), '-o', out, '--stacks', '0']],
      ['stacks of 8 bytes', [file('fence.wasm'), '-o', out, '--stack-bytes', '8']],
      ['a size without stacks', [file('fence.wasm'), '-o', out, '--stack-bytes', '32']],
      ['an unknown option', [file('fence.wasm'), '-o', out, '--none']],
      ['a folder that is not there', [file('fence.wasm'), '-o', file('none/out.wasm')]],
    ];
    for (const [what, words] of refused) {
      const ran = lower(...words);
      const isLine = /^lower: [^\n]*\n$/.test(ran.err);
      note(ran.status === 2 && isLine && !existsSync(out), `refused in one line: ${what}: ${ran.err.trim().slice(0, 60)}`, ran);
    }
    const floats = lower(file('floats.wasm'), '-o', out);
    const lines = floats.err.trim().split('\n').length;
    note(floats.status === 2 && lines === 2 && !existsSync(out), 'a module with two roots of floats is refused in two lines', floats);
    const lowered = lower(file('fence.wasm'), '-o', out);
    const line = 'function 0 (a) instruction 0: atomic.fence dropped\n';
    const isWritten = existsSync(out) && WebAssembly.validate(readFileSync(out));
    note(lowered.status === 0 && lowered.out.endsWith(line) && isWritten, 'a fence is dropped, and reported', lowered);
    const quiet = lower(file('fence.wasm'), '-o', out, '--quiet');
    note(quiet.status === 0 && quiet.out === '', '--quiet prints no changes', quiet);
    if (existsSync('/dev/full')) {
      const lost = run('sh', ['-c', `"${COMMAND}" "${file('fence.wasm')}" -o "${out}" >/dev/full`]);
      const isTold = lost.err === 'lower: cannot write the output: no space left\n';
      note(lost.status === 3 && isTold, 'output that cannot be written is reported', lost);
    }
    const help = lower('--help');
    note(help.status === 0 && /^USAGE$/m.test(help.out), '--help prints the usage', help);
  } finally {
    rmSync(folder, { recursive: true });
  }
}
