/** Tests of the one process for all verdicts, with a program that has `stream` and notes each of its commands. */

import { chmodSync, mkdtempSync, rmSync, writeFileSync } from 'node:fs';
import { tmpdir } from 'node:os';
import { join } from 'node:path';
import { fileURLToPath } from 'node:url';
import { run, textOf } from '../testing/tally.mjs';

const RECORD = fileURLToPath(new URL('./record.mjs', import.meta.url));
const BUFFERS = fileURLToPath(new URL('../../examples/store-buffering.wasm', import.meta.url));

const HELP = '    stream MODULE    answer a document on each line\n    witness [MODULE] DOC    find a witness';

/** A program that notes its commands in `commands`; `stream` answers as this shell script, which has each line in `$line`. */
function program(folder, wmlab, answer, help = HELP) {
  const path = join(folder, 'wmlab');
  writeFileSync(path, `#!/bin/sh
echo "$1" >>'${join(folder, 'commands')}'
case $1 in
help) echo '${help}' ;;
stream) while read -r line; do ${answer}; done ;;
*) exec '${wmlab}' "$@" ;;
esac
`);
  chmodSync(path, 0o755);
  return path;
}

function record(folder, path) {
  return run(
    process.execPath,
    [RECORD, '--wmlab', path, '--mode', 'buffered', '--rounds', '20', BUFFERS, 'a', 'b'],
    { cwd: folder },
  );
}

export function testStream({ note, wmlab }) {
  const folder = mkdtempSync(join(tmpdir(), 'record-stream-'));
  try {
    const answered = record(folder, program(folder, wmlab, `printf '%s' "$line" | '${wmlab}' check "$2" -`));
    const commands = textOf(join(folder, 'commands')).trim().split('\n');
    const times = (command) => commands.filter((each) => each === command).length;
    // One `check` asks whether the module is read.
    const isAllowed = answered.status === 0 && /^ +20 {2}allowed threads=2$/m.test(answered.out);
    note(isAllowed && times('stream') === 1 && times('check') === 1, 'one process answers for all rounds', answered);
    const completed = times('complete');
    note(completed > 0 && completed <= 8, `a run of a thread is completed once: ${completed} questions for 20 rounds`, answered);
    const broken = record(folder, program(folder, wmlab, "echo 'broken V5 case 3 at 0.1 byte 0 writer init other 1.0'"));
    note(broken.status === 1 && /broken V5 case 3/.test(broken.out), 'its answers count', broken);
    const ended = record(folder, program(folder, wmlab, 'exit 3'));
    note(
      ended.status === 2 && /^record\.mjs: \S+ stream ended with status 3 before it answered\n$/.test(ended.err),
      'a stream that ends is reported in one line',
      ended,
    );
    const older = record(folder, program(folder, wmlab, 'exit 3', '    check MODULE DOC    check a log'));
    note(
      older.status === 2 && /^record\.mjs: \S+ has no command stream: it is older than this recorder; [^\n]+\n$/.test(older.err),
      'a program without the command is refused in one line',
      older,
    );
    const undecided = record(folder, program(folder, wmlab, 'exit 3', HELP.split('\n')[0]));
    note(
      undecided.status === 2 && /^record\.mjs: \S+ has no command witness: it is older than this recorder; [^\n]+\n$/.test(undecided.err),
      'so is a program that cannot ask the rules',
      undecided,
    );
  } finally {
    rmSync(folder, { recursive: true });
  }
}
