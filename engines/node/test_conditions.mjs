/** Tests of conditions, of runs that a seed repeats, and of smaller runs. */

import { existsSync, mkdirSync, mkdtempSync, readdirSync, rmSync, writeFileSync } from 'node:fs';
import { tmpdir } from 'node:os';
import { dirname, join } from 'node:path';
import { fileURLToPath } from 'node:url';
import { scheduleText, shrink } from '../shared/shrink.mjs';
import { conditionsOf, judgeConditions, satisfies, trapLine, unnamedTraps } from '../shared/outcomes.mjs';
import { run, textOf } from '../testing/tally.mjs';

const COMMAND = fileURLToPath(new URL('./record.mjs', import.meta.url));
const example = (name) => fileURLToPath(new URL(`../../examples/${name}.wasm`, import.meta.url));
const BUFFERS = [example('store-buffering'), 'a', 'b'];

const record = (folder, wmlab, args) => run(process.execPath, [COMMAND, '--wmlab', wmlab, ...args], { cwd: folder });

/** The answer of `check` on a log. */
const checked = (wmlab, module, log) => run(wmlab, ['check', module, log]);

/** The files of a folder with their contents. */
const filesOf = (folder) => (existsSync(folder) ? readdirSync(folder) : []).sort()
  .map((name) => `${name}\n${textOf(join(folder, name))}`).join('\n');

function testSeeds({ note, wmlab, folder }) {
  const starts = [example('spin-lock'), 'work:2', 'work:2', 'work:3'];
  for (const mode of ['locked', 'buffered']) {
    const logs = (name, seed) => {
      const ran = record(folder, wmlab, ['--mode', mode, '--rounds', '8', '--seed', seed, '--out', name, ...starts]);
      return { ran, text: filesOf(join(folder, name)) };
    };
    const [one, same, other] = [logs(`${mode}1`, '5'), logs(`${mode}2`, '5'), logs(`${mode}3`, '500')];
    const holds = one.text.length > 1_000 && one.text === same.text && one.text !== other.text;
    note(holds, `${mode}: a seed gives the same logs, byte for byte, and another seed others`, one.ran, same.ran, other.ran);
  }
}

function testForbid({ note, wmlab, folder }) {
  const args = ['--mode', 'buffered', '--rounds', '30', '--forbid', '0 0', '--want', '* 1', '--kept', 'kept'];
  mkdirSync(join(folder, 'kept'));
  for (let round = 0; round < 30; round++) {
    for (const ending of ['svg', 'dot']) writeFileSync(join(folder, `kept/round-${round}.${ending}`), 'an old picture');
  }
  const ran = record(folder, wmlab, [...args, ...BUFFERS]);
  const { status, out } = ran;
  const isReported = /FAILED --forbid "0 0": seen in round \d+\n/.test(out) && /ok --want "\* 1": seen in round \d+/.test(out);
  note(status === 1 && isReported, 'a forbidden outcome is reported, with status 1', ran);
  const names = [...out.matchAll(/^ +\d+ {2}\d \d {2}(kept\/round-\d+\.json)$/gm)].map(([, name]) => name);
  note(names.length >= 2 && names.every((name) => existsSync(join(folder, name))), 'each row of the table names a kept log', ran);
  const [, path] = /^ +\d+ {2}0 0 {2}(\S+)\.json$/m.exec(out) ?? [null, ''];
  const explanation = textOf(join(folder, `${path}.txt`));
  note(/^turns [d0-9*,]+\nallowed threads=2 events=4\n/.test(explanation), 'its explanation is kept', explanation);
  const pictures = ['svg', 'dot'].map((ending) => textOf(join(folder, `${path}.${ending}`)));
  const isNew = pictures.filter(Boolean).length === 1 && !pictures.includes('an old picture');
  note(isNew, 'its picture is kept, and an old one of the other kind is removed', ...pictures);
  const smaller = join(folder, `${path}-shrunk.json`);
  const answer = checked(wmlab, BUFFERS[0], smaller);
  const has = /\["done",\[0\]\].*\["done",\[0\]\]/.test(textOf(smaller));
  note(has && answer.out === 'allowed threads=2 events=4\n', 'a smaller run with this outcome is kept, and allowed', answer);
}

function testWant({ note, wmlab, folder }) {
  const never = record(folder, wmlab, ['--rounds', '5', '--want', '7 7', ...BUFFERS]);
  note(
    never.status === 1 && /FAILED --want "7 7": never seen/.test(never.out),
    'a wanted outcome that never came is status 1',
    never,
  );
  const fine = record(folder, wmlab, ['--rounds', '5', '--forbid', '0 0', ...BUFFERS]);
  note(fine.status === 0 && /ok --forbid "0 0": never seen/.test(fine.out), 'conditions that hold are status 0', fine);
}

function testShrunkFault({ note, wmlab, folder }) {
  const args = ['--mode', 'buffered', '--rounds', '20', '--wrong', 'stale-load', '--keep', 'bad.json'];
  const races = fileURLToPath(new URL('../testing/races.wasm', import.meta.url));
  const ran = record(folder, wmlab, [...args, races, 'numbers:0:8', 'numbers:64:8']);
  const sizes = /a smaller run is kept in (\S+): (\d+) turns and (\d+) moves instead of (\d+) turns and (\d+) moves/.exec(ran.out);
  const path = sizes?.[1];
  const [turns, moves, turnsBefore, movesBefore] = sizes?.slice(2).map(Number) ?? [NaN, NaN, NaN, NaN];
  const isSmall = turns < 4 && turns <= turnsBefore && moves < 12 && moves < movesBefore;
  note(/^round \d+: no witness threads=2 [^\n]+\nits log is kept in bad\.json$/m.test(ran.out), 'the round and the file of its log are printed', ran);
  note(ran.status === 1 && isSmall, `a run that is not allowed is shrunk: ${sizes?.[0] ?? 'it was not'}`, ran);
  const answer = checked(wmlab, races, join(folder, `${path}`));
  note(/^broken V3 case 2 /.test(answer.out), 'its log shows a rule that the smaller run breaks', answer);
  const settled = run(wmlab, ['witness', races, join(folder, `${path}`)]);
  note(settled.status === 1 && settled.out.startsWith('no witness '), 'and the rules permit no other log of its values', settled);
}

/** An engine is not blamed for what the rules permit: a plain load of an older value that races, though its recorder's log is refused. */
function testPermitted({ note, wmlab, folder }) {
  const races = fileURLToPath(new URL('../testing/races.wasm', import.meta.url));
  const stale = ['--wrong', 'stale-load', races, 'words:1:8', 'words:2:8'];
  const ran = record(folder, wmlab, ['--mode', 'buffered', '--rounds', '20', '--out', 'stale', ...stale]);
  note(ran.status === 0 && /^ +20 {2}allowed threads=2$/m.test(ran.out), 'values that the rules permit are no fault', ran);
  const answers = readdirSync(join(folder, 'stale')).map((name) => checked(wmlab, races, join(folder, 'stale', name)).out);
  note(answers.length === 20 && answers.every((line) => line.startsWith('allowed ')), 'their logs have a witness that is allowed', answers.join(''));
}

/** The search alone: what holds is that 3 comes before 5. */
async function testShrink({ note }) {
  const holds = async (items) => (items.includes(3) && items.lastIndexOf(5) > items.indexOf(3) ? { turns: items } : null);
  const found = await shrink([1, 3, 1, 2, 5, 2, 5, 1, 1], holds);
  note(found?.turns.join() === '3,5', 'a schedule is shrunk to what has to be there');
  const tried = [];
  await shrink([0, 0, 2, 2, 2], async (items) => { tried.push(items.join('')); return null; });
  const candidates = '00 002 022 0022 0022 0022 0222 0222 22200';
  note(tried.join(' ') === candidates, 'parts are left out from halves down to items, and then turns exchanged', tried.join(' '));
  let tries = 0;
  const count = async () => { tries++; return null; };
  for (const limits of [{ tries: 2 }, { seconds: -1 }, { stop: { requested: true } }]) await shrink([1, 2, 3, 4, 5], count, limits);
  note(tries === 2, 'the search ends at its tries, at its seconds and when the user stops', `${tries}`);
  note(scheduleText([0, 0, 0, 1, 2, 3, 3]) === '0*3,d0,1,d1*2', 'a schedule as text', scheduleText([0, 0, 0, 1, 2, 3, 3]));
  note(await shrink([3, 5], holds) === null, 'a schedule that is smallest stays');
}

/**
 * Each pattern of one thread, with ends that fit it, and ends that do not.
 *
 * @type {[string, string[], string[]][]}
 */
const PATTERNS = [
  ['*', ['0', '-', 'cut', 'trap:overflow'], []],
  ['16', ['16'], ['1', '160', 'cut', '-']],
  ['0x10', ['16'], ['10', '0']],
  ['0xFFFFFFFFFFFFFFFF', ['18446744073709551615'], ['4294967295']],
  ['{0,1}', ['0', '1'], ['2', '01', 'cut']],
  ['{ 0 , cut,trap:unaligned }', ['0', 'cut', 'trap:unaligned'], ['1', 'trap:overflow']],
  ['!0', ['1', '-', 'cut', 'trap:overflow'], ['0']],
  ['!{0,0x1,cut}', ['2', '-'], ['0', '1', 'cut']],
  ['trap:*', ['trap:overflow', 'trap:unaligned'], ['0', 'cut', '-']],
  ['!trap:*', ['0', 'cut', '-'], ['trap:overflow']],
  ['-', ['-'], ['0', 'cut']],
];

/** What ends mean in conditions. */
function testPatterns({ note }) {
  for (const [pattern, fitting, others] of PATTERNS) {
    const [condition] = conditionsOf({ forbid: [pattern] }, 1);
    const wrong = [...fitting.filter((end) => !satisfies(end, condition)), ...others.filter((end) => satisfies(end, condition))];
    note(wrong.length === 0, `the pattern ${pattern}`, wrong.join(' '));
  }
  const [two] = conditionsOf({ want: ['{0, 1} !{2, 3}'] }, 2);
  note(satisfies('1 0', two) && !satisfies('1 2', two) && !satisfies('2 0', two) && !satisfies('0', two), 'patterns of two threads');
  const given = { forbid: ['7 7'], '~exists': ['0 *'], want: ['1 0'], exists: ['9 9'], forall: ['{0,1} {0,1}', '0 *'] };
  const list = ['0 1', '1 0'].map((outcome, number) => ({ outcome, place: `round ${number}` }));
  const lines = judgeConditions(conditionsOf(given, 2), list).map(({ line }) => line).join('\n');
  note(lines === `ok --forbid "7 7": never seen
FAILED --~exists "0 *": seen in round 0
ok --want "1 0": seen in round 1
FAILED --exists "9 9": never seen
ok --forall "{0,1} {0,1}": seen in each round
FAILED --forall "0 *": not in round 1, which has 1 0`, 'conditions on two rounds', lines);
  const ended = ['trap:overflow 1', '0 trap:unaligned', 'trap:overflow trap:unaligned'].map((outcome, number) => ({ outcome, number, count: 2 }));
  const traps = (conditions) => unnamedTraps(conditionsOf(conditions, 2), ended).map(trapLine).join('; ');
  note(traps({ forbid: ['* trap:*'] }) === 'thread 0 ends with trap:overflow in 4 rounds, first in round 0; no condition names it', 'traps that no condition names', traps({}));
  note(traps({ forall: ['!{trap:overflow} {1,trap:unaligned}'] }) === '' && traps({ forbid: ['* *'] }).includes('; thread 1'), 'traps that conditions name');
}

/** A condition on all runs, and a trap that no condition names, as a command; and logs of different modules are kept apart. */
function testForall({ note, wmlab, folder }) {
  const args = ['--mode', 'buffered', '--rounds', '20', '--forall', '!{0,0x1} *'];
  const ran = record(folder, wmlab, [...args, ...BUFFERS]);
  const [, path] = /^FAILED --forall "!\{0,0x1\} \*": not in round 0, which has \d \d$[^]*a smaller run is kept in (\S+): /m.exec(ran.out) ?? [];
  const other = record(folder, wmlab, [...args, example('store-buffering-atomic'), 'a', 'b']);
  const [, another] = /a smaller run is kept in (\S+): /.exec(other.out) ?? [];
  const isKept = [path, another].every((each) => each !== undefined && existsSync(join(folder, each)));
  const areApart = dirname(`${path}`) !== dirname(`${another}`);
  const isWhole = /\["done",\[[01]\]\]/.test(textOf(join(folder, `${path}`)));
  note(ran.status === 1 && isKept && areApart && isWhole, 'a condition on all runs fails, and each module has a folder of its own', ran, other);
  const traps = ['--rounds', '3', '--forbid', 'trap:overflow *', example('every-trap')];
  const starts = ['unreachable', 'overflow'];
  const trapped = record(folder, wmlab, [...traps, ...starts]);
  const line = 'thread 0 ends with trap:unreachable in 3 rounds, first in round 0; no condition names it';
  note(trapped.status === 0 && trapped.out.includes(line) && trapped.out.includes('thread 1 ends with trap:overflow'), 'traps are counted', trapped);
}

export async function testConditions({ note, wmlab }) {
  const folder = mkdtempSync(join(tmpdir(), 'record-'));
  try {
    const context = { note, wmlab, folder };
    testSeeds(context);
    testForbid(context);
    testWant(context);
    testPatterns(context);
    testForall(context);
    testShrunkFault(context);
    testPermitted(context);
    await testShrink(context);
  } finally {
    rmSync(folder, { recursive: true });
  }
}
