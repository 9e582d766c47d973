/** Keeps logs in files, each with its explanation, its picture, and the smaller run that was found. */

import { spawnSync } from 'node:child_process';
import { accessSync, constants, mkdirSync, rmSync, statSync, writeFileSync } from 'node:fs';
import { basename, dirname, join } from 'node:path';
import { isWithoutWitness } from './document.mjs';
import { withFile } from './errors.mjs';
import { outcomeOf, standsFor } from './outcomes.mjs';
import { judgeRound } from './rounds.mjs';
import { runsOf, scheduleText, shrink } from './shrink.mjs';
import { GAVE_UP } from './verdict.mjs';

export const writeTo = (path, text) => withFile(`write ${path}`, () => writeFileSync(path, text));

/** Makes a folder and those around it, one by one: for a folder in /proc, node's option `recursive` does not end. */
export function makeFolder(folder) {
  const isThere = () => statSync(folder, { throwIfNoEntry: false })?.isDirectory();
  if (isThere()) return;
  makeFolder(dirname(folder));
  try {
    mkdirSync(folder);
  } catch (error) {
    // Another recording may just have made it.
    if (!isThere()) throw error;
  }
}

/** Makes a folder to write to, or refuses it. */
export function prepareFolder(folder) {
  withFile(`write to the folder ${folder}`, () => {
    makeFolder(folder);
    accessSync(folder, constants.W_OK);
  });
}

/**
 * Why a run of Graphviz gave no picture, with the first line of what it complained.
 *
 * @param {{ error?: NodeJS.ErrnoException, status: number | null, signal: string | null, stderr: string }} ran
 */
function drawingFault({ error, status, signal, stderr }) {
  const complaint = stderr?.trim().split('\n')[0].slice(0, 200);
  const because = complaint ? `: ${complaint}` : '';
  if (error?.code === 'ENOENT') return 'Graphviz is not installed, there is no program dot';
  if (signal) return `dot -Tsvg was ended by ${signal}${because}`;
  if (status) return `dot -Tsvg ended with status ${status}${because}`;
  return status === null ? `dot -Tsvg cannot be run (${error?.code})` : `dot -Tsvg printed no whole picture${because}`;
}

/** The picture of a graph as SVG, by Graphviz; null if there is none, and then its `fault` is why. */
function drawn(graph) {
  const ran = spawnSync('dot', ['-Tsvg'], { input: graph, encoding: 'utf8', maxBuffer: 2 ** 28 });
  const isWhole = ran.status === 0 && ran.stdout.trimEnd().endsWith('</svg>');
  return isWhole ? { svg: ran.stdout, fault: null } : { svg: null, fault: drawingFault(ran) };
}

/** The most events of a log whose picture is made: dot takes minutes for more. */
const MOST_DRAWN = 200;
const NOT_DRAWN = { graph: null, svg: null, fault: null };

async function explanationOf(judge, { document, line }) {
  const head = line.startsWith('no witness') ? `${line}\n` : '';
  return isWithoutWitness(document) ? head : `${head}${(await judge.ask('explain', document)).text}\n`;
}

/** The graph of a log and its picture, and the `fault` if dot does not make it; a log that is not drawn has none of them. */
async function pictureOf(judge, { document }) {
  if (isWithoutWitness(document)) return NOT_DRAWN;
  const graph = await judge.ask('graph', document);
  const events = document.split(/"[rwx]"/).length - 1;
  if (graph.status > 1 || !graph.text.startsWith('digraph') || events > MOST_DRAWN) return NOT_DRAWN;
  return { graph: graph.text, ...drawn(graph.text) };
}

/**
 * The explanation of a log, its graph and its picture; null for the last two if there is none.
 *
 * @param {wmlab.Judge} judge
 * @param {wmlab.Answer} found
 */
export async function explained(judge, found) {
  return { explanation: await explanationOf(judge, found), ...await pictureOf(judge, found) };
}

/** The path of a file beside that of a log. */
const beside = (path, ending) => join(dirname(path), `${basename(path, '.json')}${ending}`);

/** Writes a file beside that of a log; without a text, removes the file that an earlier log left there. */
function writeBeside(path, ending, text) {
  if (text) writeTo(beside(path, ending), text);
  else withFile(`remove ${beside(path, ending)}`, () => rmSync(beside(path, ending), { force: true }));
}

/**
 * Keeps a log at a path that ends in `.json`, with its explanation (`.txt`) and its picture beside it: `.svg`, or `.dot` with the
 * graph alone if dot does not make the picture. A picture of an earlier log at this path is removed.
 *
 * @param {wmlab.Judge} judge
 * @param {string} path
 * @param {wmlab.Found} found
 * @returns {Promise<wmlab.Kept>}
 */
export async function keep(judge, path, found) {
  writeTo(path, found.document);
  const explanation = await explanationOf(judge, found);
  const schedule = found.turns?.length ? `turns ${scheduleText(found.turns)}\n` : '';
  writeTo(beside(path, '.txt'), schedule + explanation);
  const picture = await pictureOf(judge, found);
  writeBeside(path, '.svg', picture.svg);
  writeBeside(path, '.dot', picture.svg ? null : picture.graph);
  return { ...found, explanation, ...picture, path };
}

/** One line for all pictures that dot did not make for the logs that were kept; null if it made them all. */
export function missingPictures(kept) {
  const missing = kept.filter(({ fault }) => fault);
  if (!missing.length) return null;
  const [{ path, fault }] = missing;
  const place = beside(path, '.dot');
  if (missing.length === 1) return `warning: a picture is not made: ${fault}; its graph is kept in ${place}`;
  return `warning: ${missing.length} pictures are not made: ${fault}; their graphs are kept in .dot files, the first in ${place}`;
}

/** The kind of a verdict: its first two words. A search that gave up is of another kind than a proof that there is no witness. */
const kindOf = (line) => (line.startsWith(GAVE_UP) ? GAVE_UP : line.split(' ', 2).join(' '));

/** What has to hold for the answer to a smaller run: a verdict of the kind that was found, or for a condition of its first word. */
const holdsFor = (condition, line) => ({ line: smaller }) => (
  condition ? smaller.startsWith(line.split(' ')[0]) : kindOf(smaller) === kindOf(line));

/**
 * The smaller run of what was found in a round, for a condition or (null) for its verdict; null if there is none.
 *
 * @param {wmlab.Recorder} recorder
 * @param {wmlab.Judge} judge
 * @param {wmlab.Found} found
 * @param {wmlab.Condition | null} condition
 * @param {wmlab.Limits} limits
 * @returns {Promise<wmlab.Found | null>}
 */
export async function shrunk(recorder, judge, found, condition, { seconds, stop }) {
  if (!found.turns.length) return null;
  const holds = holdsFor(condition, found.line);
  const attempt = async (items) => {
    const round = await recorder.round(0, items);
    const outcome = outcomeOf(round.ends);
    if (condition && !standsFor(outcome, condition, found.outcome)) return null;
    const answer = await judgeRound(judge, round, recorder.initial, { seconds });
    return answer && holds(answer) ? { ...found, ...answer, outcome, turns: round.turns } : null;
  };
  return shrink(found.turns, attempt, { seconds, stop });
}

/**
 * Keeps what was found beside a smaller run, if there is one. Answers both, and the line that is printed.
 *
 * @param {wmlab.Recorder} recorder
 * @param {wmlab.Judge} judge
 * @param {string} path
 * @param {wmlab.Found} found
 * @param {wmlab.Condition | null} condition
 * @param {wmlab.Limits} limits
 */
export async function keepWithShrunk(recorder, judge, path, found, condition, limits) {
  const first = await keep(judge, path, found);
  const smaller = await shrunk(recorder, judge, found, condition, limits);
  if (!smaller) return { kept: [first], line: null };
  const smallerPath = path.replace(/\.json$/, '-shrunk.json');
  const second = await keep(judge, smallerPath, smaller);
  const sizes = [found, smaller].map(({ turns }) => `${runsOf(turns).length} turns and ${turns.length} moves`);
  return { kept: [first, second], line: `a smaller run is kept in ${smallerPath}: ${sizes[1]} instead of ${sizes[0]}` };
}
