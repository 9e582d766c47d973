#!/bin/sh
':' //; command -v node >/dev/null || { echo "${0##*/}: node is not installed (Debian: nodejs)" >&2; exit 2; }; exec node "$0" "$@"
/** Serves the page on which people record modules in their browser. `--help` prints the usage. */

import { readFileSync, realpathSync } from 'node:fs';
import { basename } from 'node:path';
import { fileURLToPath } from 'node:url';
import { HELP, TEXT, countOf, wordsOf } from '../shared/command_line.mjs';
import { UserError, withFile } from '../shared/errors.mjs';
import { Judge, Stopped, findProgram } from '../shared/wmlab.mjs';
import { Judges } from './judges.mjs';
import { serve } from './server.mjs';

const USAGE = `Serves a page on which modules are recorded in a browser, on this machine alone.

USAGE
    engines/browser/serve.mjs [OPTIONS] [MODULE]

OPTIONS
    --port N          the port (8123)
    --wmlab PROGRAM   the program that checks (the one that ./wmlab --which names, if there is one)
    --help            print this text

It prints the address of the page, and the tables of each recording that ends. Ctrl-C ends it. With MODULE the page begins with
that module. A recording begins at once at an address such as http://127.0.0.1:8123/#starts=a,b&mode=free&rounds=50&start
`;

/** The handlers of the page's posts. `finished` is called with the tables of each recording that ends. */
export function handlersOf(judges, module, finished) {
  const handlers = {
    'GET /about': async () => ({ hasJudge: judges !== null, module }),
    'POST /finished': async (body) => {
      finished(JSON.parse(body));
      return {};
    },
  };
  if (!judges) return handlers;
  handlers['POST /judge'] = async (body) => judges.judge(JSON.parse(body));
  handlers['POST /explain'] = async (body) => judges.explain(JSON.parse(body));
  return handlers;
}

/** A module as the page takes it. */
export const moduleOf = (path) => (
  { name: basename(path), bytes: withFile(`read ${path}`, () => readFileSync(path)).toString('base64') });

/** The program, or null if none is given and none is found. */
function programFor(given) {
  try {
    return findProgram(given);
  } catch (error) {
    if (given !== undefined || !(error instanceof UserError)) throw error;
    console.error(`serve.mjs: logs are not checked: ${error.message}`);
    return null;
  }
}

const print = ({ name, agent, outcomes, verdicts }) => (
  console.log([`${name}, ${agent}`, 'outcomes', ...outcomes, 'verdicts', ...verdicts].join('\n')));

async function listen(handlers, port) {
  try {
    return await serve(handlers, port);
  } catch (error) {
    if (error.code === 'EADDRINUSE' || error.code === 'EACCES') {
      throw new UserError(`--port ${port}: it cannot be used (${error.code})`);
    }
    throw error;
  }
}

async function main(args) {
  const { values, positionals } = wordsOf({
    args, allowPositionals: true, options: { port: TEXT, wmlab: TEXT, ...HELP },
  });
  if (values.help) return process.stdout.write(USAGE);
  if (positionals.length > 1) throw new UserError(`${positionals.length} modules: expected at most one`);
  const port = countOf('port', values.port ?? '8123', 65_535);
  const module = positionals.length ? moduleOf(positionals[0]) : null;
  const program = programFor(values.wmlab);
  // A module that the program does not read is refused here, as record.mjs does, and not when someone records it.
  if (program && module) await Judge.open(program, positionals[0]);
  const judges = program ? new Judges(program) : null;
  const end = async (status) => {
    await judges?.close();
    process.exit(status);
  };
  for (const [signal, status] of Object.entries({ SIGINT: 130, SIGTERM: 143, SIGHUP: 129 })) process.once(signal, () => end(status));
  try {
    const { origin } = await listen(handlersOf(judges, module, print), port);
    return console.log(`the page is ${origin}/`);
  } catch (error) {
    await judges?.close();
    throw error;
  }
}

if (process.argv[1] && realpathSync(process.argv[1]) === fileURLToPath(import.meta.url)) {
  try {
    await main(process.argv.slice(2));
  } catch (error) {
    const isExpected = error instanceof UserError || error instanceof Stopped;
    console.error(isExpected ? `serve.mjs: ${error.message}` : error);
    process.exit(isExpected ? 2 : 3);
  }
}
