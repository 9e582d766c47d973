/**
 * Every import of engines/ is of a file that is there, by a name that it exports; also in the scripts that only browsers load. And
 * docs/PROGRAMS.md names every program in C and Rust, with their counts.
 */

import { existsSync, readFileSync, readdirSync } from 'node:fs';
import { dirname, join, relative, resolve } from 'node:path';
import { fileURLToPath } from 'node:url';

const ENGINES = fileURLToPath(new URL('..', import.meta.url));
const EXAMPLES = join(ENGINES, '../examples');
const PROGRAMS = join(ENGINES, '../docs/PROGRAMS.md');
const IMPORT = /^import (?:\{([^}]*)\} from )?'(\.[^']+)';/gm;
const DYNAMIC = /import\('(\.[^']+)'\)/g;
const EXPORT = /^export (?:async )?(?:const|let|class|function\*?) (?:\{([^}]*)\}|(\w+))/gm;

/** The names in braces, without what they are called after `as`. */
const namesIn = (list = '') => list.split(',').map((item) => item.trim().split(' as ')[0]).filter(Boolean);

const exportsOf = (text) => new Set([...text.matchAll(EXPORT)].flatMap(([, list, name]) => (name ? [name] : namesIn(list))));

/** The imports of a script, each with the names that it takes. */
const importsOf = (text) => [
  ...[...text.matchAll(IMPORT)].map(([, names, path]) => ({ path, names: namesIn(names) })),
  ...[...text.matchAll(DYNAMIC)].map(([, path]) => ({ path, names: [] })),
];

/** What is wrong with the imports of a script. */
function faultsOf(script) {
  const imports = importsOf(readFileSync(script, 'utf8'));
  return imports.flatMap(({ path, names }) => {
    const file = resolve(dirname(script), path);
    if (!existsSync(file)) return [`${path} is not there`];
    const known = exportsOf(readFileSync(file, 'utf8'));
    return names.filter((name) => !known.has(name)).map((name) => `${path} exports no ${name}`);
  });
}

/** The rows of a table in the section of docs/PROGRAMS.md with this title: the names in their first or second column. */
function namesOfSection(page, title, column) {
  const section = page.split(`\n## ${title}\n`)[1].split('\n## ')[0];
  const cells = section.split('\n').filter((line) => line.startsWith('|')).map((line) => line.split('|')[column + 1]);
  return cells.flatMap((cell) => [...cell.matchAll(/`([^`]+)`/g)].map(([, name]) => name));
}

/** The programs of a folder, and whether the page states their count and names each once. */
function testPrograms({ note }, page, { folder, ending, title, column }) {
  const others = new Set(['mem']);
  const programs = readdirSync(join(EXAMPLES, folder)).filter((name) => name.endsWith(ending))
    .map((name) => name.slice(0, -ending.length)).filter((name) => !others.has(name)).sort();
  const named = namesOfSection(page, title, column).sort();
  note(
    page.includes(`\`examples/${folder}\` has ${programs.length} programs`) && named.join() === programs.join(),
    `PROGRAMS names the ${programs.length} programs of examples/${folder}`,
    `named: ${named}; there: ${programs}`,
  );
  return programs.length;
}

function testPage(context) {
  const page = readFileSync(PROGRAMS, 'utf8');
  const c = testPrograms(context, page, { folder: 'c', ending: '.c', title: 'C programs', column: 1 });
  const rust = testPrograms(context, page, { folder: 'rust', ending: '.rs', title: 'Rust programs', column: 0 });
  context.note(page.includes(`all ${c + rust} programs in C and Rust`), `PROGRAMS states that ${c + rust} programs are recorded`);
}

export function testLinks({ note }) {
  testPage({ note });
  const scripts = readdirSync(ENGINES, { recursive: true }).filter((name) => name.endsWith('.mjs')).map((name) => join(ENGINES, name));
  for (const script of scripts) {
    const faults = faultsOf(script);
    if (faults.length) note(false, `${relative(ENGINES, script)}: ${faults.join('; ')}`);
  }
  const imports = scripts.flatMap((script) => importsOf(readFileSync(script, 'utf8')));
  const names = imports.flatMap((each) => each.names);
  note(
    scripts.length > 50 && names.length > 200,
    `${imports.length} imports of ${names.length} names in ${scripts.length} scripts are there`,
  );
}
