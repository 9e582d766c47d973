/** Finds browsers, and opens a page in one without a window. */

import { spawn, spawnSync } from 'node:child_process';
import { existsSync, readdirSync } from 'node:fs';
import { join } from 'node:path';
import { fileURLToPath } from 'node:url';
import { UserError } from '../shared/errors.mjs';

const KEEPER = fileURLToPath(new URL('./keeper.mjs', import.meta.url));
const LIBRARIES = '/usr/lib';

/** The programs that Debian's packages may have put somewhere below /usr/lib, as `FOLDER/LIBRARY/MiniBrowser`. */
function miniBrowsers() {
  const folders = existsSync(LIBRARIES) ? readdirSync(LIBRARIES).filter((name) => name.endsWith('-linux-gnu')) : [];
  return folders.flatMap((name) => ['webkit2gtk-4.1', 'webkit2gtk-4.0'].map((library) => join(LIBRARIES, name, library, 'MiniBrowser')))
    .filter((path) => existsSync(path));
}

/** What a command prints, or null if it cannot be started or fails. */
function printedBy(program, words) {
  const { error, status, stdout } = spawnSync(program, words, { encoding: 'utf8' });
  return !error && status === 0 ? stdout.trim() : null;
}

/** The first of these programs that prints its version. */
function firstOf(programs) {
  for (const program of programs) {
    const version = printedBy(program, ['--version']);
    if (version !== null) return { program, version: version.split('\n').at(-1) };
  }
  return null;
}

/** WebKitGTK's own browser. It needs a display to print its version, so the version is that of the package. */
function findWebKit() {
  const [program] = miniBrowsers();
  if (program === undefined || spawnSync('Xvfb', ['-help']).error) return null;
  const library = (program.split('/').at(-2) ?? '').replace('webkit2gtk', 'libwebkit2gtk');
  const version = printedBy(
    'dpkg-query',
    ['-W', '-f', '${source:Upstream-Version}', library.endsWith('4.0') ? `${library}-37` : `${library}-0`],
  );
  return { program, version: `WebKitGTK ${version ?? '(version not known)'}` };
}

/** How each browser is found, and what has to be installed. */
const BROWSERS = {
  chromium: { find: () => firstOf(['chromium', 'chromium-browser', 'google-chrome']), needs: 'Chromium (Debian: chromium)' },
  firefox: { find: () => firstOf(['firefox-esr', 'firefox']), needs: 'Firefox (Debian: firefox-esr)' },
  webkit: { find: findWebKit, needs: "WebKitGTK's MiniBrowser and Xvfb (Debian: libwebkit2gtk-4.1-0 xvfb)" },
};

/** The program of a browser and its version; null if it is not installed. */
export const findBrowser = (kind) => BROWSERS[kind].find();

/** The same; refuses a browser that is not installed. */
export function requireBrowser(kind) {
  const found = findBrowser(kind);
  if (!found) throw new UserError(`--engine ${kind}: it needs ${BROWSERS[kind].needs}, which is not installed`);
  return found;
}

/** Opens a page in a browser. Answers `close`, and `ended`, which is settled when the browser is gone. */
export function openPage(kind, program, address) {
  const keeper = spawn(process.execPath, [KEEPER, kind, program, address], { stdio: ['pipe', 'ignore', 'ignore'], detached: true });
  keeper.stdin.on('error', () => {});
  const ended = new Promise((resolve) => { keeper.on('close', resolve); });
  const close = async () => {
    keeper.stdin.end();
    await ended;
  };
  return { close, ended };
}
