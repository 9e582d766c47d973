/** Judges modules that a page sends. */

import { createHash } from 'node:crypto';
import { mkdtempSync, rmSync, writeFileSync } from 'node:fs';
import { tmpdir } from 'node:os';
import { join } from 'node:path';
import { parse } from '../shared/document.mjs';
import { explained } from '../shared/kept.mjs';
import { initialOf } from '../shared/recorder.mjs';
import { judgeRound } from '../shared/rounds.mjs';
import { Judge } from '../shared/wmlab.mjs';

export class Judges {
  constructor(program) {
    this.program = program;
    this.folder = mkdtempSync(join(tmpdir(), 'wmlab-page-'));
    this.judges = new Map();
  }

  /** The judge of a module in base64, and its initial memory. */
  of(text) {
    const bytes = Buffer.from(text, 'base64');
    const name = createHash('sha256').update(bytes).digest('hex');
    if (!this.judges.has(name)) {
      const path = join(this.folder, `${name}.wasm`);
      writeFileSync(path, bytes);
      this.judges.set(name, Judge.open(this.program, path).then((judge) => ({ judge, initial: initialOf(bytes) })));
    }
    return this.judges.get(name);
  }

  async judge({ module, ends, document, isOpen }) {
    const { judge, initial } = await this.of(module);
    return judgeRound(judge, { ends: parse(ends), document, isOpen }, initial, { seconds: 20 });
  }

  async explain({ module, document, line }) {
    const { judge } = await this.of(module);
    return explained(judge, { document, line });
  }

  async close() {
    const opened = await Promise.allSettled(this.judges.values());
    for (const one of opened) if (one.status === 'fulfilled') one.value.judge.close();
    rmSync(this.folder, { recursive: true, force: true });
  }
}
