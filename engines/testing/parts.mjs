/** The parts of the tests. Each is loaded by the process that runs it, so that a part that cannot be loaded fails alone. */

/** How often things are tried, unless the command line has another number. */
export const COUNTS = { rounds: 4, wrong: 1_000, runs: 1_000 };

/** Each part is a function of the tally (`note`, `leftOut`), the program and the counts. Those that take longest come first. */
export const PARTS = {
  'self-recording': async (context) => (await import('../selfrecord/test_recordings.mjs')).testRecordings(context),
  chromium: async (context) => (await import('../browser/test_browsers.mjs')).testBrowser(context, 'chromium'),
  firefox: async (context) => (await import('../browser/test_browsers.mjs')).testBrowser(context, 'firefox'),
  webkit: async (context) => (await import('../browser/test_browsers.mjs')).testBrowser(context, 'webkit'),
  'examples-free': async (context) => (await import('./test_programs.mjs')).testPrograms(context, 'free'),
  'examples-buffered': async (context) => (await import('./test_programs.mjs')).testPrograms(context, 'buffered'),
  'examples-locked': async (context) => (await import('./test_programs.mjs')).testPrograms(context, 'locked'),
  'wrong-engines': async (context) => (await import('./test_programs.mjs')).testWrongEngines(context),
  'c-programs': async (context) => (await import('./test_recipes.mjs')).testC(context),
  'rust-programs': async (context) => (await import('./test_recipes.mjs')).testRust(context),
  commands: async (context) => (await import('../commands/test_commands.mjs')).testCommands(context),
  recorder: async (context) => (await import('../node/test_command.mjs')).testCommand(context),
  conditions: async (context) => (await import('../node/test_conditions.mjs')).testConditions(context),
  modes: async (context) => (await import('../shared/test_modes.mjs')).testModes(context),
  seen: async (context) => (await import('../shared/test_seen.mjs')).testSeen(context),
  witness: async (context) => (await import('../shared/test_witness.mjs')).testWitness(context),
  lowering: async (context) => (await import('../lowering/test_lowering.mjs')).testLowering(context),
  'self-command': async (context) => (await import('../selfrecord/test_command.mjs')).testCommand(context),
  stream: async (context) => (await import('../node/test_stream.mjs')).testStream(context),
  server: async (context) => (await import('../browser/test_browsers.mjs')).testServer(context),
  starts: async (context) => (await import('../shared/test_starts.mjs')).testStarts(context),
  binary: async (context) => (await import('../shared/test_binary.mjs')).testBinary(context),
  links: async (context) => (await import('./test_links.mjs')).testLinks(context),
};
