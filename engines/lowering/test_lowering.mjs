/** All tests of the lowering. */

import { testCommand } from './test_command.mjs';
import { testReading } from './test_reading.mjs';
import { testRefusals } from './test_refusals.mjs';
import { randomFrom, testSemantics } from './test_semantics.mjs';
import { testSoftFloats } from './test_soft_floats.mjs';
import { testStacks } from './test_stacks.mjs';
import { testThreadLocals } from './test_thread_locals.mjs';
import { testThreads } from './test_threads.mjs';

export async function testLowering(context) {
  testReading(context);
  await testSemantics(context);
  testSoftFloats(context, randomFrom(11));
  await testRefusals(context);
  await testStacks(context);
  testThreadLocals(context);
  await testThreads(context);
  testCommand(context);
}
