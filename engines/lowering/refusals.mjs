/** Everything in a module that has no lowering: each part with its place, the feature's name and the reason. */

import { isCarried } from './floats.mjs';
import { CODE, beginsBlock, featureOf, nameOf } from './instructions.mjs';
import { KIND, TYPE, constantOf } from './module.mjs';

export const LIMITS = { pages: 16, functions: 1_000, locals: 1_000, nesting: 64 };

const REASONS = {
  Floats: 'arithmetic of floats becomes integer functions with --soft-floats; without it floats can only be moved, stored and loaded',
  NarrowCmpxchg: 'one of 4 bytes would be another access, and one by plain accesses not atomic; '
    + 'use an aligned variable of 4 bytes: in C _Atomic unsigned in place of atomic_bool, _Atomic char or _Atomic short, '
    + 'in Rust AtomicU32 in place of AtomicBool, AtomicU8 or AtomicU16',
  Growth: `memory.grow would always fail, since a module has at most ${LIMITS.pages} pages; give the module fewer at first, or, if its failure is wanted, --no-growth`,
  PassiveData: 'only the linker\'s own initialization is lowered; use active segments',
  Table: 'only a table that is never written is lowered',
  References: 'references have no lowering; compile with -mno-reference-types',
  Simd: 'vectors have no lowering; compile with -mno-simd128',
  Reserved: 'tail calls and exceptions have no lowering; compile with -mno-tail-call -fno-exceptions',
  MultiValue: 'several values have no lowering; compile with -mno-multivalue',
  Import: 'only a memory may be imported; link it in',
  SeveralMemories: 'a module has one memory',
  ConstExpression: 'its value is not known before the module runs',
  Pages: `a module has at most ${LIMITS.pages} initial pages; link with -z stack-size=4096, or make its static data smaller`,
  Functions: `a module has at most ${LIMITS.functions} functions; link with --gc-sections`,
  Locals: `a function has at most ${LIMITS.locals} parameters and locals`,
  Nesting: `blocks are nested at most ${LIMITS.nesting} deep`,
  Stripped: 'the compiler made its atomic accesses plain ones; compile with -matomics, and with -mbulk-memory if it has thread-local variables',
};

/** How much a limit is passed by. */
export const tooMany = (count, most, what) => `${count} ${what}, ${count - most} too many`;

export const refusal = (feature, place, what) => ({ feature, place, what, reason: REASONS[feature] });

const FEATURE_OF_TYPE = new Map([
  [TYPE.i32, null], [TYPE.i64, null], [TYPE.f32, null], [TYPE.f64, null], [TYPE.v128, 'Simd'],
]);
const featureOfType = (type) => (FEATURE_OF_TYPE.has(type) ? FEATURE_OF_TYPE.get(type) : 'References');

/** The features for which a function type is refused. */
function typeFeatures({ params, results }) {
  const features = new Set([...params, ...results].map(featureOfType).filter((feature) => feature !== null));
  if (results.length > 1) features.add('MultiValue');
  return [...features];
}

/** The type of a block, if it has one of the module's function types. */
export const blockType = (module, { args }) => (args[0] >= 0n ? module.types[Number(args[0])] : null);

/** The feature for which an instruction itself is refused; arithmetic of floats is one without `softFloats`. */
function ownFeature(code, { softFloats }) {
  const feature = featureOf(code);
  return feature === 'Floats' && (softFloats || isCarried(code)) ? undefined : feature;
}

function* instructionFeatures(module, instruction, options) {
  const { code, args } = instruction;
  const feature = ownFeature(code, options);
  if (feature) yield feature;
  const type = beginsBlock(code) ? blockType(module, instruction) : null;
  if (type && (type.params.length || type.results.length > 1)) yield 'MultiValue';
  if (beginsBlock(code) && args[0] < 0n && args[0] !== -64n) {
    const found = featureOfType(Number(BigInt.asUintN(7, args[0])));
    if (found) yield found;
  }
  if (code === CODE.typedSelect) {
    for (const found of args.map(featureOfType)) if (found) yield found;
  }
}

/** The deepest nesting of blocks. */
function nestingOf(instructions) {
  let depth = 0, deepest = 0;
  for (const { code } of instructions) {
    if (beginsBlock(code)) deepest = Math.max(deepest, ++depth);
    if (code === CODE.end) depth--;
  }
  return deepest;
}

function* functionRefusals(module, index, place, options) {
  const type = module.types[module.functionTypes[index]];
  const { locals, instructions } = module.bodies[index];
  for (const feature of typeFeatures(type)) yield refusal(feature, place, 'its type');
  for (const feature of new Set(locals.map((local) => featureOfType(local.type)).filter((found) => found))) {
    yield refusal(feature, place, 'a local');
  }
  const count = locals.reduce((sum, local) => sum + local.count, type.params.length);
  if (count > LIMITS.locals) yield refusal('Locals', place, tooMany(count, LIMITS.locals, 'parameters and locals'));
  const depth = nestingOf(instructions);
  if (depth > LIMITS.nesting) yield refusal('Nesting', place, tooMany(depth, LIMITS.nesting, 'blocks'));
  for (const [number, instruction] of instructions.entries()) {
    for (const feature of instructionFeatures(module, instruction, options)) {
      yield refusal(feature, `${place} instruction ${number}`, nameOf(instruction.code));
    }
  }
}

function* memoryRefusals(module) {
  const { memories } = module;
  if (memories.length > 1) yield refusal('SeveralMemories', 'module', `${memories.length} memories`);
  for (const { minimum } of memories) {
    if (minimum > LIMITS.pages) yield refusal('Pages', 'module', tooMany(minimum, LIMITS.pages, 'pages'));
  }
  for (const [index, { offset }] of module.data.entries()) {
    const isUnknown = offset && constantOf(offset, module.globals) === null;
    if (isUnknown) yield refusal('ConstExpression', `data segment ${index}`, 'its offset');
  }
}

function* moduleRefusals(module) {
  for (const { module: from, name, kind } of module.imports) {
    if (kind !== KIND.memory) yield refusal('Import', `import ${from}.${name}`, 'it is not a memory');
  }
  if (module.features && !module.features.has('+atomics')) {
    yield refusal('Stripped', 'module', 'target_features without +atomics');
  }
  for (const stripped of ['-atomics', '-shared-mem']) {
    if (module.features?.has(stripped)) yield refusal('Stripped', 'module', `target_features with ${stripped}`);
  }
  for (const [index, { type, initial }] of module.globals.entries()) {
    const feature = featureOfType(type);
    if (feature) yield refusal(feature, `global ${index}`, 'its type');
    else if (initial && constantOf(initial, module.globals) === null) {
      yield refusal('ConstExpression', `global ${index}`, 'its initial value');
    }
  }
  yield* memoryRefusals(module);
  if (module.bodies.length > LIMITS.functions) {
    yield refusal('Functions', 'module', tooMany(module.bodies.length, LIMITS.functions, 'functions'));
  }
}

/** All refusals of a module, of whose functions only those are looked at that can be called. `placeOf` names a function. */
export function refusalsOf(module, called, placeOf, options) {
  const found = [...moduleRefusals(module)];
  for (const index of [...called].sort((a, b) => a - b)) found.push(...functionRefusals(module, index, placeOf(index), options));
  return found;
}
