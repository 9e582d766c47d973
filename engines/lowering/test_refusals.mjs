/** What has no lowering is refused, each part with its place. */

import { Refused, lower } from './lower.mjs';
import { isTaken } from './test_semantics.mjs';
import { featuresSection, moduleOf } from './test_modules.mjs';

const I32 = 0x7f, F32 = 0x7d;
const one = (code, more = {}) => moduleOf({ functions: [{ code, exported: 'a' }], ...more });
const zeros = (count) => Array(count).fill([0x41, 0]).flat();
const DROP = 0x1a;
const NARROW = [...zeros(3), 0xfe, 0x4a, 0, 0, DROP];
const floatConstant = [0x43, 0, 0, 0, 0, DROP];
const ROOT = [...floatConstant.slice(0, 5), 0x91, DROP];
const WAIT = [...zeros(2), 0x42, 0, 0xfe, 1, 2, 0, DROP];
const GROW = [0x41, 1, 0x40, 0, DROP];

const IMPORTED_GLOBAL = [[3, 101, 110, 118, 1, 103, 3, I32, 0]];

/**
 * Each with a module and the refusals that are expected, as `FEATURE PLACE`.
 *
 * @type {[string, Uint8Array, string[]][]}
 */
const CASES = [
  ['a narrow compare-exchange', one(NARROW), ['NarrowCmpxchg function 0 (a) instruction 3']],
  ['arithmetic of floats', one(ROOT), ['Floats function 0 (a) instruction 1']],
  ['a saturating truncation', one([...floatConstant.slice(0, 5), 0xfc, 0, DROP]),
    ['Floats function 0 (a) instruction 1']],
  ['a memory that could grow, but has all 16 pages', one(GROW, { memory: [3, 16, 17] }), ['Growth module']],
  ['memory.init', one([...zeros(3), 0xfc, 8, 0, 0], { data: [[1, 1, 5]] }), ['PassiveData function 0 (a) instruction 3']],
  ['a vector', one([0xfd, 12, ...Array(16).fill(0), DROP]), ['Simd function 0 (a) instruction 0']],
  ['references', one([0xd0, 0x70, DROP]), ['References function 0 (a) instruction 0']],
  ['a table that is read', one([...zeros(1), 0x25, 0, DROP], { tables: [[0x70, 0, 1]] }), ['Table function 0 (a) instruction 1']],
  ['an imported function', one([], { imports: [[3, 101, 110, 118, 1, 102, 0, 0]] }), ['Import import env.f']],
  ['an imported table', one([], { imports: [[3, 101, 110, 118, 1, 116, 1, 0x70, 1, 1, 2]] }), ['Import import env.t']],
  ['an imported global', one([], { imports: IMPORTED_GLOBAL }), ['Import import env.g']],
  ['several results', moduleOf({ types: [[0x60, 0, 2, I32, I32]], functions: [{ code: zeros(2), exported: 'a' }] }),
    ['MultiValue function 0 (a)']],
  ['a memory of 15 pages that grows', one(GROW, { memory: [0, 15] }), ['Growth module']],
  ['17 pages', one([], { memory: [3, 17, 17] }), ['Pages module']],
  ['65 blocks in one another', one([...Array(65).fill([2, 0x40]).flat(), ...Array(65).fill(0x0b)]), ['Nesting function 0 (a)']],
  ['1,001 locals', moduleOf({ functions: [{ code: [], locals: [1, 0xe9, 7, I32], exported: 'a' }] }), ['Locals function 0 (a)']],
  ['a module without +atomics', one([], { custom: featuresSection('+bulk-memory') }), ['Stripped module']],
  ['a module with -shared-mem', one([], { custom: featuresSection('+atomics', '-shared-mem') }), ['Stripped module']],
  ['a module with -atomics', one([], { custom: featuresSection('+atomics', '-atomics') }), ['Stripped module']],
  ['several results of a block', one([2, 1, ...zeros(2), 0x0b, DROP, DROP], { types: [[0x60, 0, 0], [0x60, 0, 2, I32, I32]] }),
    ['MultiValue function 0 (a) instruction 0']],
  ['an operand of a block', one([...zeros(1), 2, 1, DROP, 0x0b], { types: [[0x60, 0, 0], [0x60, 1, I32, 0]] }),
    ['MultiValue function 0 (a) instruction 1']],
  ['a select of references', one([0xd0, 0x70, 0xd0, 0x70, 0x41, 0, 0x1c, 1, 0x70, DROP]),
    [0, 1, 3].map((number) => `References function 0 (a) instruction ${number}`)],
  ['a vector and a reference as locals', moduleOf({ functions: [{ code: [], locals: [2, 1, 0x7b, 1, 0x70], exported: 'a' }] }),
    ['Simd function 0 (a)', 'References function 0 (a)']],
  ['a global with a reference', one([], { globals: [[0x70, 0, 0xd0, 0x70, 0x0b]] }), ['References global 0']],
  ['data.drop', one([0xfc, 9, 0], { data: [[1, 1, 5]] }), ['PassiveData function 0 (a) instruction 0']],
  ['a table that is written', one([...zeros(1), 0xd0, 0x70, 0x26, 0], { tables: [[0x70, 0, 1]] }),
    ['References function 0 (a) instruction 1', 'Table function 0 (a) instruction 2']],
  ['calls with two tables', one([...zeros(1), 0x11, 0, 0], { tables: [[0x70, 0, 1], [0x70, 0, 1]] }), ['Table module']],
  ['a table that is filled at an unknown place', one([...zeros(1), 0x11, 0, 0], {
    imports: IMPORTED_GLOBAL, tables: [[0x70, 0, 1]], elements: [[0, 0x23, 0, 0x0b, 1, 0]],
  }), ['Import import env.g', 'Table module']],
  ['a global whose value is not known', one([], { imports: IMPORTED_GLOBAL, globals: [[I32, 0, 0x23, 0, 0x0b]] }),
    ['Import import env.g', 'ConstExpression global 1']],
  ['a data segment at an unknown place', one([], { imports: IMPORTED_GLOBAL, data: [[0, 0x23, 0, 0x0b, 1, 5]] }),
    ['Import import env.g', 'ConstExpression data segment 0']],
  ['1,000 locals beside a parameter',
    moduleOf({ types: [[0x60, 1, I32, 0]], functions: [{ code: [], locals: [1, 0xe8, 7, I32], exported: 'a' }] }), ['Locals function 0 (a)']],
  ['1,001 functions', moduleOf({ functions: [{ code: [], exported: 'a' }, ...Array(1_000).fill({ code: [] })] }), ['Functions module']],
  ['1,000 functions and one that is added',
    moduleOf({ functions: [{ code: [...zeros(3), 0xfc, 11, 0], exported: 'a' }, ...Array(999).fill({ code: [] })] }), ['Functions lowered module']],
  ['all parts of all functions', moduleOf({ functions: [{ code: [...NARROW, ...ROOT], exported: 'a' }, { code: NARROW, exported: 'b' }] }),
    ['NarrowCmpxchg function 0 (a) instruction 3', 'Floats function 0 (a) instruction 6', 'NarrowCmpxchg function 1 (b) instruction 3']],
];

/** Modules at the limits, one whose memory is an import, and modules with what is lowered; some with options. */
const TAKEN = [
  ['wait', one(WAIT)], ['notify', one([...zeros(2), 0xfe, 0, 2, 0, DROP])],
  ['wait for 8 bytes', one([0x41, 0, 0x42, 0, 0x42, 0, 0xfe, 2, 3, 0, DROP])],
  ['a constant of a float', one(floatConstant)], ['arithmetic of floats with --soft-floats', one(ROOT), { softFloats: true }],
  ['a float local', moduleOf({ functions: [{ code: [], locals: [1, 1, F32], exported: 'a' }] })],
  ['a float global', one([], { globals: [[F32, 0, 0x43, 0, 0, 0, 0, 0x0b]] })],
  ['a block of a float', one([2, F32, ...floatConstant.slice(0, 5), 0x0b, DROP])],
  ['a float parameter', moduleOf({
    types: [[0x60, 1, F32, 0], [0x60, 0, 0]], functions: [{ code: [] }, { code: [...floatConstant.slice(0, 5), 0x10, 0], type: 1, exported: 'a' }],
  })],
  ['a memory that grows', one(GROW, { memory: [3, 1, 16] })],
  ['a memory that grows to 15 pages', one(GROW, { memory: [0, 14] })],
  ['a memory of 16 pages with --no-growth', one(GROW, { memory: [3, 16, 17] }), { growth: false }],
  ['a memory at its own maximum', one(GROW, { memory: [3, 16, 16] })],
  ['64 blocks in one another', one([...Array(64).fill([2, 0x40]).flat(), ...Array(64).fill(0x0b)])],
  ['1,000 locals', moduleOf({ functions: [{ code: [], locals: [1, 0xe8, 7, I32], exported: 'a' }] })],
  ['a memory that is not shared and has no maximum', one([], { memory: [0, 1] })],
  ['a memory that is not shared', one([], { memory: [1, 1, 3] })],
  ['no memory', one([], { memory: null })],
  ['16 pages', one([], { memory: [3, 16, 16] })],
  ['1,000 functions', moduleOf({ functions: [{ code: [], exported: 'a' }, ...Array(999).fill({ code: [] })] })],
  ['an imported memory', one([], { memory: null, imports: [[3, 101, 110, 118, 1, 109, 2, 3, 1, 1]] })],
];

function refusalsOf(bytes) {
  try {
    lower(bytes);
    return [];
  } catch (error) {
    if (!(error instanceof Refused)) throw error;
    return error.refusals.map(({ feature, place, reason }) => `${feature} ${place}${reason ? '' : ' without a reason'}`);
  }
}

export async function testRefusals({ note, wmlab }) {
  for (const [what, bytes, expected] of CASES) {
    const isModule = WebAssembly.validate(bytes);
    const found = refusalsOf(bytes);
    note(
      isModule && found.join('; ') === expected.join('; '),
      `refused: ${what}${isModule ? '' : ' (this is not a module)'}: ${found.join('; ')}`,
    );
  }
  const called = [{ code: [], exported: 'a' }, { code: NARROW }];
  note(!refusalsOf(moduleOf({ functions: called })).length, 'a function that is never called is not a reason to refuse');
  for (const [what, bytes, options] of TAKEN) {
    note(await isTaken(wmlab, lower(bytes, options).bytes, ['a', 'a']), `taken, by wmlab too: ${what}`);
  }
}
