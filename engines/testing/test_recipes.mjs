/** The recipes of examples/c and examples/rust: each program is built again and recorded, and stripped atomics are refused. */

import { chmodSync, cpSync, existsSync, mkdirSync, mkdtempSync, readFileSync, readdirSync, rmSync, writeFileSync } from 'node:fs';
import { tmpdir } from 'node:os';
import { delimiter, join } from 'node:path';
import { fileURLToPath } from 'node:url';
import { startsOf } from './programs.mjs';
import { isThere, run } from './tally.mjs';
import { run as record } from './test_programs.mjs';

const EXAMPLES = fileURLToPath(new URL('../../examples', import.meta.url));

/** The rounds of a program that another compiler made. */
const ROUNDS = 4;

/** Sources of a recipe that are not programs. */
const NOT_PROGRAMS = new Set(['mem.c']);

/**
 * The recipes: the tools that they need, the commands that show whether these make an object with atomics and a module of one
 * source, and the versions of compiler and linker that made the modules which are there. Other versions make other modules, which
 * are recorded. With a compiler that was not tried (`tried`), a program that is not built is left out.
 */
const { CLANG = 'clang', WASM_LD = 'wasm-ld', RUSTC = '/usr/bin/rustc' } = process.env;
const C = {
  folder: 'c', ending: '.c', tools: [CLANG, WASM_LD, 'wasm-objdump', 'node'],
  source: 'int a(void) { return 1; }\n',
  probes: (from, object, module) => [
    [CLANG, '--target=wasm32', '-mcpu=mvp', '-matomics', '-c', from, '-o', object], [WASM_LD, '--no-entry', object, '-o', module],
  ],
  versions: [[CLANG, ['--version'], / version 14\.0\.6/], [WASM_LD, ['--version'], / 14\.0\.6/]],
  tried: [[CLANG, ['--version'], / version 1[46]\./], [WASM_LD, ['--version'], / 1[46]\./]],
};
const RUST = {
  folder: 'rust', ending: '.rs', tools: [RUSTC, 'wasm-objdump', 'node'],
  source: '#![no_std]\n#[panic_handler] fn halt(_: &core::panic::PanicInfo) -> ! { loop {} }\n',
  probes: (from, object, module) => [[
    RUSTC, '--target', 'wasm32-unknown-unknown', '--crate-type', 'cdylib', '-C', 'target-cpu=mvp', '-C', 'target-feature=+atomics',
    `--emit=obj=${object},link=${module}`, from,
  ]],
  versions: [[RUSTC, ['--version'], /^rustc 1\.63\.0\s/], ['rust-lld', ['-flavor', 'wasm', '--version'], / 14\.0\.6/]],
  tried: [[RUSTC, ['--version'], /^rustc 1\.63\./]],
};

/** The reason why a recipe cannot be tried here, or null: a missing tool, or one that cannot do what the recipe needs. */
function hindrance({ tools, source, probes, ending }, room) {
  const missing = tools.filter((tool) => !isThere(tool));
  if (missing.length) return `${missing.join(', ')} cannot be started`;
  const [from, object, module] = [`probe${ending}`, 'probe.o', 'probe.wasm'].map((name) => join(room, name));
  writeFileSync(from, source);
  for (const [tool, ...words] of probes(from, object, module)) {
    const made = run(tool, words);
    if (made.status !== 0) return `${tool} fails on a program of one function: ${made.err.trim().split('\n')[0]}`;
  }
  const isShown = run('wasm-objdump', ['-x', object]).out.includes('[+] atomics');
  return isShown ? null : `wasm-objdump -x does not show the features of an object of ${tools[0]}`;
}

const build = ({ folder }, from, to, environment = {}) => (
  run(join(EXAMPLES, folder, 'build.sh'), [from, to], { env: { ...process.env, ...environment } }));

/** Whether the tools have these versions. */
const haveVersions = (list) => list.every(([tool, words, version]) => version.test(run(tool, words).out));

/** Builds a program again. Its bytes have to be those that are there, or, by another compiler, its logs have to be allowed. */
async function testProgram({ note, leftOut, wmlab, room, isSame, isTried }, recipe, program) {
  const name = `${recipe.folder}/${program}`;
  const out = join(room, `${program}.wasm`);
  const made = build(recipe, join(EXAMPLES, `${name}${recipe.ending}`), out);
  const isBuilt = made.status === 0 && existsSync(out);
  if (!isBuilt && !isTried) {
    leftOut(name, `this version of ${recipe.tools[0]}, which was not tried, does not build it: ${made.err.trim().split('\n')[0]}`);
  } else if (!isBuilt && /apt-get install rust-src/.test(made.err)) {
    leftOut(name, 'it needs std for threads, and its source is not there: apt-get install rust-src');
  } else if (!isBuilt) {
    note(false, `${name} is built`, made);
  } else if (isSame) {
    note(readFileSync(out).equals(readFileSync(join(EXAMPLES, `${name}.wasm`))), `${name} is built again, byte for byte`, made);
  } else {
    const starts = startsOf(`${name}.wasm`, readFileSync(out));
    const { holds, text } = await record({ name: `${name}.wasm`, path: out, starts }, wmlab, { mode: 'buffered', rounds: ROUNDS });
    note(holds, `${name} is built by another compiler and recorded: ${text}`, made);
  }
}

/** Builds all programs of a recipe, and has its other tests made. Leaves them out if the tools cannot make a module. */
async function testRecipe(context, recipe, testOthers) {
  const room = mkdtempSync(join(tmpdir(), 'recipe-'));
  try {
    const hindered = hindrance(recipe, room);
    if (hindered) {
      context.leftOut(`building examples/${recipe.folder}`, hindered);
      return;
    }
    const [isSame, isTried] = [recipe.versions, recipe.tried].map(haveVersions);
    const sources = readdirSync(join(EXAMPLES, recipe.folder)).filter((name) => name.endsWith(recipe.ending) && !NOT_PROGRAMS.has(name));
    for (const source of sources) await testProgram({ ...context, room, isSame, isTried }, recipe, source.slice(0, -recipe.ending.length));
    testOthers({ ...context, room });
  } finally {
    rmSync(room, { recursive: true });
  }
}

/** Store buffering in C. With a thread-local variable the compiler makes atomic accesses plain ones, unless it has bulk memory. */
const storeBuffering = (depth) => `${depth} int depth;
static _Atomic int x, y;
__attribute__((export_name("a"))) int a(void) { depth++; x = 1; return y; }
__attribute__((export_name("b"))) int b(void) { depth++; y = 1; return x; }
`;

const COPY = `struct large { int numbers[100]; };
static struct large one, two;
__attribute__((export_name("a"))) int a(int value) { one = (struct large){{0}}; one.numbers[99] = value; two = one; return two.numbers[99]; }
`;

/** Programs that have no room to grow, and none at all: 960 and 1,024 kilobytes beside the stack. */
const GROWING = `static volatile char room[960 * 1024];
__attribute__((export_name("a"))) char a(int at) { return room[at] = (char)__builtin_wasm_memory_grow(0, 1); }
`;
const LARGE = `static volatile char room[1024 * 1024];
__attribute__((export_name("a"))) char a(int at) { return room[at]++; }
`;

/** Functions of math.h, and what they give: those of a double, and the others by the names of their exports. */
const UNARY = { fabs: Math.abs, sqrt: Math.sqrt, floor: Math.floor, ceil: Math.ceil, trunc: Math.trunc, nearbyint: toEven, round: away };
const BINARY = { fmin: Math.min, fmax: Math.max, copysign: (x, y) => (Object.is(Math.sign(y), -0) || y < 0 ? -Math.abs(x) : Math.abs(x)) };
const MATH = ['// lower: --soft-floats', '#include <math.h>', ...Object.keys(UNARY).flatMap((name) => [
  `__attribute__((export_name("${name}"))) double a_${name}(double x) { return ${name}(x); }`,
  `__attribute__((export_name("${name}f"))) float a_${name}f(float x) { return ${name}f(x); }`,
]), ...Object.keys(BINARY).map((name) => `__attribute__((export_name("${name}"))) double a_${name}(double x, double y) { return ${name}(x, y); }`),
'__attribute__((export_name("kind"))) int kind(double x) { return isnan(x) * 4 + isinf(x) * 2 + isfinite(x); }',
'__attribute__((export_name("lround"))) int a_lround(double x) { return lround(x); }', ''].join('\n');
const NUMBERS = [0, -0, 0.25, -0.5, 0.5, 1.5, -1.5, 2.5, -2.75, 0.49999999999999994, 1e9 + 0.5, -4, 1e300];

/** The nearest integer: the even one of two, or the one farther from zero. */
function toEven(x) {
  const whole = Math.floor(x), part = x - whole;
  return part < 0.5 || (part === 0.5 && whole % 2 === 0) ? (whole || (x < 0 || Object.is(x, -0) ? -0 : 0)) : (whole + 1 || (x < 0 ? -0 : 0));
}
function away(x) {
  const whole = Math.trunc(x);
  return Math.abs(x - whole) >= 0.5 ? whole + Math.sign(x) : whole;
}

/** A function of doubles or floats of a lowered module, which takes and gives their bits. */
function onNumbers(exported, isSingle) {
  const view = new DataView(new ArrayBuffer(8));
  const bits = (x) => (isSingle ? (view.setFloat32(0, x), view.getInt32(0)) : (view.setFloat64(0, x), view.getBigInt64(0)));
  const number = (given) => (isSingle ? (view.setInt32(0, given), view.getFloat32(0)) : (view.setBigInt64(0, given), view.getFloat64(0)));
  return { bits, call: (...args) => number(exported(...args.map(bits))) };
}

/** What math.h has gives the results that JavaScript's functions give. */
function testMath({ note, room }) {
  const made = buildSource(room, MATH);
  const exports = /** @type {Record<string, any>} */ (made.bytes ? new WebAssembly.Instance(new WebAssembly.Module(made.bytes)).exports : {});
  const wrong = [];
  const compare = (name, expected, found) => { if (!Object.is(expected, found)) wrong.push(`${name}: ${found}, expected ${expected}`); };
  for (const x of made.bytes ? NUMBERS : []) {
    for (const [name, expected] of Object.entries(UNARY)) {
      compare(`${name} ${x}`, expected(x), onNumbers(exports[name], false).call(x));
      compare(`${name}f ${x}`, Math.fround(expected(Math.fround(x))), onNumbers(exports[`${name}f`], true).call(x));
    }
    for (const [name, expected] of Object.entries(BINARY)) compare(`${name} ${x} -1`, expected(x, -1), onNumbers(exports[name], false).call(x, -1));
  }
  if (made.bytes) {
    const { bits } = onNumbers(exports.kind, false);
    compare('kinds', '4,2,1', [NaN, -Infinity, 1].map((x) => exports.kind(bits(x))).join());
    compare('lround', '3,-3,0', [2.5, -2.5, 0.25].map((x) => exports.lround(bits(x))).join());
    compare('fmin of a NaN', 7, onNumbers(exports.fmin, false).call(NaN, 7));
    compare('fmax of a NaN', 7, onNumbers(exports.fmax, false).call(7, NaN));
  }
  note(made.status === 0 && made.bytes && !wrong.length, `math.h has what C says${wrong.slice(0, 4).map((line) => `; ${line}`).join('')}`, made);
}

/** Builds a C program of this source; answers what the command did, and the module's bytes if there is one. */
function buildSource(room, source, environment) {
  const [from, to] = ['program.c', 'program.wasm'].map((name) => join(room, name));
  rmSync(to, { force: true });
  writeFileSync(from, source);
  const made = build(C, from, to, environment);
  return { ...made, bytes: existsSync(to) ? readFileSync(to) : null };
}

/** The number of atomic accesses of 4 bytes: an opcode that begins with FE, and an alignment of 2. */
function atomicAccesses(bytes) {
  let count = 0;
  for (let at = 0; at + 2 < bytes.length; at++) if (bytes[at] === 0xfe && bytes[at + 1] >= 0x10 && bytes[at + 2] === 2) count++;
  return count;
}

/** A PATH on which a tool is this shell script. */
function pathWith(room, tool, script) {
  const bin = join(room, `bin-${tool}`);
  mkdirSync(bin, { recursive: true });
  writeFileSync(join(bin, tool), `#!/bin/bash\n${script}\n`);
  chmodSync(join(bin, tool), 0o755);
  return { PATH: `${bin}${delimiter}${process.env.PATH}` };
}

/** `wasm-objdump` as it shows an object with these features. */
const showing = (room, ...features) => pathWith(room, 'wasm-objdump', [' - name: "target_features"', ...features.map((one) => `  - ${one}`)]
  .map((line) => `echo '${line}'`).join('\n'));

function testStrippedC({ note, room }) {
  const plain = buildSource(room, storeBuffering('static'));
  const count = plain.bytes ? atomicAccesses(plain.bytes) : 0;
  note(plain.status === 0 && count === 4, `a C program is built with its four atomic accesses: ${count}`, plain);
  for (const word of ['static _Thread_local', 'static __thread']) {
    const local = buildSource(room, storeBuffering(word));
    const isKept = local.status === 0 && atomicAccesses(local.bytes) === 4;
    const hasBlocks = /export b: its thread-local variables begin at/.test(local.out);
    note(isKept && hasBlocks, `a C program with ${word} is built with its atomic accesses, and a block for each start`, local);
  }
  const marked = buildSource(room, storeBuffering('static'), showing(room, '[-] atomics'));
  note(marked.status === 2 && !marked.bytes, 'an object that is marked -atomics is refused', marked);
  const silent = buildSource(room, storeBuffering('static'), showing(room));
  note(silent.status === 2 && !silent.bytes, 'an object that states nothing on atomics is refused', silent);
  const optimizer = join(room, 'optimized');
  const alone = buildSource(room, storeBuffering('static'), pathWith(room, 'wasm-opt', `touch '${optimizer}'; exit 1`));
  note(alone.status === 0 && !existsSync(optimizer), 'wasm-opt, which drops fences, is not run', alone);
  const grown = buildSource(room, GROWING);
  note(grown.status === 2 && !grown.bytes && /leave no page to grow \(Growth\)/.test(grown.err), 'a program whose allocations would all fail is refused', grown);
  const large = buildSource(room, LARGE);
  note(large.status === 2 && !large.bytes && /17 pages, 1 too many \(Pages\)/.test(large.err), 'a program that is too large is refused, with how much', large);
  const copy = buildSource(room, COPY);
  const copied = copy.bytes && /** @type {Function} */ (new WebAssembly.Instance(new WebAssembly.Module(copy.bytes)).exports.a)(7);
  note(copy.status === 0 && copied === 7, 'a C program that copies and fills large structures is built', copy);
  testMath({ note, room });
  const without = buildSource(room, COPY, { CLANG: join(room, 'none') });
  note(without.status === 2 && !without.bytes && /apt-get install/.test(without.err), 'a missing C compiler is named', without);
}

/** A copy of the recipe whose folder cannot be written has std in the folder for caches, or asks for one. */
function testStdFolder({ note, room }) {
  const folder = join(room, 'clone', 'examples', 'rust');
  cpSync(join(EXAMPLES, 'rust', 'build.sh'), join(folder, 'build.sh'));
  writeFileSync(join(room, 'clone', '.built'), '');
  const words = [join(EXAMPLES, 'rust', 'std-mutex.rs'), join(room, 'std-mutex.wasm')];
  const made = run(join(folder, 'build.sh'), words, { env: { ...process.env, XDG_CACHE_HOME: '/dev/null' } });
  const isAsked = /build\.sh: \/dev\/null\/wmlab\/rust-std cannot be made; .*XDG_CACHE_HOME=FOLDER/.test(made.err);
  note(made.status === 2 && isAsked, 'a clone that cannot be written asks for a folder for std', made);
}

/** Rust without the feature `atomics`: the compiler makes atomic accesses plain ones, and nothing in the module shows it. */
function testStrippedRust({ note, room }) {
  const compiler = join(room, 'rustc');
  writeFileSync(compiler, `#!/bin/bash\nexec ${RUSTC} "\${@/+atomics,/}"\n`);
  chmodSync(compiler, 0o755);
  const [source, out] = [join(EXAMPLES, 'rust', 'mutex.rs'), join(room, 'stripped.wasm')];
  const stripped = build(RUST, source, out, { RUSTC: compiler });
  const isNamed = /atomic accesses plain ones/.test(stripped.err);
  note(stripped.status === 2 && !existsSync(out) && isNamed, 'Rust without atomics is refused, and the cause named', stripped);
  const answers = `case $* in --version) exec echo 'rustc 9.9.9' ;; '--print sysroot') exec echo '${room}' ;; esac`;
  writeFileSync(compiler, `#!/bin/bash\n${answers}\nexec ${RUSTC} "$@"\n`);
  const single = build(RUST, join(EXAMPLES, 'rust', 'std-mutex.rs'), out, { RUSTC: compiler });
  const isAsked = /one thread only .*apt-get install rust-src/.test(single.err);
  note(single.status === 2 && !existsSync(out) && isAsked, 'std\'s locks without the source of std are refused', single);
  testStdFolder({ note, room });
  const missing = build(RUST, source, out, { RUSTC: join(room, 'none') });
  note(missing.status === 2 && /apt-get install/.test(missing.err), 'a missing Rust compiler is named', missing);
}

export const testC = (context) => testRecipe(context, C, testStrippedC);
export const testRust = (context) => testRecipe(context, RUST, testStrippedRust);
