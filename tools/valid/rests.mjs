#!/usr/bin/env node
// Evaluates random programs with object rests in parameters, catch clauses, heads of loops, declarations, exported ones and assignments before and
// after the tool lowered them, by node itself: the same properties have to be read and set in the same order, the same values seen, the same names
// exported with the same values, and the same errors thrown. Names are few, so that patterns, default values, other parameters and bodies meet them. What the
// tool refuses is counted.
//   rests.mjs [--seed N] [--count N] [--imported] [--all] [--tool PROGRAM]     so many programs, with helpers of `babelHelpers` or required ones, by all flags or one
import { parseArgs } from 'node:util';
import '../estree/babel-helpers.cjs';
import { canonicalText, read } from '../estree/lib/form.mjs';
import { hasParser } from '../estree/lib/parsers.mjs';
import { textToTree } from '../estree/lib/texts.mjs';
import { print } from '../estree/print.mjs';
import { lowerAll } from './lib/tool.mjs';

const NAMES = ['a', 'b', 'c', 'd', 'e', 'g'];
const { values } = parseArgs({
  options: { seed: { type: 'string', default: '1' }, count: { type: 'string', default: '300' }, imported: { type: 'boolean' }, all: { type: 'boolean' }, tool: { type: 'string' } },
});
const WORDS = [values.all ? '--all' : '--rest-spread', ...values.imported ? [] : ['--helpers=external']];
let state = Number(values.seed);
let places = 0;
/** The names that no pattern or parameter of the program at hand binds yet. */
let free = [];

if (hasParser) await main();
else console.log('tools/valid: passed over, no parser for trees is installed (Debian: node-acorn)');

async function main() {
  const sources = Array.from({ length: Number(values.count) }, program).filter(isProgram);
  const runs = lowerAll(sources.map(source => canonicalText(textToTree(source, { module: isModule(source) }))), { tool: values.tool, words: WORDS });
  let refused = 0;
  let differing = 0;
  let seen = 0;
  for (const [index, { status, stdout, stderr }] of runs.entries()) {
    if (status === 1 && /^lower: unsupported (NotBuilt|HeadName|Rest\w+|Arrow\w+) /.test(stderr)) {
      refused += 1;
      continue;
    }
    if (status !== 0) throw new Error(`${sources[index]}\nthe tool ends with ${status}: ${stderr}`);
    const after = print(read(JSON.parse(stdout)));
    const [left, right] = [await evaluated(sources[index]), await evaluated(after)];
    seen += left.length;
    if (left.join() === right.join()) continue;
    differing += 1;
    console.log(`${sources[index]}\n  ${left.join(' ')}\n${after}\n  ${right.join(' ')}`);
  }
  console.log(`tools/valid: ${runs.length} programs with object rests, ${refused} refused, ${seen} things seen in the others, ${differing} differ`);
  process.exitCode = differing === 0 ? 0 : 1;
}

function below(limit) {
  state = (Math.imul(state, 1103515245) + 12345) >>> 0;
  return (state >>> 8) % limit;
}

function place() {
  places += 1;
  return places;
}

function pick(list) {
  return list[below(list.length)];
}

/** Some of these programs break a static rule, as a name that is declared twice. */
function isProgram(source) {
  try {
    return Boolean(isModule(source) ? textToTree(source, { module: true }) : new Function(source));
  } catch {
    return false;
  }
}

/** Scripts export nothing. */
function isModule(text) {
  return /\bexport\b/.test(text);
}

/** A name to bind, which no other binds as long as there are some. */
function bound() {
  if (free.length === 0) return pick(NAMES);
  return free.splice(below(free.length), 1)[0];
}

function program() {
  free = [...NAMES];
  const made = pick([inFunction, inFunction, inFunction, inCatch, inLoop, inDeclaration, inExport, inAssignment, inAssignment, inAssignment])();
  return `${below(4) === 0 ? '"use strict"; ' : ''}${made}`;
}

function inFunction() {
  const rest = below(4) === 0 ? [`...${bound()}`] : [];
  const parameters = [...Array.from({ length: 1 + below(3) }, parameter), ...rest].join(', ');
  const handed = Array.from({ length: below(4) }, () => pick([`source(${place()})`, `source(${place()})`, `source(${place()})`, 'undefined', 'null'])).join(', ');
  const made = pick([
    () => `function f(${parameters}) { ${body()} } f(${handed});`,
    () => `(function (${parameters}) { ${body()} })(${handed});`,
    () => `((${parameters}) => { ${body()} })(${handed});`,
    () => `((${parameters}) => ${tells()})(${handed});`,
    () => `((${parameters}) => ${tells()})(${handed});`,
    () => `({ m(${parameters}) { ${body()} } }).m(${handed});`,
    () => `new (class { constructor(${parameters}) { ${body()} } })(${handed});`,
  ]);
  return made();
}

function inCatch() {
  return `try { throw source(${place()}); } catch (${pattern()}) { ${body()} } ${tells()};`;
}

function inLoop() {
  const head = `${pick(['const', 'let', 'var'])} ${pattern()}`;
  const loop = pick([
    () => `for (${head} of [source(${place()}), ${value()}, source(${place()})]) { ${body()} }`,
    () => `for (${head} in { x: ${value()}, yz: 1 }) ${tells()};`,
  ]);
  return `${loop()} ${tells()};`;
}

function inDeclaration() {
  return `${pick(['const', 'let', 'var'])} ${pattern()} = ${value()}, ${pattern()} = source(${place()}); ${body()}`;
}

/** An assignment to a pattern with a rest as a statement, where its value is used, and as the head of a loop. */
function inAssignment() {
  const assigns = `${assigned()} = ${value()}`;
  const made = pick([
    () => `(${assigns});`,
    () => `(${assigns});`,
    () => `((${assigns}));`,
    () => `${pick(NAMES)} = ${assigns};`,
    () => `see(${place()}, [(${assigns})]);`,
    () => `(${assigns}), told(${place()});`,
    () => `(function (${pick(NAMES)} = (${assigns})) { ${tells()}; })();`,
    () => `see(${place()}, [(() => (${assigns}))()]);`,
    () => `see(${place()}, [new (class { x = (${assigns}); })().x]);`,
    () => `{ ${body()} (${assigns}); ${tells()}; }`,
    () => `for (${assigned()} of [source(${place()}), ${value()}, source(${place()})]) { ${body()} }`,
    () => `for (${assigned()} in { x: ${value()}, yz: 1 }) ${tells()};`,
    () => `for (${assigns}; ${assigned()} = source(${place()}); ) { ${tells()}; break; }`,
  ]);
  return `${made()} ${tells()};`;
}

function assigned() {
  return `{ ${[...Array.from({ length: below(3) }, assignedProperty), `...${target()}`].join(', ')} }`;
}

function assignedProperty() {
  return pick([
    () => pick(NAMES), () => `${pick(NAMES)} = ${value()}`, () => `p${below(3)}: ${target()}`, () => `"p${below(3)}": ${target()} = ${value()}`,
    () => `${pick(['["p1"]', '[`p0`]', '0', '[0n]', '[null]', '[true]'])}: ${target()}`, () => `[${key()}]: ${target()}`, () => `[${key()}]: ${target()} = ${value()}`,
    () => `[${key()}]: ${target()}`, () => `p1: { ${assignedProperty()} }`, () => `c: [${target()}, ...${target()}] = []`, () => `a: ${target()} = (${assigned()} = ${value()})`,
    () => `p1: ${below(4) === 0 ? assigned() : target()}`,
  ])();
}

function target() {
  return pick([
    () => pick(NAMES), () => pick(NAMES), () => pick(NAMES), () => `(${pick(NAMES)})`, () => `target(${place()}).p${below(3)}`, () => `(target(${place()}).q)`,
    () => `target(${place()})[${key()}]`,
  ])();
}

function inExport() {
  const declared = `${pick(['const', 'let', 'var'])} ${pick([pattern, pattern, bound])()} = ${value()}, ${pattern()} = ${value()};`;
  const beside = pick(['', `export { ${pick(NAMES)} as x };`, `export const { ...${bound()} } = source(${place()});`, `export default told(${place()});`]);
  return pick([`export ${declared} ${beside} ${tells()};`, `${beside} export ${declared}`, `${tells()}; ${beside} export ${declared} ${body()}`]);
}

function parameter() {
  const made = pick([
    bound,
    () => `${bound()} = ${value()}`,
    () => `{ ${property()} }`,
    pattern,
    pattern,
    pattern,
    () => `${pattern()} = ${value()}`,
  ]);
  return made();
}

function pattern() {
  return `{ ${[...Array.from({ length: below(3) }, property), `...${bound()}`].join(', ')} }`;
}

/** A property, in some patterns with a pattern as its value, which has a rest or none. */
function property() {
  if (below(5) === 0) return `${pick(['a', 'p1', '"c"', `["p1"]`, `[${key()}]`])}: ${inner()}${pick(['', '', ` = ${value()}`])}`;
  const name = bound();
  return pick([
    name, `${name} = ${value()}`, `p${below(3)}: ${name}`, `"p${below(3)}": ${name} = ${value()}`,
    `["p${below(3)}"]: ${name}`, `${pick(['0', '0x0', '0n', '[0]', '[0n]', '[null]', '[true]', '[false]'])}: ${name}`,
    `[${key()}]: ${name}`, `[${key()}]: ${name} = ${value()}`, `[${key()}]: ${name}`,
  ]);
}

function inner() {
  return pick([pattern, pattern, pattern, () => `{ ${property()} }`, () => `[${bound()}]`, () => `[${bound()}, ...${bound()}]`])();
}

/** A computed key that is read, and may be told, write a name or throw; or the text of a template. Its value is no object. */
function key() {
  return pick([
    `told(${place()})`, pick(NAMES), `${pick(NAMES)} = "p${below(3)}"`, `(told(${place()}), "p${below(3)}")`, `\`p\${${below(3)}}\``, `\`p${below(3)}\``,
    `Symbol.iterator`, `told(${place()}) - ${place()}`, `null.x`,
  ]);
}

function value() {
  return pick([`source(${place()})`, `told(${place()})`, pick(NAMES), `() => ${pick(NAMES)}`, `{ a: told(${place()}), p1: ${pick(NAMES)} }`]
    .map(text => (text.startsWith('{') || text.startsWith('()') ? `(${text})` : text)));
}

/** Tells what the names are. */
function tells() {
  return `see(${place()}, [${NAMES.map(name => `() => ${name}`).join(', ')}])`;
}

function body() {
  const name = pick(NAMES);
  const declared = pick([
    '', '', '',
    `var ${name} = told(${place()});`,
    `let ${name} = told(${place()});`,
    `{ let ${name} = told(${place()}); }`,
    `{ function ${name}() {} }`,
    `if (told(${place()})) { var ${name}; }`,
    `function ${name}() {}`,
    `${name} = told(${place()});`,
  ]);
  return pick([`${declared} ${tells()};`, `${tells()}; ${declared} ${tells()};`]);
}

/** What is read, called and seen as the text runs, and how it ends. The names are those of the function around it, where it has no other. */
async function evaluated(text) {
  const log = [];
  const symbol = Symbol('symbol');
  const told = number => { log.push(`told ${number}`); return number; };
  const source = number => {
    const made = {};
    const keys = ['a', 'p0', 'b', 'p1', 'c', symbol, 'g', '0', 'null', 'true'].filter((_, index) => (number >> index % 4) % 2 === 0 || index > 5);
    for (const key of keys) {
      Object.defineProperty(made, key, { enumerable: key !== 'g', get: () => { log.push(`get ${String(key)} of ${number}`); return held(key, number); } });
    }
    return made;
  };
  /** Of some properties the value is undefined or null, or has properties of its own. */
  const held = (key, number) => {
    if (key === 'p1' && number < 1000) return source(number * 100 + 1);
    if (key === 'c') return [undefined, null, `c${number}`][number % 3];
    return `${String(key)}${number}`;
  };
  const see = (number, names) => { log.push(`${number}:${names.map(name => described(name, 2)).join(';')}`); };
  /** What is set tells it. */
  const target = number => new Proxy({}, { set: (_, key, set) => { log.push(`set ${String(key)} of ${number} to ${described(set, 2)}`); return true; } });
  const host = { told, source, target, see, require: requireHelper };
  try {
    if (isModule(text)) {
      log.push(...await exported(text, host));
      return log;
    }
    const outer = JSON.stringify(NAMES.map(name => `outer ${name}`));
    new Function(...Object.keys(host), `let [${NAMES.join(', ')}] = ${outer}; (function () { ${text} })();`)(...Object.values(host));
  } catch (error) {
    log.push(`throws ${error.constructor.name}`);
  }
  return log;
}

/** The names that a module exports, each with its value, where these names of the host and the outer ones are global. */
async function exported(text, host) {
  Object.assign(globalThis, host, Object.fromEntries(NAMES.map(name => [name, `outer ${name}`])));
  const module = await import(moduleUrl(text.replace(/"@oxc-project\/runtime\/helpers\/(\w+)"/g, (_, name) => JSON.stringify(helperUrl(name)))));
  return Object.entries(module).map(([name, value]) => `${name} is ${described(value, 2)}`);
}

/** A module that gives the helper. */
function helperUrl(name) {
  return moduleUrl(`export default globalThis.babelHelpers.${name};`);
}

/** Each module is one of its own, also where another has its text. */
function moduleUrl(text) {
  places += 1;
  return `data:text/javascript,${encodeURIComponent(`${text}\n// ${places}`)}`;
}

/** The helper that a script requires of its module. */
function requireHelper(path) {
  const [, name] = path.match(/^@oxc-project\/runtime\/helpers\/(\w+)$/);
  return globalThis.babelHelpers[name];
}

/** What a function gives, or the value itself; of an object its own properties, read as they stand. */
function described(value, depth) {
  if (typeof value === 'function' && depth > 0) {
    try {
      return `gives ${described(value(), depth - 1)}`;
    } catch (error) {
      return `throws ${error.constructor.name}`;
    }
  }
  if (typeof value === 'function') return 'a function';
  if (typeof value !== 'object' || value === null) return String(value);
  return `{${Reflect.ownKeys(value).map(key => {
    const { value: held, get, enumerable } = Object.getOwnPropertyDescriptor(value, key);
    return `${String(key)}${enumerable ? '' : '!'}=${get ? 'getter' : described(held, 0)}`;
  }).join()}}`;
}
